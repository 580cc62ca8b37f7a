#!/usr/bin/env python3
"""Writes the proofs of the schemes' functions, line by line of their passes. Run at the repository's root.

  python3 tools/lines.py CRATE [FN..]      writes crates/CRATE/proofs/FN/Answers.antt for each function of the plan

The plan is tools/plans/CRATE.txt; tools/README.md says how it is written. The order in which a function tries its exponentials is read off its source.
"""
import glob
import os
import re
import sys

WIDTH = 160

# a line of a pass: its law of methods/proofs/Lines.antt, and how many facts that takes
LAWS = {
    'begin': ('begin _ _ _ _ _', 0),
    'go': ('go_on _ _ _ _ _ _', 0),
    'now': ('at_once _ _ _', 1),
    'check': ('checked_line _ _ _', 1),
    'over': ('over_line _ _ _ _ _', 2),
    'plain': ('over_plain _ _ _ _ _', 2),
    'alone': ('alone _ _', 0),
    'report': ('reported _', 1),
    'first': ('first_part _ _ _', 1),
    'first-over': ('first-over _ _ _ _ _', 2),
    'part': ('next_part _ _ _ _', 1),
    'made': ('next_made _ _ _ _ _', 2),
    'part-now': ('part_now _ _ _', 1),
    'sum': ('summed _ _', 0),
}

# the same with a term for the first fact, which stands last in the plan; the term of a part is of one whose counts are not narrowed yet
BY = {verb + '-by': LAWS[verb] for verb in LAWS if LAWS[verb][1]} | {'part-by': ('next_plain _ _ _ _', 1)}

# where what is tried is not admitted: the law that ends the pass, out of that fact
FAILS = {
    'check': 'untried_line _ _ {}',
    'plain': 'untried_line _ _ (over_fails _ _ {})',
    'over': 'untried_line _ _ (over_fails _ _ {})',
    'wanted': 'untried_line _ _ (wanted_fails _ _ {})',
    'first': 'first_part _ _ _ refl (sum_fails _ _ {})',
    'first-over': 'first_part _ _ _ refl (sum_fails _ _ (over_fails _ _ {}))',
    'part': 'next_plain _ _ _ _ refl (sum_fails _ _ (narrowed_fails _ {}))',
    'made': 'next_plain _ _ _ _ refl (sum_fails _ _ (more_fails _ _ _ _ {}))',
}

# what a written answer may cite, by module
CITED = {
    'Rattle.std.proofs.Common': 'arith refl ap ◌∙◌',
    'Rattle.methods.specs.Vectors': 'add subtract axpy',
    'Rattle.methods.specs.Pass': 'also ◌>>=◌',
    'Rattle.methods.proofs.Made': 'taken_is untaken is_made none_made',
    'Rattle.methods.proofs.Lines':
        'begin go_on at_once checked_line over_line over_plain alone reported open_line last_line first_part first-over next_plain next_part next_made '
        'part_now summed answered_line handed_on handed_later wanted_line both_ask unasked unasked_line untried_line over_fails wanted_fails sum_fails '
        'narrowed_fails more_fails onto_fails stand_none',
}


def read(path):
    with open(path, encoding='utf8') as f:
        return f.read()


def code(crate, name):
    """A function's head and body, as its source has it."""
    source = '\n'.join(read(path) for path in sorted(glob.glob(f'crates/{crate}/src/*.rt')))
    # the brace of a body stands on its own line, where clauses stand before it
    m = re.search(rf'^(?:pub )?fn {name}\(((?:(?!^\}}).)*?)^\{{\n(.*?)^\}}\n', source, flags=re.M | re.S)
    if not m:
        sys.exit(f'no function {name} with clauses in crates/{crate}/src')
    return m[1], m[2]


def tries(body):
    """The names of what is tried, in order: that of the local it is given to, or else of the call."""
    names = []
    for m in re.finditer(r'\?', body):
        statement = body[:m.start()].rsplit(';', 1)[-1]
        given = re.match(r'\s*(?:\}\s*)?(?:if [^{]*\{\s*)?let (\w+) = (?:r\.)?(\w+)\(', statement)
        depth, at = 0, len(statement) - 1
        while at >= 0:
            depth += (statement[at] in ')]}') - (statement[at] in '([{')
            if depth == 0:
                break
            at -= 1
        callee = re.search(r'(\w+)$', statement[:at])[1]
        whole = given and given.end() == at + 1 and body[m.start() + 1] == ';'
        name = given[1] if whole else callee
        names.append(name)
    out = []
    for i, name in enumerate(names):
        k = names[:i].count(name)
        out.append(name if k == 0 else f'{name}-{k + 1}')
    return out


def bracketed(words):
    return words[0] if len(words) == 1 else '(' + ' '.join(words) + ')'


def tried(word):
    """Whether a plan's word names something that is tried."""
    return re.match(r'(phi_action|phi_term|phi_if|phi_term_if|add_term|exp_action|a52_of|hoch_ost4_sum)\b', word.split('|')[0])


class Writer:
    def __init__(self, crate, name, plan):
        self.crate, self.name, self.plan = crate, name, plan
        head, body = code(crate, name)
        self.tries = plan['tries'] or tries(body)
        asks = re.search(r'requires (?:\w+ )?\{ (\d) ≤ r\.now\.count \}', head)
        self.told = int(asks[1]) if asks else 0

    def stop(self, text):
        sys.exit(f'{self.crate}::{self.name}: {text}')

    # ---- facts

    def rewritten(self, fact, ys):
        ys = [f'c.{y}.ensures' for y in ys.split(',') if y]
        return f'(rw {ys[0] if len(ys) == 1 else "(" + ", ".join(ys) + ")"} at {fact})' if ys else fact

    def fact(self, word):
        """X: what the call X ensures; X<Y: the same, with what Y ensures of its last argument; X|Y,Z: with what Y and Z ensure put in."""
        if word == 'refl':
            return word
        if '|' in word:
            x, ys = word.split('|')
            return self.rewritten(f'c.{x}.ensures', ys)
        if '<' not in word:
            return f'c.{word}.ensures'
        x, y = word.split('<', 1)
        before = ' _' * {'add': 2, 'scale': 2, 'subtract': 2, 'axpy': 3}[re.match(r'\w+', x)[0]]
        return f'(c.{x}.ensures ∙ ap ({re.match(chr(92) + "w+", x)[0]}{before}) {self.fact(y)})'

    def ok(self, name, ys):
        return f'(taken_is _ _ {self.rewritten(f"c.in_ok-{name}.ensures", ys)})'

    def failed(self, name, ys):
        return f'(untaken _ {self.rewritten(f"c.in_err-{name}.ensures", ys)})'

    def refused(self, name):
        step = 'from_residual' if name == self.tries[0] else f'from_residual-in_err-{name}'
        return f'(stand_none c.{step}.ensures)'

    def next_try(self, words):
        """What a line tries: as the plan says behind an @, or else the next one of the source."""
        for word in words:
            if word.startswith('@'):
                self.at = self.tries.index(word[1:])
        name = self.tries[self.at]
        self.at += 1
        return name

    # ---- a return, line by line

    def line(self, words, passed):
        """The law of a line, where the pass has been given so many answers, and what the line tries, with the law that ends the pass there."""
        verb, rest = words[0], [w for w in words[1:] if not w.startswith('@')]
        if verb in LAWS and len(rest) == LAWS[verb][1]:
            if rest and tried(rest[0]):
                name = self.next_try(words)
                ys = rest[0].split('|')[1] if '|' in rest[0] else ''
                law = ' '.join([LAWS[verb][0], self.ok(name, ys)] + [self.fact(word) for word in rest[1:]])
                return law, name, FAILS[verb].format(self.failed(name, ys)) if verb in FAILS else None
            return ' '.join([LAWS[verb][0]] + [self.fact(word) for word in rest]), None, None
        if verb in BY:
            law, count = BY[verb]
            return ' '.join([law, bracketed(rest[count - 1:])] + [self.fact(word) for word in rest[:count - 1]]), None, None
        if verb in ('wanted', 'wanted-by'):
            m = int(rest[0])
            name = self.next_try(words) if verb == 'wanted' else None
            fact = self.ok(name, '') if verb == 'wanted' else bracketed(rest[1:])
            unused = 'both_ask (λ r. ' * m + 'unasked' + ')' * m
            law = f'wanted_line {m} {m + passed} c.args.r.now.count _ _ _ {fact} (λ few. omega arith) (λ x y. unfold ◌>>=◌ also in {unused})'
            return law, name, name and FAILS[verb].format(self.failed(name, ''))
        if verb == 'open':
            none = f'(omega (arith, c.{rest[0]}.true))' if self.told else f'c.{rest[0]}.true'
            return f'open_line _ _ _ _ {none} c.in_ok-question.ensures', None, None
        if verb == 'answered':
            name = self.next_try(words)
            some = f'(omega (arith, c.{rest[0]}.false, c.requires))' if self.told else f'c.{rest[0]}.false'
            law = f'answered_line _ _ _ _ _ _ _ c.in_ok-question.ensures {some} {self.fact(rest[1])} (omega arith)'
            return law, name, 'unasked_line _ _ _ _ c.in_err-question.ensures'
        if verb == 'hand':
            return (f'handed_later _ _ {self.fact(rest[0])} (omega arith) (omega arith)' if self.told else f'handed_on {self.fact(rest[0])}'), None, None
        if verb == 'hand-all':
            return f'handed_on ({self.fact(rest[0])} _ _ _)', None, None
        if verb == 'end':
            return 'last_line _ _ _ ' + ' '.join(self.fact(word) for word in (['refl'] + rest)[-2:]), None, None
        if verb == 'by':
            return f'rw c.{rest[0]}.{rest[1]}', None, None
        if verb == 'fails':
            law = ' '.join(rest[1:])
            return (law.format(self.refused(rest[0])) if '{}' in law else f'{law} {self.refused(rest[0])}'), None, None
        return self.stop(f'no such line: {" ".join(words)}')

    def returned(self, goal, lines):
        """The answers of a return, and of each try on the way that fails."""
        if lines[0][0] == '=':
            return [(goal, '\n    '.join(' '.join(words[1:]) for words in lines))]
        out, laws, head, passed, self.at = [], [], '', self.told, 0
        for words in lines:
            if words[0] == 'for-all':
                head = 'λ ' + ' '.join(words[1:]) + '.\n    '
                continue
            law, name, fails = self.line(words, passed)
            if fails:
                out.append((f'returns-in_err-{name}', head + self.nested([law for law, kept in laws if kept] + [f'{fails} {self.refused(name)}' if 'sum_fails' not in fails else fails[:-1] + f' {self.refused(name)})'])))
            # a report and what stands alone are not needed where the pass fails
            laws.append((law, words[0] not in ('report', 'alone')))
            passed += words[0] == 'answered'
        return out + [(goal, head + self.nested([law for law, _ in laws]))]

    def nested(self, laws):
        return '\n    ('.join(laws) + ')' * (len(laws) - 1)

    # ---- the file

    def text(self):
        plan, answers = self.plan, dict(self.plan['goals'])
        # what the plan says itself stands before what follows from another return
        said = [goal for goal in plan['returns']]
        for goal in said:
            for name, term in self.returned(goal, plan['returns'][goal]):
                if name == goal or name not in [*said, *answers]:
                    answers[name] = term
        parts = []
        for goal, term in answers.items():
            unfolding = f'unfolding {" ".join(plan["unfold"])}\n' if plan['unfold'] else ''
            whole = f'{goal} c = {term}'
            if '\n' in term or len(whole) > WIDTH:
                whole = f'{goal} c =\n    {term}'
            parts.append(f'\npub {goal} : goal.{goal}\n{unfolding}{whole}\n')
        body = ''.join(parts)
        words = set(re.findall(r'[^\s(),;]+', body))
        library, ours = [], []
        for module, names in CITED.items():
            cited = [name for name in names.split() if name.strip('◌') in words or name in words]
            if cited:
                (ours if module.startswith('Rattle.methods') else library).append(f'use {module}.{{{", ".join(cited)}}}')
        uses = library + plan['uses'] + ours + [f'use Rattle.{self.crate}.proofs.{self.name}.Goals as goal']
        return f'-- `{self.crate}::{self.name}`: {plan["about"]}. Assumes nothing.\n' + '\n'.join(uses) + '\n' + body


def plans(crate):
    """The plan of each function."""
    out = {}
    for line in read(f'tools/plans/{crate}.txt').split('\n'):
        words = line.split()
        if not words or line.startswith('#'):
            continue
        if line.startswith(' '):
            lines.append(words)
        elif words[0] == 'fn':
            name, about = line[3:].split(': ', 1)
            plan = out[name] = {'about': about, 'unfold': [], 'uses': [], 'goals': {}, 'returns': {}, 'tries': []}
        elif words[0] == 'unfold':
            module, names = line[7:].split(': ')
            plan['unfold'] += names.split()
            plan['uses'].append(f'use {module}.{{{", ".join(names.split())}}}')
        elif words[0] == 'use':
            plan['uses'].append(line)
        elif words[0] == 'tries':
            plan['tries'] = words[1:]
        elif words[0] == 'goal':
            name, term = line[5:].split(': ', 1)
            plan['goals'][name] = term
        else:
            lines = plan['returns'][line] = []
    return out


def main(argv):
    if len(argv) < 2:
        sys.exit(__doc__)
    crate, wanted = argv[1], argv[2:]
    for name, plan in plans(crate).items():
        if not wanted or name in wanted:
            text = Writer(crate, name, plan).text()
            folder = f'crates/{crate}/proofs/{name}'
            os.makedirs(folder, exist_ok=True)
            with open(folder + '/Answers.antt', 'w', encoding='utf8') as f:
                f.write(text)


main(sys.argv)
