//! Scripts for the console, made call by call beside the model, so that a host in them can answer what is asked.

use crate::bits::{power_of_two, same};
use crate::bytes::Reader;
use crate::console::{Call, Console, Told, put_call, read_call};
use crate::model::{ANSWERS, Answer, Attempt, Opening, PLACES, Session, Vector};
use crate::pass::{ESTIMATING, QUESTIONS};
use crate::table::{Table, broken_rules};
use crate::tolerances::{Tolerances, is_bad};
use std::collections::BTreeMap;

/// Counts under a heading each.
type Counts = BTreeMap<(&'static str, String), usize>;

pub const TABLES_REFUSED: &str = "tables refused for one rule";
pub const STEPS_REFUSED: &str = "whole steps refused on the way";
pub const STRAYS: &str = "supplies with another place";
pub const BEHIND_9: &str = "what the open question's place would have told";
pub const PRODUCTS: &str = "products of a ready";
pub const TERMS: &str = "terms of a filled";
pub const SQUARINGS: &str = "squarings of a filled";

/// How often each outcome of each op was told.
#[derive(Clone, Debug, Default, Eq, PartialEq)]
pub struct Tally {
    pub outcomes: Counts,
    /// What was seen of tolerances, of sessions brought over, of whole steps and tables refused, and of places of questions.
    pub seen: Counts,
    /// The schemes that came to a candidate, by whether the Jacobian was supplied or differenced.
    pub ready: BTreeMap<(u8, bool), usize>,
    /// The whole steps that were taken, by scheme.
    pub stepped: BTreeMap<u8, usize>,
    /// The dimensions in which a candidate was come to.
    pub dimensions: BTreeMap<u8, usize>,
    /// What else the scripts hold, by name.
    pub kinds: BTreeMap<&'static str, usize>,
    /// The largest of each count that was told.
    pub largest: BTreeMap<&'static str, u32>,
}

fn add<K: Clone + Ord>(to: &mut BTreeMap<K, usize>, from: &BTreeMap<K, usize>) {
    for (key, count) in from {
        *to.entry(key.clone()).or_default() += count;
    }
}

/// A line for each heading.
fn lines(counts: &Counts) -> String {
    let mut lines: BTreeMap<&str, Vec<String>> = BTreeMap::new();
    for ((heading, what), count) in counts {
        lines.entry(heading).or_default().push(format!("{what} {count}"));
    }
    lines.iter().map(|(heading, counts)| format!("  {heading}: {}\n", counts.join(", "))).collect()
}

impl Tally {
    pub fn calls(&self) -> usize {
        self.outcomes.values().sum()
    }

    pub fn add(&mut self, other: &Tally) {
        add(&mut self.outcomes, &other.outcomes);
        add(&mut self.seen, &other.seen);
        add(&mut self.ready, &other.ready);
        add(&mut self.stepped, &other.stepped);
        add(&mut self.dimensions, &other.dimensions);
        add(&mut self.kinds, &other.kinds);
        for (count, number) in &other.largest {
            self.reach(count, *number);
        }
    }

    fn reach(&mut self, count: &'static str, number: u32) {
        let largest = self.largest.entry(count).or_default();
        *largest = number.max(*largest);
    }

    pub fn note(&mut self, kind: &'static str) {
        *self.kinds.entry(kind).or_default() += 1;
    }

    fn see(&mut self, heading: &'static str, what: impl Into<String>) {
        *self.seen.entry((heading, what.into())).or_default() += 1;
    }

    /// A line for each op, with its outcomes, then what else was counted.
    pub fn report(&self) -> String {
        let mut text = lines(&self.outcomes) + &lines(&self.seen);
        let least = |counts: &[usize]| counts.iter().copied().min().unwrap_or(0);
        let schemes: Vec<usize> = (0..16)
            .flat_map(|scheme| [(scheme, true), (scheme, false)])
            .map(|key| self.ready.get(&key).copied().unwrap_or(0))
            .collect();
        let dimensions: Vec<usize> =
            (1..=16).map(|n| self.dimensions.get(&n).copied().unwrap_or(0)).collect();
        let candidates: usize = self.dimensions.values().sum();
        text += &format!(
            "  candidates: {candidates}; at least {} for each scheme with a Jacobian supplied and differenced, \
             at least {} in each dimension\n",
            least(&schemes),
            least(&dimensions)
        );
        let steps: Vec<usize> =
            (0..16).map(|scheme| self.stepped.get(&scheme).copied().unwrap_or(0)).collect();
        text += &format!(
            "  whole steps taken: {}; at least {} by each scheme\n",
            steps.iter().sum::<usize>(),
            least(&steps)
        );
        for (count, number) in &self.largest {
            text += &format!("  most {count}: {number}\n");
        }
        for (kind, count) in &self.kinds {
            text += &format!("  {kind}: {count}\n");
        }
        text
    }
}

/// A script as it grows, and the model's replies to it.
#[derive(Default)]
pub struct Script {
    pub bytes: Vec<u8>,
    pub replies: Vec<u8>,
    pub console: Console,
    pub tally: Tally,
    /// Whether the session was brought over, and whether its attempt came with it.
    brought_over: bool,
    attempt_brought_over: bool,
    /// The answer that was supplied last in the attempt, and its place.
    taken: Option<(u8, Vector)>,
    /// Whether an answer to another question was refused in the attempt.
    strayed: bool,
}

impl Script {
    /// The calls of these bytes, as far as they are calls. A byte that counts as another is written as that one.
    pub fn replay(bytes: &[u8]) -> Self {
        let mut script = Self::default();
        let mut reader = Reader::new(bytes);
        while let Some(call) = read_call(&mut reader) {
            script.call(&call);
        }
        script
    }

    pub fn call(&mut self, call: &Call) -> Told {
        put_call(&mut self.bytes, call);
        self.note_what_is_handed_in(call);
        let before = self.console.session.clone();
        let told = self.console.call(call, &mut self.replies);
        self.note_tolerances(call, &before, told.answer);
        self.note_bringing_over(call, told.answer);
        self.note_whole_step(call, &before, told.answer);
        self.note_place(call, &before, told.answer);
        match told.answer {
            Some(Answer::Ready { products, .. }) => {
                self.tally.reach(PRODUCTS, products);
                let session = &self.console.session;
                let supplied = session.attempt == Attempt::Supplied;
                *self.tally.ready.entry((session.scheme, supplied)).or_default() += 1;
                *self.tally.dimensions.entry(session.n).or_default() += 1;
            }
            Some(Answer::Filled { terms, squarings }) => {
                self.tally.reach(TERMS, terms);
                self.tally.reach(SQUARINGS, squarings);
            }
            Some(Answer::Refused(number @ 1..=5)) if takes_a_session(call) => {
                // Drop tests the session alone.
                let by_session = before.drop_attempt().0 == Answer::Refused(number);
                let by_derivative = number == 3 && matches!(call, Call::WholeStep { .. });
                if by_session {
                    self.tally.note(ON_SESSION[usize::from(number)]);
                } else if !by_derivative {
                    self.tally.note(HANDED_IN[usize::from(number)]);
                }
            }
            Some(Answer::Refused(number @ 1..=5)) => self.tally.note(HANDED_IN[usize::from(number)]),
            _ => {}
        }
        if let (Call::Begin { supplied: true, step, jacobian, .. }, Some(answer)) = (call, &told.answer)
            && !matches!(answer, Answer::Refused(_))
        {
            let n = usize::from(self.console.session.n);
            let sum = |row: &[f64]| row.iter().map(|entry| (step * entry).abs()).sum::<f64>();
            let norm = jacobian[..n * n].chunks(n).map(sum).fold(0.0, f64::max);
            self.tally.note(match norm {
                ..=1.0 => "begun soft (row sums of h J up to 1)",
                ..=100.0 => "begun between (row sums of h J up to 100)",
                _ => "begun stiff (row sums of h J above 100)",
            });
        }
        *self.tally.outcomes.entry((name(call), outcome(told.answer))).or_default() += 1;
        told
    }

    /// The tolerances that settled a figure or a refusal. Equal ones are counted where there are several.
    fn note_tolerances(&mut self, call: &Call, before: &Session, answer: Option<Answer>) {
        let Some((holder, n, relative, absolute)) = tolerances_of(call, before) else { return };
        let (used, past) = absolute.split_at(n);
        match answer {
            Some(Answer::Refused(4)) if !is_bad(relative) => {
                for what in single_bad(used).into_iter().flatten() {
                    self.tally.see(holder, what);
                }
            }
            Some(Answer::Refused(1)) if refused_for_the_places_past_n(call, before, n) => {
                let minus_zero = past.iter().all(|tolerance| *tolerance == 0.0);
                self.tally.see(holder, if minus_zero { "-0.0 past n" } else { "a number past n" });
            }
            Some(answer) if n > 1 => {
                let equal = Tolerances { relative, absolute: used }.are_equal();
                if let Some(figure) = settled_by_tolerances(call, &answer, before.scheme) {
                    let kind = if equal { "equal" } else { "unequal" };
                    self.tally.see(holder, format!("{figure} by {kind} ones"));
                }
            }
            _ => {}
        }
    }

    /// What is brought over, and what becomes of it.
    fn note_bringing_over(&mut self, call: &Call, answer: Option<Answer>) {
        let heading = "sessions brought over";
        match call {
            Call::BringOver(old) => {
                self.brought_over = true;
                self.attempt_brought_over = old.attempt != Attempt::None;
                let phase = if self.attempt_brought_over { "in an attempt" } else { "at rest" };
                self.tally.see(heading, phase);
                match usize::from(old.n) {
                    0 => self.tally.see(heading, "n 0"),
                    1..=PLACES => {}
                    _ => self.tally.see(heading, "n above 16"),
                }
            }
            Call::Open(_) | Call::Load(_) => self.brought_over = false,
            _ if self.brought_over && takes_a_session(call) => {
                let accepted = matches!((call, answer), (Call::Accept { .. }, Some(Answer::Resting)));
                self.tally.see(
                    heading,
                    match accepted {
                        true if self.attempt_brought_over => "accepted in the attempt they came with".into(),
                        true => "accepted in a later attempt".into(),
                        false => outcome(answer),
                    },
                );
                self.attempt_brought_over &= answer != Some(Answer::Resting);
            }
            _ => {}
        }
    }

    /// Whole steps taken by scheme; of those refused, how far they came, and the rule of a table that breaks just one.
    fn note_whole_step(&mut self, call: &Call, before: &Session, answer: Option<Answer>) {
        let Call::WholeStep { step, table } = call else { return };
        match answer {
            Some(Answer::Resting) => *self.tally.stepped.entry(before.scheme).or_default() += 1,
            Some(Answer::Refused(8)) => {
                if let [rule] = broken_rules(table, before.n)[..] {
                    self.tally.see(TABLES_REFUSED, rule);
                }
            }
            Some(Answer::Refused(number @ (3 | 6))) if before.clone().drop_attempt().0 == Answer::Resting => {
                let table = Table::read(table, usize::from(before.n)).expect("8 comes before");
                let (_, _, calls) = before.clone().step_by_table(*step, &table);
                let columns = usize::from(before.n);
                let questions = columns + QUESTIONS[usize::from(before.scheme)];
                let place = if calls == 0 {
                    "before any answer"
                } else if calls <= columns {
                    "on a column's answer"
                } else if calls <= questions {
                    "on a stage's answer"
                } else if (before.time + step).is_finite() {
                    "at the candidate"
                } else {
                    "at a new time not finite"
                };
                self.tally.see(STEPS_REFUSED, format!("by {number} {place}"));
            }
            _ => {}
        }
    }

    /// Supplies with another place than the open question's: which one, their number, and what a 9 came before; and the
    /// attempts that were accepted nonetheless.
    fn note_place(&mut self, call: &Call, before: &Session, answer: Option<Answer>) {
        match (call, answer) {
            (Call::Supply { place, answer: handed, lent }, Some(answer)) => {
                if *place != before.count {
                    self.tally.see(STRAYS, outcome(Some(answer)));
                }
                let again = self.taken.is_some_and(|(last, taken)| last == *place && same(&taken, handed));
                if again && matches!(answer, Answer::Refused(7 | 9)) {
                    self.tally.see(STRAYS, format!("a duplicate {}", outcome(Some(answer))));
                }
                if answer == Answer::Refused(9) {
                    self.strayed = true;
                    self.tally.see(
                        STRAYS,
                        match *place {
                            255 => "255",
                            place if usize::from(place) >= ANSWERS => "past all places",
                            place if place > before.count => "early",
                            _ => "late",
                        },
                    );
                    let by_session = before.clone().drop_attempt().0;
                    let right = before.clone().supply(before.count, handed, &mut vec![0.0; *lent]).0;
                    let of = if by_session == right { " on the session" } else { "" };
                    self.tally.see(BEHIND_9, outcome(Some(right)) + of);
                } else if matches!(answer, Answer::Ask { .. } | Answer::Ready { .. }) {
                    self.taken = Some((*place, *handed));
                }
            }
            (Call::Accept { .. } | Call::Drop, Some(Answer::Resting))
            | (Call::Open(_) | Call::Load(_) | Call::BringOver(_), _) => {
                if self.strayed && matches!(call, Call::Accept { .. }) {
                    self.tally.see(STRAYS, "accepted after some");
                }
                (self.taken, self.strayed) = (None, false);
            }
            _ => {}
        }
    }

    /// Calls with a word that is finite and above 2^1000.
    fn note_what_is_handed_in(&mut self, call: &Call) {
        let huge = |values: &[f64]| values.iter().any(|x| x.is_finite() && x.abs() > power_of_two(1000));
        let found = match call {
            Call::Open(o) => huge(&[o.time]) || huge(&o.state) || huge(&o.derivative) || huge(&o.history),
            Call::Begin { step, jacobian, .. } => huge(&[*step]) || huge(&jacobian[..]),
            Call::Supply { answer, .. } => huge(answer),
            Call::Accept { derivative } => huge(derivative),
            Call::WholeStep { step, .. } => huge(&[*step]),
            Call::Exponential { entries, .. } => huge(entries),
            Call::PhiAction { scale_a, matrix, input, .. } => {
                huge(&[*scale_a]) || huge(matrix) || huge(input)
            }
            Call::ErrorNorm { error, state, candidate, .. } => huge(error) || huge(state) || huge(candidate),
            _ => false,
        };
        if found {
            self.tally.note("calls with a huge finite word");
        }
    }
}

const ON_SESSION: [&str; 6] = [
    "",
    "refused by 1 on the session",
    "refused by 2 on the session",
    "refused by 3 on the session",
    "refused by 4 on the session",
    "refused by 5 on the session",
];

/// On what is handed in; 2 by open, 4 by open and the bare error norm.
const HANDED_IN: [&str; 6] = [
    "",
    "refused by 1 on what is handed in",
    "refused by 2 on what is handed in",
    "refused by 3 on what is handed in",
    "refused by 4 on what is handed in",
    "refused by 5 on what is handed in",
];

fn outcome(answer: Option<Answer>) -> String {
    match answer {
        None => "done".into(),
        Some(Answer::Refused(number)) => format!("refused by {number}"),
        Some(Answer::Ask { .. }) => "ask".into(),
        Some(Answer::Ready { .. }) => "ready".into(),
        Some(Answer::Resting) => "resting".into(),
        Some(Answer::FirstStep(_)) => "first step".into(),
        Some(Answer::Filled { .. }) => "filled".into(),
        Some(Answer::Norm(_)) => "norm".into(),
    }
}

/// The tolerances that a call is judged by, those handed in or the session's, with a heading and a dimension that is one.
fn tolerances_of<'a>(call: &'a Call, session: &'a Session) -> Option<(&'static str, usize, f64, &'a Vector)> {
    let (holder, n, relative, absolute) = match call {
        Call::Open(o) => ("tolerances of open", o.n, o.relative, &o.absolute),
        Call::ErrorNorm { n, relative, absolute, .. } => {
            ("tolerances of the bare error norm", *n, *relative, absolute)
        }
        _ if takes_a_session(call) => {
            ("tolerances of a session", session.n, session.relative, &session.absolute)
        }
        _ => return None,
    };
    let n = usize::from(n);
    (1..=PLACES).contains(&n).then_some((holder, n, relative, absolute))
}

/// What is bad about the one bad tolerance, and where it is; nothing if there are more.
fn single_bad(used: &[f64]) -> Option<[&'static str; 2]> {
    let mut bad = (0..used.len()).filter(|place| is_bad(used[*place]));
    let (place, None) = (bad.next()?, bad.next()) else { return None };
    let what = match used[place] {
        x if x.is_nan() => "one NaN",
        x if x.is_infinite() => "one infinite",
        x if x.to_bits() == 0 => "one +0.0",
        x if x == 0.0 => "one -0.0",
        _ => "one negative",
    };
    let place = match place {
        0 => "bad in the first place",
        _ if place + 1 == used.len() => "bad in the last of several",
        _ => "bad between",
    };
    Some([what, place])
}

/// Whether the call would not be refused by 1 with +0.0 in the tolerances' places past n.
fn refused_for_the_places_past_n(call: &Call, session: &Session, n: usize) -> bool {
    let (mut call, mut session) = (call.clone(), session.clone());
    match &mut call {
        Call::Open(Opening { absolute, .. }) | Call::ErrorNorm { absolute, .. } => absolute[n..].fill(0.0),
        _ => session.absolute[n..].fill(0.0),
    }
    Console { session }.call(&call, &mut Vec::new()).answer != Some(Answer::Refused(1))
}

/// The figure of an answer that hangs on the tolerances; of an open, that they are taken.
fn settled_by_tolerances(call: &Call, answer: &Answer, scheme: u8) -> Option<&'static str> {
    match (call, answer) {
        (Call::Open(_), Answer::Resting) => Some("opened"),
        (_, Answer::FirstStep(_)) => Some("first step"),
        (_, Answer::Norm(_)) => Some("norm"),
        (_, Answer::Ready { .. }) if ESTIMATING.contains(&usize::from(scheme)) => Some("norm"),
        _ => None,
    }
}

fn takes_a_session(call: &Call) -> bool {
    matches!(
        call,
        Call::Begin { .. }
            | Call::Supply { .. }
            | Call::Accept { .. }
            | Call::Drop
            | Call::FirstStep { .. }
            | Call::WholeStep { .. }
    )
}

fn name(call: &Call) -> &'static str {
    match call {
        Call::Open(_) => "open",
        Call::Begin { .. } => "begin",
        Call::Supply { .. } => "supply",
        Call::Accept { .. } => "accept",
        Call::Drop => "drop",
        Call::FirstStep { .. } => "first step",
        Call::Exponential { .. } => "bare exponential",
        Call::PhiAction { .. } => "bare phi action",
        Call::ErrorNorm { .. } => "bare error norm",
        Call::Show => "show",
        Call::Load(_) => "load",
        Call::BringOver(_) => "bring over",
        Call::WholeStep { .. } => "whole step",
    }
}
