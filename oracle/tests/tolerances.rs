//! A tolerance for each component: beside the published functions where they can be, and sessions of the old layout.

use oracle::bits::{pattern, power_of_two};
use oracle::bytes::Reader;
use oracle::console::{BEFORE, Console, image, read_call};
use oracle::model::{ANSWERS, Answer, Attempt, Opening, PLACES, Session, bare_error_norm, vector};
use oracle::old_session::OldSession;
use oracle::pass::{ETD2, QUESTIONS};
use oracle::random::Random;
use oracle::random_script::random_script;
use oracle::tolerances::{Tolerances, alike};
use oracle::{SolveOptions, compared, published};
use std::collections::{BTreeMap, HashSet};

/// Error, state, candidate and derivative of one dimension.
struct Figures {
    error: Vec<f64>,
    state: Vec<f64>,
    candidate: Vec<f64>,
    derivative: Vec<f64>,
}

impl Figures {
    fn new(n: usize, mut one: impl FnMut() -> f64) -> Self {
        let mut vector = || (0..n).map(|_| one()).collect();
        Self { error: vector(), state: vector(), candidate: vector(), derivative: vector() }
    }

    /// In other units, each component's a power of two of the old one.
    fn scaled(&self, powers: &[i32]) -> Self {
        let scaled = |values: &[f64]| -> Vec<f64> {
            values.iter().zip(powers).map(|(value, power)| value * power_of_two(*power)).collect()
        };
        Self {
            error: scaled(&self.error),
            state: scaled(&self.state),
            candidate: scaled(&self.candidate),
            derivative: scaled(&self.derivative),
        }
    }

    /// The norm and the first step.
    fn published(&self, options: &SolveOptions, largest: f64) -> [u64; 2] {
        let step = published::estimate_initial_step(&self.state, &self.derivative, largest, options);
        let norm = published::scaled_error_norm(&self.error, &self.state, &self.candidate, options);
        [pattern(norm), pattern(step.unwrap())]
    }

    fn compared(&self, options: &SolveOptions, largest: f64) -> [u64; 2] {
        let step = compared::estimate_initial_step(&self.state, &self.derivative, largest, options);
        let norm = compared::scaled_error_norm(&self.error, &self.state, &self.candidate, options);
        [pattern(norm), pattern(step.unwrap())]
    }

    fn own(&self, tolerances: &Tolerances, largest: f64) -> [u64; 2] {
        let norm = tolerances.own_error_norm(&self.error, &self.state, &self.candidate);
        [pattern(norm), pattern(tolerances.own_first_step(&self.state, &self.derivative, largest))]
    }

    /// As the model works them out.
    fn modelled(&self, tolerances: &Tolerances, largest: f64) -> [u64; 2] {
        let norm = tolerances.error_norm(&self.error, &self.state, &self.candidate);
        [pattern(norm), pattern(tolerances.first_step(&self.state, &self.derivative, largest))]
    }
}

/// A tolerance of any size.
fn tolerance(random: &mut Random) -> f64 {
    loop {
        let tolerance = random.any_finite().abs();
        if tolerance > 0.0 {
            return tolerance;
        }
    }
}

#[test]
fn the_own_formulas_are_the_published_ones_where_the_tolerances_are_equal() {
    let mut random = Random::new(80);
    let mut figures_told = HashSet::new();
    for turn in 0..100_000 {
        let n = 1 + random.below(PLACES);
        // Ordinary figures, and words of every size.
        let ordinary = turn % 2 == 0;
        let figures = Figures::new(n, || if ordinary { random.unit() } else { random.any_finite() });
        let (relative, single) = match ordinary {
            true => (1e-3 * random.unit().abs() + 1e-9, 1e-3 * random.unit().abs() + 1e-9),
            false => (tolerance(&mut random), tolerance(&mut random)),
        };
        let largest = random.pick(&[1.0, f64::INFINITY, f64::EPSILON, 1e-6]);
        let options = SolveOptions::tolerances(relative, single);
        let absolute = alike(n, single);
        let tolerances = Tolerances { relative, absolute: &absolute[..n] };
        let own = figures.own(&tolerances, largest);
        assert_eq!(own, figures.published(&options, largest), "turn {turn}");
        assert_eq!(own, figures.compared(&options, largest), "turn {turn}");
        assert_eq!(own, figures.modelled(&tolerances, largest), "turn {turn}");
        figures_told.extend(own);
    }
    assert!(figures_told.len() > 50_000, "{}", figures_told.len());
}

/// In units that differ by powers of two the quotients keep their bits, so that the published functions settle these
/// unequal tolerances too.
#[test]
fn unequal_tolerances_are_equal_ones_in_other_units() {
    let mut random = Random::new(81);
    for turn in 0..20_000 {
        let n = 2 + random.below(PLACES - 1);
        let figures = Figures::new(n, || random.unit());
        let (relative, single) = (random.unit().abs() + 1e-9, random.unit().abs() + 1e-9);
        let powers: Vec<i32> = (0..n).map(|_| random.below(400) as i32 - 200).collect();
        let absolute: Vec<f64> = powers.iter().map(|power| single * power_of_two(*power)).collect();
        let unequal = Tolerances { relative, absolute: &absolute };
        let told = figures.scaled(&powers).modelled(&unequal, f64::INFINITY);
        let options = SolveOptions::tolerances(relative, single);
        assert_eq!(told, figures.published(&options, f64::INFINITY), "turn {turn}");
    }
}

/// Two components, their derivatives 1 and 1, under Exprb32.
fn session_of_two(absolute: [f64; 2]) -> Session {
    let (answer, session) = Session::open(&Opening {
        scheme: 14,
        n: 2,
        history_held: false,
        time: 0.0,
        relative: 1.0,
        absolute: vector(&absolute),
        state: vector(&[0.0, 0.0]),
        derivative: vector(&[1.0, 1.0]),
        history: vector(&[]),
    });
    assert_eq!(answer, Answer::Resting);
    session
}

#[test]
fn each_component_has_its_own_tolerance() {
    // The root of ((3 / 1)^2 + (8 / 2)^2) / 2, and of ((3 / 2)^2 + 8^2) / 2.
    let zero = vector(&[]);
    let norm =
        |absolute: [f64; 2]| bare_error_norm(2, 1.0, &vector(&absolute), &vector(&[3.0, 8.0]), &zero, &zero);
    assert_eq!(norm([1.0, 2.0]), Answer::Norm(12.5_f64.sqrt()));
    assert_eq!(norm([2.0, 1.0]), Answer::Norm(33.125_f64.sqrt()));
    // 0.01 / max(1 / 4, 1 / 0.5).
    for absolute in [[4.0, 0.5], [0.5, 4.0]] {
        assert_eq!(session_of_two(absolute).first_step(1.0).0, Answer::FirstStep(0.005));
    }
    assert_eq!(session_of_two([4.0, 4.0]).first_step(1.0).0, Answer::FirstStep(0.04));
}

/// A candidate's norm: of an answer that is off in one component the tolerance of that component counts.
#[test]
fn an_attempts_norm_goes_by_each_components_tolerance() {
    let norm = |absolute: [f64; 2], answer: [f64; 2]| {
        let mut lent = [BEFORE; 2];
        let (_, asking) = session_of_two(absolute).begin(true, 0.5, &[0.0; PLACES * PLACES], &mut lent);
        match asking.supply(0, &vector(&answer), &mut lent).0 {
            Answer::Ready { norm, .. } => norm,
            answer => panic!("{answer:?}"),
        }
    };
    let first = [2.0, 1.0];
    assert!(norm([1.0, 1.0], first) > 0.0);
    assert_eq!(norm([1.0, 1.0], first), norm([1.0, 1e-3], first));
    assert!(norm([1.0, 1.0], first) < norm([1e-3, 1.0], first));
    let second = [1.0, 2.0];
    assert_eq!(norm([1.0, 1.0], second), norm([1e-3, 1.0], second));
    assert!(norm([1.0, 1.0], second) < norm([1.0, 1e-3], second));
}

#[test]
fn places_past_n_come_before_all_else_and_tolerances_before_the_time() {
    let good = [2.0, 3.0];
    let refused = |change: fn(&mut Session)| {
        let mut session = session_of_two(good);
        change(&mut session);
        session.drop_attempt().0
    };
    assert_eq!(refused(|_| {}), Answer::Resting);
    let misplaced: [fn(&mut Session); 3] =
        [|s| s.absolute[2] = -0.0, |s| s.absolute[15] = f64::NAN, |s| s.absolute[2] = 1.0];
    for change in misplaced {
        assert_eq!(refused(change), Answer::Refused(1));
    }
    let bad: [fn(&mut Session); 5] = [
        |s| s.absolute[0] = 0.0,
        |s| s.absolute[1] = -0.0,
        |s| s.absolute[1] = f64::NAN,
        |s| s.absolute[0] = f64::INFINITY,
        |s| s.relative = -1.0,
    ];
    for change in bad {
        assert_eq!(refused(change), Answer::Refused(4));
    }
    assert_eq!(refused(|s| (s.absolute[2], s.scheme) = (1.0, 16)), Answer::Refused(1));
    assert_eq!(refused(|s| (s.absolute[1], s.scheme) = (0.0, 16)), Answer::Refused(2));
    assert_eq!(refused(|s| (s.absolute[1], s.time) = (f64::NAN, f64::NAN)), Answer::Refused(4));
    let zero = vector(&[]);
    let norm = |absolute: &[f64], error: f64| {
        bare_error_norm(2, 1.0, &vector(absolute), &vector(&[error]), &zero, &zero)
    };
    assert_eq!(norm(&[1.0, 0.0, -0.0], f64::NAN), Answer::Refused(1));
    assert_eq!(norm(&[1.0, 0.0], f64::NAN), Answer::Refused(4));
    assert_eq!(norm(&[1.0, 2.0], f64::NAN), Answer::Refused(3));
}

/// The calls that take a session.
#[derive(Clone, Copy, Debug, Eq, PartialEq)]
enum Taking {
    Begin,
    Supply,
    Accept,
    Drop,
    FirstStep,
}

const TAKING: [Taking; 5] = [Taking::Begin, Taking::Supply, Taking::Accept, Taking::Drop, Taking::FirstStep];

/// Document 01's tests on a session while there was one tolerance, in their order; 0 for none.
fn old_number(old: &OldSession, call: Taking) -> u8 {
    let n = usize::from(old.n);
    let zero = |places: &[f64]| places.iter().all(|x| x.to_bits() == 0);
    let finite = |places: &[f64]| places.iter().all(|x| x.is_finite());
    let good = |tolerance: f64| tolerance.is_finite() && tolerance > 0.0;
    let count = usize::from(old.count);
    let used = count.min(ANSWERS);
    let held = if old.history_held { n } else { 0 };
    let entries = if old.attempt == Attempt::Supplied { n * n } else { 0 };
    let rests = old.attempt == Attempt::None;
    if n < 1 || n > PLACES {
        return 1;
    }
    if !zero(&old.state[n..]) || !zero(&old.derivative[n..]) || !zero(&old.history[held..]) {
        return 1;
    }
    if !zero(&old.jacobian[entries..]) || (rests && old.step.to_bits() != 0) {
        return 1;
    }
    let (answered, empty) = old.answers.split_at(used);
    if answered.iter().any(|answer| !zero(&answer[n..])) || empty.iter().any(|answer| !zero(answer)) {
        return 1;
    }
    let scheme = usize::from(old.scheme);
    if scheme > 15 || (old.history_held && scheme != ETD2) {
        return 2;
    }
    let wanted = match old.attempt {
        Attempt::None => 0,
        Attempt::Supplied => QUESTIONS[scheme],
        Attempt::Differenced => QUESTIONS[scheme] + n,
    };
    if count > wanted {
        return 2;
    }
    let right_phase = match call {
        Taking::Begin => rests,
        Taking::Supply => !rests && count < wanted,
        Taking::Accept => !rests && count == wanted,
        Taking::Drop | Taking::FirstStep => true,
    };
    if !right_phase {
        return 7;
    }
    if !good(old.relative) || !good(old.absolute) {
        return 4;
    }
    if !rests && (!old.step.is_finite() || old.step == 0.0) {
        return 5;
    }
    let vectors = [old.state, old.derivative, old.history];
    let all_finite = vectors.iter().chain(&old.answers).all(|vector| finite(vector)) && finite(&old.jacobian);
    if !old.time.is_finite() || !all_finite {
        return 3;
    }
    0
}

/// The number by which a call refuses the session, with nothing wrong in what it hands in; 0 for none, and for a 6.
fn number(session: &Session, call: Taking) -> u8 {
    let session = session.clone();
    let place = session.count;
    let mut lent = vec![BEFORE; usize::from(session.n)];
    let zero = [0.0; PLACES];
    let (answer, _) = match call {
        Taking::Begin => session.begin(false, 1.0, &[0.0; PLACES * PLACES], &mut lent),
        Taking::Supply => session.supply(place, &zero, &mut lent),
        Taking::Accept => session.accept(&zero),
        Taking::Drop => session.drop_attempt(),
        Taking::FirstStep => session.first_step(1.0),
    };
    match answer {
        Answer::Refused(6) => 0,
        Answer::Refused(number) => number,
        _ => 0,
    }
}

const DIMENSIONS: [u8; 19] = [0, 1, 2, 3, 4, 5, 6, 7, 8, 9, 10, 11, 12, 13, 14, 15, 16, 17, 255];

/// The session after each call of a random script.
fn sessions(seed: u64) -> Vec<Session> {
    let script = random_script(seed, 400);
    let mut reader = Reader::new(&script.bytes);
    let mut console = Console::default();
    let next = || {
        console.call(&read_call(&mut reader)?, &mut Vec::new());
        Some(console.session.clone())
    };
    std::iter::from_fn(next).collect()
}

/// Nothing, one thing or two made wrong, or other than it was.
fn forge(old: &mut OldSession, random: &mut Random) {
    let odd = [f64::NAN, f64::INFINITY, 0.0, -0.0, -1.0, 5e-324, 1e-6, f64::MAX];
    for _ in 0..random.below(3) {
        let place = random.below(PLACES);
        match random.below(9) {
            0 => old.n = random.pick(&DIMENSIONS),
            1 => old.scheme = random.pick(&[0, 13, 15, 16, 255]),
            2 => old.count = random.pick(&[0, 1, 20, 21, 255]),
            3 => old.time = random.pick(&odd),
            4 => old.step = random.pick(&odd),
            5 => old.relative = random.pick(&odd),
            6 => old.state[place] = random.pick(&odd),
            _ => old.absolute = random.pick(&odd),
        }
    }
}

#[test]
fn an_old_session_is_refused_by_the_same_number_once_it_is_brought_over() {
    let mut random = Random::new(82);
    let mut told = BTreeMap::new();
    for seed in 300..340 {
        for session in sessions(seed) {
            let mut old = OldSession::of(&session, 1e-6);
            forge(&mut old, &mut random);
            for call in TAKING {
                let expected = old_number(&old, call);
                assert_eq!(number(&old.brought_over(), call), expected, "seed {seed}, {call:?}: {old:?}");
                *told.entry((call as u8, expected)).or_insert(0) += 1;
            }
        }
    }
    for call in TAKING {
        let numbers: &[u8] = match call {
            Taking::Begin => &[0, 1, 2, 3, 4, 7],
            Taking::Supply | Taking::Accept => &[0, 1, 2, 3, 4, 5, 7],
            Taking::Drop | Taking::FirstStep => &[0, 1, 2, 3, 4, 5],
        };
        for number in numbers {
            let count = told.get(&(call as u8, *number)).copied().unwrap_or(0);
            assert!(count >= 20, "{call:?} by {number}: {count}");
        }
    }
}

/// Every dimension, with nothing else wrong.
#[test]
fn the_tolerance_goes_to_each_component_and_nowhere_else() {
    for n in DIMENSIONS {
        let old = OldSession { n, ..OldSession::of(&Session::blank(), 0.125) };
        let used = usize::from(n).min(PLACES);
        let absolute = old.brought_over().absolute;
        assert!(absolute[..used].iter().all(|tolerance| *tolerance == 0.125), "n {n}");
        assert!(absolute[used..].iter().all(|tolerance| tolerance.to_bits() == 0), "n {n}");
        let by_1 = number(&old.brought_over(), Taking::Drop) == 1;
        assert_eq!(by_1, !(1..=16).contains(&n), "n {n}");
    }
}

/// A sound session with equal tolerances, saved under the old layout and brought over, is itself again, in every phase.
#[test]
fn a_session_brought_over_is_the_session_that_was_saved() {
    let mut kinds = BTreeMap::new();
    for seed in 400..420 {
        for session in sessions(seed) {
            let used = &session.absolute[..usize::from(session.n).min(PLACES)];
            let equal = Tolerances { relative: session.relative, absolute: used }.are_equal();
            if number(&session, Taking::Drop) != 0 || !equal {
                continue;
            }
            let old = OldSession::of(&session, session.absolute[0]);
            assert!(image(&old.brought_over()) == image(&session), "seed {seed}");
            *kinds.entry((session.attempt as u8, session.n > 1)).or_insert(0) += 1;
        }
    }
    // Each attempt, with one component and with several.
    assert!(kinds.len() == 6 && kinds.values().all(|count| *count > 50), "{kinds:?}");
}
