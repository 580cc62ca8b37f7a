//! The fixed script: every op, every refusal number on the session and on what is handed in, the order of the
//! checks, every scheme with a Jacobian supplied and differenced and as stiff as can be, the examples of document 01,
//! tolerances that differ, old sessions, whole steps and the places of questions. The list adds random calls to it, so that
//! the gate replays them too.

use crate::bits::power_of_two;
use crate::console::Call;
use crate::field::Field;
use crate::fixed_places::places;
use crate::fixed_steps::whole_steps;
use crate::lists::List;
use crate::model::{Answer, Attempt, Matrix, Opening, PLACES, Session, vector};
use crate::old_session::OldSession;
use crate::pass::{ETD2, QUESTIONS, STIFFEST};
use crate::random::Random;
use crate::random_script::extended;
use crate::refused::{self, Kind};
use crate::script::{PRODUCTS, Script};
use crate::tolerances::alike;

/// The random calls of the list, and their seed.
const RANDOM_CALLS: usize = 3400;
const RANDOM_SEED: u64 = 0x5eed_0001;

pub fn list() -> List {
    let fixed = fixed_script();
    let own = fixed.tally.calls();
    let mut script = extended(fixed, RANDOM_SEED, RANDOM_CALLS);
    // A call cut short ends the run.
    script.bytes.extend([crate::console::FIRST_STEP, 0, 0]);
    let random = script.tally.calls() - own;
    let products = script.tally.largest[PRODUCTS];
    let summary = format!("{own} fixed calls, {random} random ones, up to {products} products");
    List { name: "console", input: script.bytes, output: script.replies, summary }
}

pub fn fixed_script() -> Script {
    let mut script = Script::default();
    // The session that the console starts with is refused by 1.
    script.call(&Call::Show);
    script.call(&Call::Drop);
    examples(&mut script);
    let mut random = Random::new(50);
    for scheme in 0..16 {
        for supplied in [true, false] {
            whole_run(&mut script, scheme, supplied, &mut random);
        }
    }
    stiffest(&mut script);
    checks_on_the_session(&mut script);
    checks_on_what_is_handed_in(&mut script);
    bare_calls(&mut script, &mut random);
    refusals_by_6(&mut script);
    forged_past_a_refused_question(&mut script);
    bytes_that_count_as_others(&mut script);
    tolerances_that_differ(&mut script);
    tolerances_refused(&mut script);
    old_sessions(&mut script);
    whole_steps(&mut script);
    places(&mut script);
    script.call(&Call::Show);
    script
}

pub(crate) fn matrix(values: &[f64]) -> Box<Matrix> {
    let mut matrix = [0.0; PLACES * PLACES];
    matrix[..values.len()].copy_from_slice(values);
    Box::new(matrix)
}

/// n = 1, tolerances 1 and 1, time 0.
pub(crate) fn opening(scheme: usize, state: f64, derivative: f64) -> Opening {
    Opening {
        scheme: scheme as u8,
        n: 1,
        history_held: false,
        time: 0.0,
        relative: 1.0,
        absolute: vector(&[1.0]),
        state: vector(&[state]),
        derivative: vector(&[derivative]),
        history: vector(&[]),
    }
}

pub(crate) fn begin(step: f64, jacobian: f64) -> Call {
    Call::Begin { supplied: true, step, jacobian: matrix(&[jacobian]), lent: 1 }
}

pub(crate) fn difference(step: f64, n: usize) -> Call {
    Call::Begin { supplied: false, step, jacobian: matrix(&[]), lent: n }
}

pub(crate) fn supply(place: usize, answer: f64) -> Call {
    Call::Supply { place: place as u8, answer: vector(&[answer]), lent: 1 }
}

pub(crate) fn accept(derivative: f64) -> Call {
    Call::Accept { derivative: vector(&[derivative]) }
}

/// Document 01's proved examples that are calls.
fn examples(script: &mut Script) {
    for (scheme, sign, step, history) in [
        (1, 1.0, 1.0, None),
        (1, 1.0, 0.5, None),
        (1, -1.0, 1.0, None),
        (0, 1.0, 1.0, None),
        (ETD2, 1.0, 1.0, None),
        (ETD2, 1.0, 1.0, Some(1.0)),
    ] {
        let opening = Opening {
            history_held: history.is_some(),
            history: vector(&[history.unwrap_or(0.0)]),
            ..opening(scheme, sign, 2.0 * sign)
        };
        script.call(&Call::Open(opening));
        script.call(&begin(step, 0.0));
        script.call(&accept(2.0 * sign));
    }
    // The history that Etd2 now holds.
    script.call(&Call::Show);
    script.call(&Call::Open(opening(14, 1.0, 2.0)));
    script.call(&begin(1.0, 0.0));
    script.call(&supply(0, 2.0));
    // Differencing 4 u at 1: the answer at 1 + 2^-25.
    script.call(&Call::Open(opening(1, 1.0, 4.0)));
    script.call(&difference(1.0, 1));
    script.call(&supply(0, 4.0 * (1.0 + power_of_two(-25))));
    script.call(&Call::ErrorNorm {
        n: 1,
        relative: 1.0,
        absolute: vector(&[1.0]),
        error: vector(&[-3.0]),
        state: vector(&[]),
        candidate: vector(&[]),
    });
    script.call(&Call::FirstStep { largest: 0.005 });
}

/// Opens, steps twice along a field, asks for a first step in every phase, and drops a third attempt in the middle.
fn whole_run(script: &mut Script, scheme: usize, supplied: bool, random: &mut Random) {
    let n = [1, 2, 3, 5][scheme % 4] + if scheme == 5 && supplied { 14 } else { 0 };
    let field = Field::new(n, random.pick(&[1.0, 40.0, 3e3]), random);
    let state: Vec<f64> = (0..n).map(|_| random.unit()).collect();
    let mut opening = opening(scheme, 0.0, 0.0);
    opening.n = n as u8;
    opening.time = random.unit();
    opening.relative = 1e-4;
    opening.absolute = alike(n, 1e-7);
    opening.state = vector(&state);
    opening.derivative = vector(&field.at(opening.time, &state));
    script.call(&Call::Open(opening));
    let last = 2;
    for attempt in 0..=last {
        let session = &script.console.session;
        let step = [0.125, 0.03, -0.01][attempt];
        let call = if supplied {
            Call::Begin { supplied, step, jacobian: matrix(&field.jacobian(&session.state[..n])), lent: n }
        } else {
            difference(step, n)
        };
        let mut told = script.call(&call);
        let mut asked = 0;
        while let Some(Answer::Ask { place, time }) = told.answer {
            if attempt == last && asked == 1 {
                break;
            }
            asked += 1;
            let answer = vector(&field.at(time, &told.lent));
            told = script.call(&Call::Supply { place, answer, lent: n });
        }
        script.call(&Call::FirstStep { largest: f64::INFINITY });
        if attempt == last {
            script.call(&Call::Drop);
            script.call(&Call::Drop);
        } else {
            let session = &script.console.session;
            let derivative = vector(&field.at(session.time + session.step, &told.lent));
            script.call(&Call::Accept { derivative });
        }
    }
    script.call(&Call::Show);
}

/// Every scheme with the most squarings in its exponentials over the whole step, Etd2 with a history too.
fn stiffest(script: &mut Script) {
    for (scheme, questions) in QUESTIONS.into_iter().enumerate() {
        script.call(&Call::Open(opening(scheme, 0.0, 1.0)));
        script.call(&begin(1.0, STIFFEST));
        for place in 0..questions {
            script.call(&supply(place, 0.0));
        }
        script.call(&accept(0.0));
        if scheme == ETD2 {
            script.call(&begin(1.0, STIFFEST));
        }
    }
}

/// The calls that take a session, each with something wrong in what it hands in where it hands anything in, so
/// that the session's number must come first.
fn calls_on_a_session() -> Vec<Call> {
    let wrong = vector(&[f64::NAN, 1.0]);
    vec![
        Call::Begin { supplied: true, step: 0.0, jacobian: matrix(&[f64::NAN, 1.0]), lent: 3 },
        Call::Supply { place: 2, answer: wrong, lent: 3 },
        Call::Accept { derivative: wrong },
        Call::Drop,
        Call::FirstStep { largest: f64::NAN },
        Call::WholeStep { step: 0.0, table: vec![0; 15] },
    ]
}

/// For each call a session of which all conditions hold, then all but the first, and so on; for supply that of the place too.
fn checks_on_the_session(script: &mut Script) {
    for mut call in calls_on_a_session() {
        for sound in 0..7 {
            if let Call::Supply { place, .. } = &mut call {
                *place = if sound < 4 { 2 } else { 0 };
            } else if sound == 3 {
                continue;
            }
            // A phase that is wrong for the call: begin in an attempt, the others at rest or asking.
            let mut session = match call {
                Call::Supply { .. } => in_attempt(1),
                _ => in_attempt(0),
            };
            if sound < 1 {
                session.state[5] = -0.0;
            }
            if sound < 2 {
                session.history_held = true;
            }
            if sound >= 3 {
                // The right phase.
                session = match call {
                    Call::Begin { .. } | Call::WholeStep { .. } => resting(),
                    Call::Accept { .. } => in_attempt(1),
                    _ => in_attempt(0),
                };
            }
            if sound < 5 {
                session.absolute[0] = -1.0;
            }
            if sound < 6 && session.attempt != Attempt::None {
                session.step = f64::INFINITY;
            }
            if sound < 7 {
                session.time = f64::NAN;
            }
            script.call(&Call::Load(Box::new(session)));
            script.call(&call);
            script.call(&Call::Show);
        }
    }
    every_condition_of_1_and_2(script);
}

pub(crate) fn resting() -> Session {
    Session::open(&opening(2, 1.0, 2.0)).1
}

/// Etdrk2 with so many answers of its one.
pub(crate) fn in_attempt(count: usize) -> Session {
    let mut session = resting();
    session.attempt = Attempt::Supplied;
    session.step = 0.5;
    session.jacobian[0] = -1.0;
    session.count = count as u8;
    for answer in &mut session.answers[..count] {
        answer[0] = 1.5;
    }
    session
}

/// One thing wrong at a time, shown by drop, which takes every phase.
fn every_condition_of_1_and_2(script: &mut Script) {
    let wrongs: [fn(&mut Session); 26] = [
        |s| s.n = 0,
        |s| s.n = 17,
        |s| s.n = 255,
        |s| s.absolute[1] = 1.0,
        |s| s.absolute[15] = -0.0,
        |s| s.state[1] = 1.0,
        |s| s.derivative[15] = f64::NAN,
        |s| s.history[0] = 1.0,
        |s| s.history[0] = -0.0,
        |s| s.jacobian[1] = 1.0,
        |s| s.jacobian[255] = f64::INFINITY,
        |s| s.answers[0][1] = 1.0,
        |s| s.answers[1][0] = 1.0,
        |s| s.answers[19][15] = -0.0,
        |s| s.scheme = 16,
        |s| s.scheme = 255,
        |s| s.history_held = true,
        |s| s.count = 2,
        |s| s.count = 20,
        |s| s.count = 21,
        |s| s.count = 255,
        |s| {
            s.count = 255;
            s.answers[19][15] = 1.0;
        },
        // At rest with an answer and what the attempt left behind.
        |s| s.attempt = Attempt::None,
        |s| {
            s.attempt = Attempt::None;
            s.step = 0.0;
            s.jacobian[0] = 0.0;
        },
        |s| {
            s.attempt = Attempt::None;
            s.step = -0.0;
            s.jacobian[0] = 0.0;
            s.count = 0;
            s.answers[0][0] = 0.0;
        },
        // Differenced, with a number in the Jacobian's places.
        |s| s.attempt = Attempt::Differenced,
    ];
    for wrong in wrongs {
        let mut session = in_attempt(1);
        wrong(&mut session);
        script.call(&Call::Load(Box::new(session)));
        script.call(&Call::Drop);
    }
    script.call(&Call::Show);
}

/// What is handed in, all conditions first, then one less at a time.
fn checks_on_what_is_handed_in(script: &mut Script) {
    let good = opening(1, 1.0, 2.0);
    let openings: [fn(&mut Opening); 10] = [
        |o| {
            o.n = 17;
            o.scheme = 16;
            o.relative = 0.0;
            o.time = f64::NAN;
        },
        |o| {
            o.scheme = 16;
            o.relative = 0.0;
            o.time = f64::NAN;
        },
        |o| {
            o.relative = 0.0;
            o.time = f64::NAN;
        },
        |o| o.time = f64::NAN,
        |o| o.n = 0,
        |o| o.state[1] = -0.0,
        |o| o.history[3] = 1.0,
        |o| o.history_held = true,
        |o| o.absolute[0] = f64::INFINITY,
        |o| o.derivative[0] = f64::NEG_INFINITY,
    ];
    for wrong in openings {
        let mut opening = good.clone();
        wrong(&mut opening);
        script.call(&Call::Open(opening));
        script.call(&Call::Show);
    }
    let with = |supplied, step, jacobian: &[f64], lent| Call::Begin {
        supplied,
        step,
        jacobian: matrix(jacobian),
        lent,
    };
    let nan = f64::NAN;
    script.call(&Call::Load(Box::new(resting())));
    for call in [
        with(true, 0.0, &[nan, 1.0], 1),
        with(true, 0.0, &[nan], 2),
        with(true, 0.0, &[nan], 1),
        with(true, f64::INFINITY, &[1.0], 1),
        with(true, 1.0, &[nan], 1),
        with(true, 1.0, &[power_of_two(40)], 1),
        with(false, 1.0, &[1.0], 1),
        with(false, 1.0, &[-0.0], 1),
        with(false, 1.0, &[], 0),
        with(false, -0.0, &[], 1),
    ] {
        script.call(&call);
    }
    script.call(&Call::Show);
    script.call(&Call::Load(Box::new(in_attempt(0))));
    for (values, lent) in [(&[nan, 1.0][..], 1), (&[nan], 0), (&[nan], 1), (&[1.0, -0.0], 1), (&[1e300], 1)] {
        let answer = vector(values);
        script.call(&Call::Supply { place: 0, answer, lent });
    }
    script.call(&Call::Show);
    script.call(&Call::Load(Box::new(in_attempt(1))));
    for values in [&[nan, 1.0][..], &[nan], &[f64::INFINITY], &[1.0]] {
        script.call(&Call::Accept { derivative: vector(values) });
    }
    script.call(&Call::Load(Box::new(resting())));
    for largest in [nan, f64::EPSILON.next_down(), -1.0, f64::NEG_INFINITY, f64::EPSILON, 1e300] {
        script.call(&Call::FirstStep { largest });
    }
}

fn bare_calls(script: &mut Script, random: &mut Random) {
    let nan = f64::NAN;
    let exponential =
        |size, entries: &[f64], lent| Call::Exponential { size, entries: entries.to_vec(), lent };
    for call in [
        exponential(1, &[0.5], 1),
        exponential(1, &[1e9], 1),
        exponential(2, &[0.0, 1.0, -1.0, -0.0], 4),
        exponential(3, &[-1e9, 2e9, 0.0, 1e9, 1e9, 1.0, 0.0, 0.0, -2e9], 9),
        exponential(0, &[], 0),
        exponential(21, &[0.0; 441], 441),
        exponential(255, &[nan], 1),
        exponential(2, &[nan; 3], 4),
        exponential(2, &[nan; 4], 3),
        exponential(2, &[0.0, nan, 0.0, 0.0], 4),
        exponential(1, &[power_of_two(31)], 1),
        exponential(1, &[power_of_two(31).next_up()], 1),
        exponential(2, &[f64::MAX, f64::MAX, 0.0, 0.0], 4),
    ] {
        script.call(&call);
    }
    let entries: Vec<f64> = (0..400).map(|_| random.unit()).collect();
    script.call(&exponential(20, &entries, 400));
    let phi = |n, order, scale_a, matrix: &[f64], input: &[f64], lent| Call::PhiAction {
        n,
        order,
        scale_a,
        matrix: matrix.to_vec(),
        input: input.to_vec(),
        lent,
    };
    for order in 0..=5 {
        script.call(&phi(2, order, 0.5, &[1.0, 2.0, -3.0, 0.5], &[1.0, -1.0], 2));
    }
    for call in [
        phi(0, 1, 1.0, &[], &[], 0),
        phi(17, 1, 1.0, &[0.0; 289], &[0.0; 17], 17),
        phi(1, 1, 1.0, &[nan, nan], &[1.0], 1),
        phi(1, 1, 1.0, &[nan], &[1.0, 1.0], 1),
        phi(1, 1, 1.0, &[nan], &[1.0], 2),
        phi(1, 1, nan, &[1.0], &[1.0], 1),
        phi(1, 1, 1.0, &[nan], &[1.0], 1),
        phi(1, 1, 1.0, &[1.0], &[f64::INFINITY], 1),
        phi(1, 1, 2.0, &[f64::MAX], &[1.0], 1),
        phi(1, 1, 1.0, &[power_of_two(30)], &[power_of_two(30)], 1),
        phi(1, 1, 1.0, &[power_of_two(30)], &[power_of_two(30).next_up()], 1),
        phi(1, 2, 1.0, &[power_of_two(30)], &[2.0 * power_of_two(30)], 1),
        phi(16, 4, 0.1, &entries[..256], &entries[256..272], 16),
    ] {
        script.call(&call);
    }
    // Exponentials that grow beyond the doubles: in the last squaring, before it, or in no entry; with and without a NaN.
    for n in [1, 2, 3, 4, 5, 8, 9, 12, 16_usize] {
        for growth in [300.0, 700.0, 720.0, 1500.0, 1e6, 1e9] {
            let matrix: Vec<f64> = (0..n * n)
                .map(|place| {
                    if place % (n + 1) == 0 {
                        growth * (1.0 - 0.1 * random.unit().abs())
                    } else {
                        random.unit()
                    }
                })
                .collect();
            let input: Vec<f64> = (0..n).map(|_| random.unit()).collect();
            for order in 1..=4 {
                script.call(&phi(n as u8, order, 1.0, &matrix, &input, n));
            }
        }
    }
    let norm = |n: u8, tolerances: [f64; 2], error: &[f64], state: &[f64]| Call::ErrorNorm {
        n,
        relative: tolerances[0],
        absolute: alike(usize::from(n), tolerances[1]),
        error: vector(error),
        state: vector(state),
        candidate: vector(&[]),
    };
    for call in [
        norm(2, [1e-3, 1e-6], &[1e-5, -2e-5], &[1.0, 0.5]),
        norm(1, [1.0, 1.0], &[f64::MAX], &[]),
        norm(1, [f64::MAX, f64::MAX], &[f64::MAX], &[f64::MAX]),
        norm(16, [1e-3, 1e-6], &[1e-5; 16], &[1.0; 16]),
        norm(0, [0.0, 1.0], &[nan], &[]),
        norm(17, [0.0, 1.0], &[nan], &[]),
        norm(1, [0.0, 1.0], &[nan, 1.0], &[]),
        norm(1, [0.0, 1.0], &[nan], &[]),
        norm(1, [1.0, nan], &[nan], &[]),
        norm(1, [1.0, 1.0], &[nan], &[]),
        norm(1, [1.0, 1.0], &[0.0], &[f64::INFINITY]),
        norm(1, [1.0, 1.0], &[0.0], &[0.0, -0.0]),
    ] {
        script.call(&call);
    }
}

/// The inputs of docs/DIFFERENCES.md through the calls, for up to three of their schemes each.
fn refusals_by_6(script: &mut Script) {
    for (index, Kind { input, schemes, .. }) in refused::kinds().into_iter().enumerate() {
        for turn in 0..schemes.len().min(3) {
            let scheme = schemes[(index + 5 * turn) % schemes.len()];
            let opening = Opening { time: input.time, ..opening(scheme, input.state, input.f0) };
            script.call(&Call::Open(opening));
            let mut told = match input.jacobian {
                Some(entry) => script.call(&begin(input.step, entry)),
                None => script.call(&difference(input.step, 1)),
            };
            while let Some(Answer::Ask { place, .. }) = told.answer {
                let place = usize::from(place);
                let answer = input.answers[place.min(input.answers.len() - 1)];
                told = script.call(&supply(place, answer));
            }
            if let Some(Answer::Ready { .. }) = told.answer {
                script.call(&accept(input.f0));
            }
            script.call(&Call::Drop);
        }
    }
    script.call(&Call::Show);
}

/// Sessions that hold answers to questions that would have been refused: every node on the way is tested again.
fn forged_past_a_refused_question(script: &mut Script) {
    for (scheme, questions) in QUESTIONS.into_iter().enumerate() {
        // The first exponential is refused.
        let mut session = forged(scheme, 1.0, -power_of_two(31) - 2.0, &vec![1.0; questions]);
        script.call(&Call::Load(Box::new(session.clone())));
        script.call(&accept(1.0));
        // The same, differenced: its first column is infinite.
        session.attempt = Attempt::Differenced;
        session.jacobian[0] = 0.0;
        session.count += 1;
        session.answers[..=questions].fill(vector(&[1.0]));
        session.answers[0][0] = power_of_two(1000);
        script.call(&Call::Load(Box::new(session)));
        script.call(&accept(1.0));
    }
    // The third stage of Etdrk4 and HochOst4 is asked for at an infinite time.
    for (scheme, answers) in [(4, 2), (4, 3), (5, 3), (5, 4)] {
        let mut session = forged(scheme, 1.0, 0.0, &vec![0.0; answers]);
        session.derivative[0] = 0.0;
        session.time = power_of_two(1023);
        session.step = power_of_two(1023);
        let ready = answers == QUESTIONS[scheme];
        script.call(&Call::Load(Box::new(session)));
        script.call(&if ready { accept(0.0) } else { supply(answers, 0.0) });
    }
    script.call(&Call::Show);
}

/// A history or wish above 1 counts as 1, an attempt above 2 as 2.
fn bytes_that_count_as_others(script: &mut Script) {
    let mut written_as = |call: &Call, place: usize, byte: u8| {
        let at = script.bytes.len();
        script.call(call);
        script.bytes[at + place] = byte;
    };
    for byte in [2, 3, 128, 255] {
        let held = Opening { history_held: true, history: vector(&[1.0]), ..opening(ETD2, 1.0, 2.0) };
        written_as(&Call::Open(held), 3, byte);
        written_as(&begin(1.0, 0.0), 1, byte);
        written_as(&Call::Show, 0, crate::console::SHOW);
        let mut session = in_attempt(0);
        session.attempt = Attempt::Differenced;
        session.jacobian[0] = 0.0;
        let old = OldSession { history_held: true, ..OldSession::of(&session, 1.0) };
        written_as(&Call::Load(Box::new(session)), 4, byte);
        written_as(&supply(0, 1.0), 0, crate::console::SUPPLY);
        written_as(&Call::Show, 0, crate::console::SHOW);
        for place in [3, 4] {
            written_as(&Call::BringOver(Box::new(old.clone())), place, byte);
            written_as(&Call::Show, 0, crate::console::SHOW);
        }
    }
}

/// The tolerances of three components.
const DIFFERENT: [f64; 3] = [1e-3, 0.25, 3e4];

/// Exprb32 in three components, each with its own tolerance.
pub(crate) fn opening_of_three() -> Opening {
    Opening {
        n: 3,
        absolute: vector(&DIFFERENT),
        state: vector(&[1.0, -0.5, 2e4]),
        derivative: vector(&[-0.1, 2.0, -3e3]),
        relative: 1e-5,
        ..opening(14, 0.0, 0.0)
    }
}

fn begin_of_three() -> Call {
    let jacobian = matrix(&[-1.0, 0.5, 0.0, 0.25, -2.0, 1e-4, 0.0, 3.0, -0.5]);
    Call::Begin { supplied: true, step: 0.125, jacobian, lent: 3 }
}

fn norm_of_three(absolute: &[f64]) -> Call {
    Call::ErrorNorm {
        n: 3,
        relative: 1e-5,
        absolute: vector(absolute),
        error: vector(&[1e-4, -0.5, 7e4]),
        state: vector(&[1.0, -0.5, 2e4]),
        candidate: vector(&[-2.0, 0.25, 1e4]),
    }
}

/// The norm of an attempt, the first step in every phase, and the bare norm, in every order of the three tolerances.
fn tolerances_that_differ(script: &mut Script) {
    for order in [[0, 1, 2], [0, 2, 1], [1, 0, 2], [1, 2, 0], [2, 0, 1], [2, 1, 0]] {
        let absolute = order.map(|place| DIFFERENT[place]);
        let first_step = Call::FirstStep { largest: f64::INFINITY };
        script.call(&Call::Open(Opening { absolute: vector(&absolute), ..opening_of_three() }));
        script.call(&first_step);
        script.call(&begin_of_three());
        script.call(&first_step);
        script.call(&Call::Supply { place: 0, answer: vector(&[0.1, 1.5, -2e3]), lent: 3 });
        script.call(&first_step);
        script.call(&Call::Accept { derivative: vector(&[0.2, 1.0, -2.5e3]) });
        script.call(&first_step);
        script.call(&norm_of_three(&absolute));
    }
    script.call(&Call::Show);
    // Sixteen, each twice the one before.
    let absolute: Vec<f64> = (0..PLACES).map(|place| power_of_two(place as i32 - 8)).collect();
    let whole = Opening {
        n: PLACES as u8,
        absolute: vector(&absolute),
        state: [1.0; PLACES],
        derivative: [-2.0; PLACES],
        ..opening(15, 0.0, 0.0)
    };
    script.call(&Call::Open(whole.clone()));
    script.call(&Call::FirstStep { largest: 1.0 });
    script.call(&Call::Begin { supplied: true, step: 0.5, jacobian: matrix(&[]), lent: PLACES });
    for (place, answer) in [(0, -1.5), (1, -1.0)] {
        script.call(&Call::Supply { place, answer: [answer; PLACES], lent: PLACES });
    }
    script.call(&Call::ErrorNorm {
        n: whole.n,
        relative: 1.0,
        absolute: whole.absolute,
        error: whole.derivative,
        state: whole.state,
        candidate: vector(&[]),
    });
    script.call(&Call::Show);
}

/// Each place of the tolerances with each kind of number that does not belong there, handed to open and to the bare
/// norm, and in a session.
fn tolerances_refused(script: &mut Script) {
    let bad = [f64::NAN, f64::INFINITY, f64::NEG_INFINITY, 0.0, -0.0, -1.0, -5e-324];
    let misplaced = [f64::NAN, f64::INFINITY, 1.0, -1.0, -0.0, 5e-324];
    let in_use = bad.map(|tolerance| [0, 1, 2].map(|place| (place, tolerance)));
    let past = misplaced.map(|number| [3, 9, 15].map(|place| (place, number)));
    for (place, number) in in_use.into_iter().chain(past).flatten() {
        let mut absolute = vector(&DIFFERENT);
        absolute[place] = number;
        let opening = Opening { absolute, ..opening_of_three() };
        script.call(&norm_of_three(&absolute));
        script.call(&Call::Load(Box::new(Session { absolute, ..Session::open(&opening_of_three()).1 })));
        script.call(&Call::FirstStep { largest: 1.0 });
        script.call(&Call::Drop);
        script.call(&Call::Open(opening));
    }
    // A number past n comes before a scheme that is none, a bad tolerance after it and before a time that is NaN.
    let wrongs: [fn(&mut Opening); 3] = [
        |o| {
            o.absolute[3] = -0.0;
            o.scheme = 16;
        },
        |o| {
            o.absolute[2] = 0.0;
            o.scheme = 16;
        },
        |o| {
            o.absolute[2] = 0.0;
            o.time = f64::NAN;
        },
    ];
    for wrong in wrongs {
        let mut opening = opening_of_three();
        wrong(&mut opening);
        script.call(&Call::Open(opening));
    }
    script.call(&Call::Show);
}

/// Sessions of the layout with one tolerance, of every kind of dimension; then one in the middle of an attempt, and
/// one that is refused by each number.
fn old_sessions(script: &mut Script) {
    let resting = OldSession::of(&Session::open(&opening_of_three()).1, 0.125);
    for n in [0, 1, 3, 15, 16, 17, 255] {
        script.call(&Call::BringOver(Box::new(OldSession { n, ..resting.clone() })));
        script.call(&Call::Show);
        script.call(&Call::FirstStep { largest: f64::INFINITY });
        script.call(&Call::Drop);
    }
    script.call(&Call::Open(Opening { absolute: alike(3, 0.125), ..opening_of_three() }));
    script.call(&begin_of_three());
    let asking = OldSession::of(&script.console.session, 0.125);
    script.call(&Call::Open(opening_of_three()));
    script.call(&Call::BringOver(Box::new(asking.clone())));
    script.call(&Call::Show);
    script.call(&Call::Supply { place: 0, answer: vector(&[0.1, 1.5, -2e3]), lent: 3 });
    script.call(&Call::FirstStep { largest: f64::INFINITY });
    script.call(&Call::Accept { derivative: vector(&[0.2, 1.0, -2.5e3]) });
    script.call(&Call::Show);
    let wrongs: [fn(&mut OldSession); 9] = [
        |s| s.state[3] = -0.0,
        |s| s.scheme = 1,
        |s| s.history_held = true,
        |s| s.absolute = f64::NAN,
        |s| s.absolute = -0.0,
        |s| s.absolute = f64::INFINITY,
        |s| s.relative = 0.0,
        |s| s.step = 0.0,
        |s| s.time = f64::NAN,
    ];
    for wrong in wrongs {
        let mut old = asking.clone();
        old.count = 1;
        wrong(&mut old);
        script.call(&Call::BringOver(Box::new(old)));
        script.call(&Call::Show);
        script.call(&Call::Drop);
    }
}

/// n = 1, f0 = 1, step 1, in an attempt with a Jacobian and answers.
pub(crate) fn forged(scheme: usize, state: f64, jacobian: f64, answers: &[f64]) -> Session {
    let mut session = Session::open(&opening(scheme, state, 1.0)).1;
    session.attempt = Attempt::Supplied;
    session.step = 1.0;
    session.jacobian[0] = jacobian;
    session.count = answers.len() as u8;
    for (place, answer) in session.answers.iter_mut().zip(answers) {
        place[0] = *answer;
    }
    session
}
