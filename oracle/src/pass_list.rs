//! The list for the schemes.
//!
//! A record is a pass and the answers so far; its reply is the question, the candidate with the exponentials and matrix
//! products that it took, or the refusal by 6.

use crate::bits::power_of_two;
use crate::bytes::{put_double, put_doubles};
use crate::field::Field;
use crate::lists::List;
use crate::pass::{self, ETD2, Outcome, QUESTIONS, STIFFEST, Start};
use crate::random::Random;
use crate::refused;
use crate::watch::products;

/// A pass with all the answers it may be given.
struct Run {
    start: Start,
    answers: Vec<Vec<f64>>,
}

fn vector(n: usize, mut entry: impl FnMut() -> f64) -> Vec<f64> {
    (0..n).map(|_| entry()).collect()
}

/// A pass whose answers are a field's at the asked states, as far as they are asked.
fn along(field: &Field, mut start: Start) -> Run {
    start.f0 = field.at(start.time, &start.state);
    let mut answers = Vec::new();
    while let Outcome::Ask { time, state } = pass::run(&start, &answers) {
        answers.push(field.at(time, &state));
    }
    Run { start, answers }
}

fn start(scheme: usize, n: usize, step: f64, random: &mut Random) -> Start {
    Start {
        scheme,
        time: random.unit(),
        step,
        state: vector(n, || 2.0 * random.unit()),
        f0: vec![0.0; n],
        jacobian: vec![0.0; n * n],
        history: (scheme == ETD2 && !random.chance(3)).then(|| vector(n, || random.unit())),
    }
}

/// A step along a field with its own Jacobian.
fn smooth(scheme: usize, n: usize, stiffness: f64, step: f64, random: &mut Random) -> Run {
    let field = Field::new(n, stiffness, random);
    let mut start = start(scheme, n, step, random);
    start.jacobian = field.jacobian(&start.state);
    along(&field, start)
}

/// Jacobian, derivative and answers that have nothing to do with one another, of one magnitude.
fn arbitrary(scheme: usize, n: usize, magnitude: f64, step: f64, random: &mut Random) -> Run {
    let mut start = start(scheme, n, step, random);
    start.state = vector(n, || magnitude * random.unit());
    start.f0 = vector(n, || magnitude * random.unit());
    start.jacobian = vector(n * n, || 4.0 * random.unit());
    let answers = (0..QUESTIONS[scheme]).map(|_| vector(n, || magnitude * random.unit())).collect();
    Run { start, answers }
}

/// Every number from a short list of extremes, each finite; a step of zero is not among them.
fn extreme(scheme: usize, n: usize, extremes: &[f64], random: &mut Random) -> Run {
    let mut pick = || random.pick(extremes);
    let zeros = extremes.iter().all(|x| *x == 0.0);
    let start = Start {
        scheme,
        time: pick(),
        step: if zeros { 1.0 } else { pick() },
        state: vector(n, &mut pick),
        f0: vector(n, &mut pick),
        jacobian: vector(n * n, &mut pick),
        history: (scheme == ETD2).then(|| vector(n, &mut pick)),
    };
    let answers = (0..QUESTIONS[scheme]).map(|_| vector(n, &mut pick)).collect();
    Run { start, answers }
}

/// The inputs of docs/DIFFERENCES.md that come with a Jacobian.
fn refused_kinds(scheme: usize) -> Vec<Run> {
    let inputs = refused::kinds().into_iter().map(|kind| kind.input);
    inputs
        .filter_map(|input| {
            let start = Start {
                scheme,
                time: input.time,
                step: input.step,
                state: vec![input.state],
                f0: vec![input.f0],
                jacobian: vec![input.jacobian?],
                history: None,
            };
            let answer = |k: usize| vec![input.answers[k.min(input.answers.len() - 1)]];
            let answers = (0..QUESTIONS[scheme]).map(answer).collect();
            Some(Run { start, answers })
        })
        .collect()
}

/// The examples of document 01: J = [0], u = 1, f0 = 2.
fn example(scheme: usize, step: f64, sign: f64, history: Option<f64>) -> Run {
    let start = Start {
        scheme,
        time: 0.0,
        step,
        state: vec![sign],
        f0: vec![2.0 * sign],
        jacobian: vec![0.0],
        history: history.map(|x| vec![x]),
    };
    let answers = vec![vec![2.0 * sign]; QUESTIONS[scheme]];
    Run { start, answers }
}

/// A phi action of f0 = 1 over the whole step has the double just above 8 for its norm, where the published squaring
/// count is one less.
fn above_8(scheme: usize) -> Run {
    let mut run = example(scheme, 1.0, 1.0, None);
    run.start.state = vec![0.0];
    run.start.f0 = vec![1.0];
    run.start.jacobian = vec![1.0 - 8.0_f64.next_up()];
    run
}

/// The most squarings in every exponential over the whole step.
fn stiffest(scheme: usize, history: Option<f64>) -> Run {
    let mut run = example(scheme, 1.0, 1.0, history);
    run.start.state = vec![0.0];
    run.start.f0 = vec![1.0];
    run.start.jacobian = vec![STIFFEST];
    run.answers.fill(vec![0.0]);
    run
}

/// Runs whose every number of answers is listed.
fn in_full(scheme: usize, random: &mut Random) -> Vec<Run> {
    let mut runs = Vec::new();
    for n in [1, 2, 3, 5, 8] {
        runs.push(smooth(scheme, n, 1.0, 0.1, random));
        runs.push(smooth(scheme, n, 300.0, -0.02, random));
    }
    for n in [1, 2, 3] {
        runs.push(smooth(scheme, n, 1e6, 0.5, random));
    }
    runs.push(smooth(scheme, 16, 2000.0, 0.03, random));
    runs.push(example(scheme, 1.0, 1.0, None));
    runs.push(above_8(scheme));
    runs.push(stiffest(scheme, None));
    if scheme == ETD2 {
        runs.push(example(scheme, 1.0, 1.0, Some(1.0)));
        runs.push(stiffest(scheme, Some(1.0)));
    }
    runs
}

/// Runs of which two numbers of answers are listed: all there are, and one at random.
fn in_part(scheme: usize, random: &mut Random) -> Vec<Run> {
    let mut runs = refused_kinds(scheme);
    runs.extend([example(scheme, 0.5, 1.0, None), example(scheme, 1.0, -1.0, None)]);
    for n in [1, 2, 3, 5] {
        for (magnitude, step) in [
            (1.0, 1.0),
            (1e3, -0.01),
            (1e-310, 0.25),
            (1e9, 1e-3),
            (1.0, power_of_two(-300)),
            (1.0, power_of_two(-540)),
            (1.0, f64::from_bits(1)),
        ] {
            runs.push(arbitrary(scheme, n, magnitude, step, random));
        }
    }
    let subnormal = f64::from_bits(0xf_ffff_0000_0001);
    let huge = power_of_two(1000);
    for n in [1, 2, 3] {
        runs.push(extreme(scheme, n, &[0.0, -0.0], random));
        runs.push(extreme(scheme, n, &[0.0, -0.0], random));
        runs.push(extreme(scheme, n, &[1.0, -1.0, subnormal, -subnormal], random));
        runs.push(extreme(scheme, n, &[1.0, -1.0, 2.0, 1e-5, -1e5, 1e9], random));
        runs.push(extreme(scheme, n, &[1.0, 0.5, 1e-300, huge, -huge], random));
    }
    for n in [8, 16] {
        runs.push(smooth(scheme, n, 1.0, -0.3, random));
    }
    runs
}

fn put_record(out: &mut Vec<u8>, start: &Start, answers: &[Vec<f64>]) {
    let n = start.state.len();
    let held = u8::from(start.history.is_some());
    out.extend([start.scheme as u8, n as u8, held, answers.len() as u8]);
    put_double(out, start.time);
    put_double(out, start.step);
    put_doubles(out, &start.state);
    put_doubles(out, &start.f0);
    put_doubles(out, &start.jacobian);
    put_doubles(out, start.history.as_ref().unwrap_or(&vec![0.0; n]));
    for answer in answers {
        put_doubles(out, answer);
    }
}

fn put_reply(out: &mut Vec<u8>, outcome: &Outcome) {
    match outcome {
        Outcome::Refused => out.push(0),
        Outcome::Ask { time, state } => {
            out.push(1);
            put_double(out, *time);
            put_doubles(out, state);
        }
        Outcome::Candidate { pass, exponentials } => {
            let n = pass.candidate.len();
            out.push(2);
            out.extend((exponentials.len() as u32).to_le_bytes());
            out.extend(products(exponentials).to_le_bytes());
            put_doubles(out, &pass.candidate);
            out.push(u8::from(!pass.error.is_empty()));
            let mut error = pass.error.clone();
            error.resize(n, 0.0);
            put_doubles(out, &error);
            put_doubles(out, &pass.nonlinear);
        }
    }
}

pub fn list() -> List {
    let mut random = Random::new(40);
    let mut input = Vec::new();
    let mut output = Vec::new();
    let mut counts = [[0usize; 3]; 16];
    let mut most = 0;
    for (scheme, count) in counts.iter_mut().enumerate() {
        let mut add = |run: &Run, given: usize| {
            let answers = &run.answers[..given];
            let outcome = pass::run(&run.start, answers);
            put_record(&mut input, &run.start, answers);
            put_reply(&mut output, &outcome);
            let kind = match outcome {
                Outcome::Refused => 0,
                Outcome::Ask { .. } => 1,
                Outcome::Candidate { exponentials, .. } => {
                    most = products(&exponentials).max(most);
                    2
                }
            };
            count[kind] += 1;
        };
        for run in in_full(scheme, &mut random) {
            for given in 0..=run.answers.len() {
                add(&run, given);
            }
        }
        for run in in_part(scheme, &mut random) {
            let all = run.answers.len();
            add(&run, all);
            if all > 0 {
                add(&run, random.below(all));
            }
        }
    }
    // Every scheme must be seen to refuse, to end and, if it asks, to ask.
    for ([refused, asks, ends], questions) in counts.iter().zip(QUESTIONS) {
        assert!(*refused > 0 && *ends > 0 && (*asks > 0) == (questions > 0));
    }
    let total = |kind: usize| counts.iter().map(|of| of[kind]).sum::<usize>();
    List {
        name: "methods_run",
        input,
        output,
        summary: format!(
            "{} refused, {} asks, {} candidates, up to {most} products",
            total(0),
            total(1),
            total(2)
        ),
    }
}
