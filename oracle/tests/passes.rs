//! The pass that the lists are made with.

use oracle::bits::same;
use oracle::field::Field;
use oracle::pass::{self, ETD2, Outcome, QUESTIONS, Start};
use oracle::random::Random;
use oracle::{OdeProblem, SolverStats, published};
use std::cell::RefCell;

fn start(scheme: usize, n: usize, step: f64, field: &Field, random: &mut Random) -> Start {
    let state: Vec<f64> = (0..n).map(|_| random.unit()).collect();
    let time = random.unit();
    Start {
        scheme,
        time,
        step,
        f0: field.at(time, &state),
        jacobian: field.jacobian(&state),
        history: (scheme == ETD2).then(|| vec![0.25; n]),
        state,
    }
}

/// The published copy and the compared one ask the same and end in the same, but for the squaring count.
#[test]
fn the_two_copies_agree_along_a_smooth_field() {
    let mut random = Random::new(5);
    for turn in 0..30 {
        for scheme in 0..16 {
            let n = 1 + random.below(8);
            // Backward in time a stiff field grows past what document 01 admits.
            let (stiffness, step) = [(1.0, 0.1), (1.0, -0.1), (1e3, 0.1)][turn % 3];
            let field = Field::new(n, stiffness, &mut random);
            let start = start(scheme, n, step, &field, &mut random);
            let asked = RefCell::new(Vec::new());
            let rhs = |derivative: &mut [f64], state: &[f64], _: &(), time: f64| {
                asked.borrow_mut().push((time, state.to_vec()));
                derivative.copy_from_slice(&field.at(time, state));
                Ok(())
            };
            let mut stats = SolverStats::default();
            let theirs = published::perform_step(
                scheme,
                &OdeProblem::new(rhs),
                &start.state,
                start.time,
                start.step,
                &start.f0,
                &start.jacobian,
                start.history.as_deref(),
                &mut stats,
            )
            .unwrap();
            assert_eq!(stats.rhs_evaluations, QUESTIONS[scheme]);
            let mut answers = Vec::new();
            for (at, question) in asked.borrow().iter() {
                let Outcome::Ask { time, state } = pass::run(&start, &answers) else {
                    panic!("{} asks more", published::name(scheme));
                };
                assert!(same(&[time], &[*at]) && same(&state, question));
                answers.push(field.at(time, &state));
            }
            let Outcome::Candidate { pass: ours, .. } = pass::run(&start, &answers) else {
                panic!("{} has no candidate", published::name(scheme));
            };
            assert!(same(&ours.candidate, &theirs.candidate));
            assert!(same(&ours.error, &theirs.error));
            assert!(same(&ours.nonlinear, &theirs.nonlinear));
        }
    }
}

fn candidate(scheme: usize, step: f64, sign: f64, history: Option<f64>) -> f64 {
    let start = Start {
        scheme,
        time: 0.0,
        step,
        state: vec![sign],
        f0: vec![2.0 * sign],
        jacobian: vec![0.0],
        history: history.map(|x| vec![x]),
    };
    match pass::run(&start, &[]) {
        Outcome::Candidate { pass, .. } => pass.candidate[0],
        other => panic!("{other:?}"),
    }
}

#[test]
fn the_examples_of_document_01_come_out() {
    assert_eq!(candidate(1, 1.0, 1.0, None), 3.0);
    assert_eq!(candidate(1, 0.5, 1.0, None), 2.0);
    assert_eq!(candidate(1, 1.0, -1.0, None), -3.0);
    assert_eq!(candidate(0, 1.0, 1.0, None), 3.0);
    assert_eq!(candidate(ETD2, 1.0, 1.0, None), 3.0);
    assert_eq!(candidate(ETD2, 1.0, 1.0, Some(1.0)), 3.5);
}

#[test]
fn the_lists_are_the_same_in_every_run() {
    for (first, second) in oracle::lists::all().iter().zip(oracle::lists::all()) {
        assert!(first.input == second.input && first.output == second.output);
        assert!(!first.input.is_empty());
    }
}
