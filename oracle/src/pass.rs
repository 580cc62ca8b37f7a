//! One pass of a scheme as far as the answers go, by the compared copy, with document 01's refusals by 6.

use crate::exact::LARGEST_NORM;
use crate::watch::{self, Exponential};
use crate::{OdeProblem, SolveError, SolverStats, compared};
use std::cell::{Cell, RefCell};

/// Right-hand sides per pass, by scheme.
pub const QUESTIONS: [usize; 16] = [0, 0, 1, 2, 3, 4, 2, 2, 2, 2, 2, 2, 2, 0, 1, 2];

/// The number of Etd2, the one scheme with a history.
pub const ETD2: usize = 13;

/// Exprb32 and Exprb43, the schemes with an error of their own.
pub const ESTIMATING: [usize; 2] = [14, 15];

/// With this J, u = 0, f0 = 1, h = 1 and answers 0 every scheme ends, after 32 squarings in every exponential over the
/// whole step.
pub const STIFFEST: f64 = 4096.0 - LARGEST_NORM;

/// What a pass starts from.
#[derive(Clone, Debug)]
pub struct Start {
    pub scheme: usize,
    pub time: f64,
    pub step: f64,
    pub state: Vec<f64>,
    pub f0: Vec<f64>,
    pub jacobian: Vec<f64>,
    pub history: Option<Vec<f64>>,
}

/// How far it got.
#[derive(Clone, Debug)]
pub enum Outcome {
    /// By 6.
    Refused,
    Ask {
        time: f64,
        state: Vec<f64>,
    },
    Candidate {
        pass: compared::Pass,
        /// Those of the whole pass, repeats too.
        exponentials: Vec<Exponential>,
    },
}

pub fn all_finite(values: &[f64]) -> bool {
    values.iter().all(|value| value.is_finite())
}

/// Replays the pass over the answers, which are finite. Every node on the way is tested, answered ones too.
pub fn run(start: &Start, answers: &[Vec<f64>]) -> Outcome {
    let au = compared::mat_vec(&start.jacobian, &start.state);
    let nonlinear: Vec<f64> = start.f0.iter().zip(&au).map(|(f, a)| f - a).collect();
    if !all_finite(&au) || !all_finite(&nonlinear) {
        return Outcome::Refused;
    }
    let watch = watch::start();
    let turn = Cell::new(0);
    let question = RefCell::new(None);
    let rhs = |derivative: &mut [f64], state: &[f64], _: &(), time: f64| {
        if !watch.all_admitted() || !all_finite(state) || !time.is_finite() {
            return Err(SolveError::Unanswered);
        }
        match answers.get(turn.replace(turn.get() + 1)) {
            Some(answer) => {
                derivative.copy_from_slice(answer);
                Ok(())
            }
            None => {
                *question.borrow_mut() = Some((time, state.to_vec()));
                Err(SolveError::Unanswered)
            }
        }
    };
    let result = compared::perform_step(
        start.scheme,
        &OdeProblem::new(rhs),
        &start.state,
        start.time,
        start.step,
        &start.f0,
        &start.jacobian,
        start.history.as_deref(),
        &mut SolverStats::default(),
    );
    if let Some((time, state)) = question.into_inner() {
        return Outcome::Ask { time, state };
    }
    match result {
        Ok(pass) if watch.all_admitted() && all_finite(&pass.error) => {
            Outcome::Candidate { pass, exponentials: watch.exponentials() }
        }
        _ => Outcome::Refused,
    }
}
