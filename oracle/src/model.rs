//! Document 01's session and its calls, modelled around the published functions (the compared copy).
//!
//! Every call takes a session as it comes, also one that nobody here made, and hands back its answer with the
//! session that follows; a refused call hands back the one it was given and leaves the lent output alone.

use crate::pass::{self, ETD2, Outcome, QUESTIONS, Start, all_finite};
use crate::table::Table;
use crate::tolerances::Tolerances;
use crate::watch::{self, Exponential};
use crate::{OdeProblem, SolveError, SolverStats, compared};
use std::cell::{Cell, RefCell};

/// The largest dimension.
pub const PLACES: usize = 16;
/// The answers that a session has places for: sixteen columns and four stages.
pub const ANSWERS: usize = 20;
/// The largest size of a bare exponential.
pub const LARGEST_SIZE: usize = 20;

pub type Vector = [f64; PLACES];
pub type Matrix = [f64; PLACES * PLACES];

/// The values, with +0.0 in the places past them.
pub fn vector(values: &[f64]) -> Vector {
    let mut vector = [0.0; PLACES];
    vector[..values.len()].copy_from_slice(values);
    vector
}

#[derive(Clone, Copy, Debug, Eq, PartialEq)]
pub enum Attempt {
    None,
    Supplied,
    Differenced,
}

#[derive(Clone, Debug)]
pub struct Session {
    pub scheme: u8,
    pub n: u8,
    pub history_held: bool,
    pub attempt: Attempt,
    /// How many answers there are.
    pub count: u8,
    pub time: f64,
    pub step: f64,
    pub relative: f64,
    /// A tolerance for each of the first n components, +0.0 in the other places.
    pub absolute: Vector,
    pub state: Vector,
    pub derivative: Vector,
    pub history: Vector,
    pub jacobian: Matrix,
    pub answers: [Vector; ANSWERS],
}

/// What a call tells the host.
#[derive(Clone, Copy, Debug, PartialEq)]
pub enum Answer {
    Refused(u8),
    /// The place is the question's in its attempt, from 0.
    Ask {
        place: u8,
        time: f64,
    },
    /// The products are the matrix products of the pass: the terms and squarings of its exponentials.
    Ready {
        norm: f64,
        right_hand_sides: u32,
        jacobians: u32,
        products: u32,
    },
    Resting,
    FirstStep(f64),
    /// The terms and squarings of the exponential.
    Filled {
        terms: u32,
        squarings: u32,
    },
    Norm(f64),
}

/// What open is handed.
#[derive(Clone, Debug)]
pub struct Opening {
    pub scheme: u8,
    pub n: u8,
    pub history_held: bool,
    pub time: f64,
    pub relative: f64,
    /// A tolerance for each of the first n components, +0.0 in the other places.
    pub absolute: Vector,
    pub state: Vector,
    pub derivative: Vector,
    pub history: Vector,
}

/// The first number whose condition holds, in the order of the list; 0 for none. Later conditions are not looked at.
fn first_refusal(tests: &[(u8, &dyn Fn() -> bool)]) -> u8 {
    let found = tests.iter().find(|(_, holds)| holds());
    found.map_or(0, |(number, _)| *number)
}

/// By value and sign: a NaN is no zero, and -0.0 is not this one.
fn is_plus_zero(x: &f64) -> bool {
    x.to_bits() == 0
}

fn unused(places: &[f64]) -> bool {
    places.iter().all(is_plus_zero)
}

fn dimension_is_bad(n: u8) -> bool {
    !(1..=PLACES).contains(&usize::from(n))
}

fn step_is_bad(step: f64) -> bool {
    !step.is_finite() || step == 0.0
}

impl Session {
    /// What a refused open gives; every call refuses it by 1.
    pub fn blank() -> Self {
        Self {
            scheme: 0,
            n: 0,
            history_held: false,
            attempt: Attempt::None,
            count: 0,
            time: 0.0,
            step: 0.0,
            relative: 0.0,
            absolute: [0.0; PLACES],
            state: [0.0; PLACES],
            derivative: [0.0; PLACES],
            history: [0.0; PLACES],
            jacobian: [0.0; PLACES * PLACES],
            answers: [[0.0; PLACES]; ANSWERS],
        }
    }

    fn n(&self) -> usize {
        usize::from(self.n)
    }

    /// The answers in use. A count beyond the places is refused by 2; all places are in use under it.
    fn used_answers(&self) -> &[Vector] {
        &self.answers[..usize::from(self.count).min(ANSWERS)]
    }

    /// The questions of the session's attempt; the scheme is known to be one.
    fn questions(&self) -> usize {
        let columns = if self.attempt == Attempt::Differenced { self.n() } else { 0 };
        columns + QUESTIONS[usize::from(self.scheme)]
    }

    fn has_attempt(&self) -> bool {
        self.attempt != Attempt::None
    }

    fn is_resting(&self) -> bool {
        !self.has_attempt()
    }

    fn is_asking(&self) -> bool {
        self.has_attempt() && usize::from(self.count) < self.questions()
    }

    fn is_ready(&self) -> bool {
        self.has_attempt() && usize::from(self.count) == self.questions()
    }

    /// Condition 1 on the session.
    fn has_misplaced_numbers(&self) -> bool {
        let n = self.n();
        let used = |held: bool, places: usize| if held { places } else { 0 };
        let count = self.used_answers().len();
        dimension_is_bad(self.n)
            || !unused(&self.absolute[n..])
            || !unused(&self.state[n..])
            || !unused(&self.derivative[n..])
            || !unused(&self.history[used(self.history_held, n)..])
            || !unused(&self.jacobian[used(self.attempt == Attempt::Supplied, n * n)..])
            || !(self.has_attempt() || is_plus_zero(&self.step))
            || !self.used_answers().iter().all(|answer| unused(&answer[n..]))
            || !self.answers[count..].iter().all(|answer| unused(answer))
    }

    /// Condition 2 on the session.
    fn is_inconsistent(&self) -> bool {
        let scheme = usize::from(self.scheme);
        scheme >= QUESTIONS.len()
            || (self.history_held && scheme != ETD2)
            || (self.is_resting() && self.count > 0)
            || (self.has_attempt() && usize::from(self.count) > self.questions())
    }

    /// Condition 3 on the session, whose places not in use are +0.0.
    fn has_numbers_not_finite(&self) -> bool {
        !self.time.is_finite()
            || !all_finite(&self.state)
            || !all_finite(&self.derivative)
            || !all_finite(&self.history)
            || !all_finite(&self.jacobian)
            || !self.answers.iter().all(|answer| all_finite(answer))
    }

    /// The conditions on the session in document 01's order, the phase being right or not.
    fn refusal(&self, wrong_phase: impl Fn(&Self) -> bool) -> u8 {
        self.refusal_by_place(wrong_phase, |_| false)
    }

    /// The same where a question is named, its place being right or not.
    fn refusal_by_place(
        &self,
        wrong_phase: impl Fn(&Self) -> bool,
        wrong_place: impl Fn(&Self) -> bool,
    ) -> u8 {
        first_refusal(&[
            (1, &|| self.has_misplaced_numbers()),
            (2, &|| self.is_inconsistent()),
            (7, &|| wrong_phase(self)),
            (9, &|| wrong_place(self)),
            (4, &|| self.tolerances().are_bad()),
            (5, &|| self.has_attempt() && step_is_bad(self.step)),
            (3, &|| self.has_numbers_not_finite()),
        ])
    }

    /// The tolerances that count; the dimension is known to be one.
    fn tolerances(&self) -> Tolerances<'_> {
        Tolerances { relative: self.relative, absolute: &self.absolute[..self.n()] }
    }

    /// At rest, the run as it is.
    fn at_rest(&self) -> Self {
        Self {
            scheme: self.scheme,
            n: self.n,
            history_held: self.history_held,
            time: self.time,
            relative: self.relative,
            absolute: self.absolute,
            state: self.state,
            derivative: self.derivative,
            history: self.history,
            ..Self::blank()
        }
    }

    /// How far the attempt has come by its answers: the pass worked out anew, every node on the way tested.
    fn progress(&self) -> Outcome {
        let n = self.n();
        let answers: Vec<Vec<f64>> = self.used_answers().iter().map(|a| a[..n].to_vec()).collect();
        let (jacobian, of_the_scheme) = match self.attempt {
            Attempt::Differenced => match self.difference(&answers) {
                Ok(jacobian) => (jacobian, &answers[n..]),
                Err(outcome) => return outcome,
            },
            _ => (self.jacobian[..n * n].to_vec(), &answers[..]),
        };
        let start = Start {
            scheme: usize::from(self.scheme),
            time: self.time,
            step: self.step,
            state: self.state[..n].to_vec(),
            f0: self.derivative[..n].to_vec(),
            jacobian,
            history: self.history_held.then(|| self.history[..n].to_vec()),
        };
        pass::run(&start, of_the_scheme)
    }

    /// The differenced Jacobian, or the question or refusal that comes before it is whole.
    fn difference(&self, answers: &[Vec<f64>]) -> Result<Vec<f64>, Outcome> {
        let n = self.n();
        let turn = Cell::new(0);
        let question = RefCell::new(None);
        let rhs = |derivative: &mut [f64], state: &[f64], _: &(), time: f64| {
            if !all_finite(state) || !time.is_finite() {
                return Err(SolveError::Unanswered);
            }
            match answers.get(turn.get()) {
                Some(answer) => {
                    derivative.copy_from_slice(answer);
                    turn.set(turn.get() + 1);
                    Ok(())
                }
                None => {
                    *question.borrow_mut() = Some((time, state.to_vec()));
                    Err(SolveError::Unanswered)
                }
            }
        };
        // Columns without an answer stay +0.0, so that the test below is of the answered ones.
        let mut jacobian = vec![0.0; n * n];
        let whole = compared::compute_jacobian(
            &OdeProblem::new(rhs),
            &self.state[..n],
            self.time,
            &self.derivative[..n],
            &mut jacobian,
            &mut SolverStats::default(),
        );
        if !all_finite(&jacobian) {
            return Err(Outcome::Refused);
        }
        match (question.into_inner(), whole) {
            (Some((time, state)), _) => Err(Outcome::Ask { time, state }),
            (None, Ok(())) => Ok(jacobian),
            (None, Err(_)) => Err(Outcome::Refused),
        }
    }

    /// Tells how far `next` has come and fills the lent output, or refuses by 6 and keeps this session.
    fn tell(self, next: Self, lent: &mut [f64]) -> (Answer, Self) {
        match next.progress() {
            Outcome::Refused => (Answer::Refused(6), self),
            Outcome::Ask { time, state } => {
                lent.copy_from_slice(&state);
                (Answer::Ask { place: next.count, time }, next)
            }
            Outcome::Candidate { pass, exponentials } => {
                lent.copy_from_slice(&pass.candidate);
                let n = next.n();
                let ready = Answer::Ready {
                    norm: next.tolerances().error_norm(&pass.error, &next.state[..n], &pass.candidate),
                    right_hand_sides: next.questions() as u32,
                    jacobians: 1,
                    products: watch::products(&exponentials),
                };
                (ready, next)
            }
        }
    }

    pub fn open(opening: &Opening) -> (Answer, Self) {
        let session = Self {
            scheme: opening.scheme,
            n: opening.n,
            history_held: opening.history_held,
            time: opening.time,
            relative: opening.relative,
            absolute: opening.absolute,
            state: opening.state,
            derivative: opening.derivative,
            history: opening.history,
            ..Self::blank()
        };
        // What is handed in makes up the session, at rest: the same conditions, and no phase.
        match session.refusal(|_| false) {
            0 => (Answer::Resting, session),
            number => (Answer::Refused(number), Self::blank()),
        }
    }

    /// Begins an attempt with a Jacobian, or with the wish to difference and +0.0 in its places.
    pub fn begin(self, supplied: bool, step: f64, jacobian: &Matrix, lent: &mut [f64]) -> (Answer, Self) {
        let n = self.n();
        let on_session = self.refusal(|session| !session.is_resting());
        if on_session != 0 {
            return (Answer::Refused(on_session), self);
        }
        let used = if supplied { n * n } else { 0 };
        let on_handed_in = first_refusal(&[
            (1, &|| lent.len() != n || !unused(&jacobian[used..])),
            (5, &|| step_is_bad(step)),
            (3, &|| !all_finite(&jacobian[..used])),
        ]);
        if on_handed_in != 0 {
            return (Answer::Refused(on_handed_in), self);
        }
        let next = Self {
            attempt: if supplied { Attempt::Supplied } else { Attempt::Differenced },
            step,
            jacobian: *jacobian,
            ..self.clone()
        };
        self.tell(next, lent)
    }

    /// Supplies the answer to the question at a place.
    pub fn supply(self, place: u8, answer: &Vector, lent: &mut [f64]) -> (Answer, Self) {
        let n = self.n();
        let on_session =
            self.refusal_by_place(|session| !session.is_asking(), |session| place != session.count);
        if on_session != 0 {
            return (Answer::Refused(on_session), self);
        }
        let on_handed_in = first_refusal(&[
            (1, &|| lent.len() != n || !unused(&answer[n..])),
            (3, &|| !all_finite(&answer[..n])),
        ]);
        if on_handed_in != 0 {
            return (Answer::Refused(on_handed_in), self);
        }
        let mut next = self.clone();
        next.answers[usize::from(self.count)] = *answer;
        next.count += 1;
        self.tell(next, lent)
    }

    pub fn accept(self, derivative: &Vector) -> (Answer, Self) {
        let n = self.n();
        let on_session = self.refusal(|session| !session.is_ready());
        if on_session != 0 {
            return (Answer::Refused(on_session), self);
        }
        let on_handed_in =
            first_refusal(&[(1, &|| !unused(&derivative[n..])), (3, &|| !all_finite(&derivative[..n]))]);
        if on_handed_in != 0 {
            return (Answer::Refused(on_handed_in), self);
        }
        let Outcome::Candidate { pass, .. } = self.progress() else {
            return (Answer::Refused(6), self);
        };
        let time = self.time + self.step;
        if !time.is_finite() {
            return (Answer::Refused(6), self);
        }
        let mut next = self.at_rest();
        next.time = time;
        next.state[..n].copy_from_slice(&pass.candidate);
        next.derivative = *derivative;
        if usize::from(next.scheme) == ETD2 {
            next.history_held = true;
            next.history[..n].copy_from_slice(&pass.nonlinear);
        }
        (Answer::Resting, next)
    }

    pub fn drop_attempt(self) -> (Answer, Self) {
        match self.refusal(|_| false) {
            0 => (Answer::Resting, self.at_rest()),
            number => (Answer::Refused(number), self),
        }
    }

    /// A whole step with no host between: the Jacobian differenced, every question answered by the table, and the candidate
    /// accepted whatever its error norm.
    pub fn whole_step(self, step: f64, table: &[u8]) -> (Answer, Self) {
        let on_session = self.refusal(|session| !session.is_resting());
        if on_session != 0 {
            return (Answer::Refused(on_session), self);
        }
        let Some(table) = Table::read(table, self.n()) else {
            return (Answer::Refused(8), self);
        };
        match self.clone().step_by_table(step, &table) {
            (Answer::Resting, next, _) => (Answer::Resting, next),
            (refused, ..) => (refused, self),
        }
    }

    /// Begin, supply and accept as the table answers, up to the first refusal: the last call's answer, the session after
    /// it, and how many calls came before it. The session is sound and at rest.
    pub fn step_by_table(self, step: f64, table: &Table) -> (Answer, Self, usize) {
        let mut asked = vec![0.0; self.n()];
        let (mut answer, mut session) = self.begin(false, step, &[0.0; PLACES * PLACES], &mut asked);
        let mut calls = 0;
        while let Answer::Ask { place, time } = answer {
            (answer, session) = session.supply(place, &table.derivative(time, &asked), &mut asked);
            calls += 1;
        }
        if let Answer::Ready { .. } = answer {
            let time = session.time + session.step;
            (answer, session) = session.accept(&table.derivative(time, &asked));
            calls += 1;
        }
        (answer, session, calls)
    }

    pub fn first_step(self, largest: f64) -> (Answer, Self) {
        let on_session = self.refusal(|_| false);
        if on_session != 0 {
            return (Answer::Refused(on_session), self);
        }
        if largest.is_nan() || largest < f64::EPSILON {
            return (Answer::Refused(5), self);
        }
        let n = self.n();
        let step = self.tolerances().first_step(&self.state[..n], &self.derivative[..n], largest);
        (Answer::FirstStep(step), self)
    }
}

pub fn bare_exponential(size: u8, entries: &[f64], lent: &mut [f64]) -> Answer {
    let size = usize::from(size);
    let places = size * size;
    let refusal = first_refusal(&[
        (1, &|| !(1..=LARGEST_SIZE).contains(&size)),
        (1, &|| entries.len() != places || lent.len() != places),
        (3, &|| !all_finite(entries)),
        (6, &|| !watch::admits(entries, size)),
    ]);
    if refusal != 0 {
        return Answer::Refused(refusal);
    }
    let watch = watch::start();
    lent.copy_from_slice(&compared::matrix_exp(entries, size));
    filled(watch.only())
}

pub fn bare_phi_action(
    n: u8,
    order: u8,
    scale_a: f64,
    matrix: &[f64],
    input: &[f64],
    lent: &mut [f64],
) -> Answer {
    let places = usize::from(n);
    let refusal = first_refusal(&[
        (1, &|| dimension_is_bad(n) || !(1..=4).contains(&order)),
        (1, &|| matrix.len() != places * places || input.len() != places || lent.len() != places),
        (3, &|| !scale_a.is_finite() || !all_finite(matrix) || !all_finite(input)),
    ]);
    if refusal != 0 {
        return Answer::Refused(refusal);
    }
    let watch = watch::start();
    let action = compared::phi_action(matrix, scale_a, usize::from(order), input);
    if !watch.all_admitted() {
        return Answer::Refused(6);
    }
    lent.copy_from_slice(&action);
    filled(watch.only())
}

fn filled(exponential: Exponential) -> Answer {
    Answer::Filled { terms: exponential.terms, squarings: exponential.squarings }
}

pub fn bare_error_norm(
    n: u8,
    relative: f64,
    absolute: &Vector,
    error: &Vector,
    state: &Vector,
    candidate: &Vector,
) -> Answer {
    let places = usize::from(n);
    let all = [error, state, candidate];
    let tolerances = || Tolerances { relative, absolute: &absolute[..places] };
    let refusal = first_refusal(&[
        (1, &|| {
            dimension_is_bad(n) || !unused(&absolute[places..]) || all.iter().any(|v| !unused(&v[places..]))
        }),
        (4, &|| tolerances().are_bad()),
        (3, &|| all.iter().any(|v| !all_finite(&v[..places]))),
    ]);
    if refusal != 0 {
        return Answer::Refused(refusal);
    }
    let [error, state, candidate] = all.map(|v| &v[..places]);
    Answer::Norm(tolerances().error_norm(error, state, candidate))
}
