//! The four ways to step, and the reference.

use crate::model::{Between, FRAME, FRAMES, N, State, derivative, sent, start, time};
use crate::vunchrem::{Scheme, Session};
use oracle::{OdeProblem, SolveOptions, SolverStats, published};

/// Etdrk2, in the published order of schemes.
const ETDRK2: usize = 2;
const RELATIVE: f64 = 1e-6;
const ABSOLUTE: f64 = 1e-6;

/// Why a step was not made. The stepper's state is then as it was.
#[derive(Clone, Copy, Debug, Eq, PartialEq)]
pub enum Fault {
    /// The result is not finite.
    NotFinite,
    /// Refused by its number (docs/RULES.md).
    Refused(u8),
}

pub trait Stepper {
    /// One step from `between.from` to `between.to`, and its matrix products where they are told.
    fn step(&mut self, between: &Between) -> Result<Option<u32>, Fault>;
    fn state(&self) -> State;
}

fn rate(between: &Between, time: f64, u: &[f64]) -> State {
    let mut du = [0.0; N];
    derivative(between, time, u, &mut du);
    du
}

fn finite(state: State) -> Result<State, Fault> {
    if state.iter().all(|value| value.is_finite()) { Ok(state) } else { Err(Fault::NotFinite) }
}

fn plus(u: &State, step: f64, du: &State) -> State {
    std::array::from_fn(|i| u[i] + step * du[i])
}

/// The classical Runge-Kutta rule.
fn runge_kutta(between: &Between, time: f64, step: f64, u: &State) -> State {
    let half = 0.5 * step;
    let k1 = rate(between, time, u);
    let k2 = rate(between, time + half, &plus(u, half, &k1));
    let k3 = rate(between, time + half, &plus(u, half, &k2));
    let k4 = rate(between, time + step, &plus(u, step, &k3));
    std::array::from_fn(|i| u[i] + step / 6.0 * (k1[i] + 2.0 * k2[i] + 2.0 * k3[i] + k4[i]))
}

/// 1: an explicit rule.
pub struct Explicit(pub State);

impl Stepper for Explicit {
    fn step(&mut self, between: &Between) -> Result<Option<u32>, Fault> {
        let (from, to) = (between.from.0, between.to.0);
        self.0 = finite(runge_kutta(between, from, to - from, &self.0))?;
        Ok(None)
    }

    fn state(&self) -> State {
        self.0
    }
}

/// 2: Etdrk2 over a bare power series for the matrix exponential.
pub struct Series(pub State);

/// The sum of M^k / k!, without scaling, up to the first term that no longer counts.
fn bare_series(matrix: &[f64], size: usize) -> Vec<f64> {
    let mut sum = published_identity(size);
    let mut term = sum.clone();
    for k in 1..=600 {
        term = published::mat_mul(&term, matrix, size);
        term.iter_mut().for_each(|value| *value /= k as f64);
        sum.iter_mut().zip(&term).for_each(|(sum, term)| *sum += term);
        let largest = |values: &[f64]| values.iter().fold(0.0_f64, |most, value| most.max(value.abs()));
        if largest(&term) <= f64::EPSILON * largest(&sum).max(1.0) {
            break;
        }
    }
    sum
}

fn published_identity(size: usize) -> Vec<f64> {
    let mut matrix = vec![0.0; size * size];
    (0..size).for_each(|i| matrix[i * size + i] = 1.0);
    matrix
}

fn series_phi(jacobian: &[f64], step: f64, order: usize, input: &State) -> State {
    let size = N + order;
    let mut matrix = vec![0.0; size * size];
    for row in 0..N {
        for column in 0..N {
            matrix[row * size + column] = step * jacobian[row * N + column];
        }
        matrix[row * size + N] = input[row];
    }
    for row in N..size - 1 {
        matrix[row * size + row + 1] = 1.0;
    }
    let exponential = bare_series(&matrix, size);
    std::array::from_fn(|row| exponential[row * size + size - 1])
}

impl Stepper for Series {
    fn step(&mut self, between: &Between) -> Result<Option<u32>, Fault> {
        let (time, u) = (between.from.0, self.0);
        let step = between.to.0 - time;
        let f0 = rate(between, time, &u);
        let mut jacobian = [0.0; N * N];
        for column in 0..N {
            let delta = f64::EPSILON.sqrt() * (1.0 + u[column].abs());
            let mut moved = u;
            moved[column] += delta;
            let there = rate(between, time, &moved);
            (0..N).for_each(|row| jacobian[row * N + column] = (there[row] - f0[row]) / delta);
        }
        let first = plus(&u, step, &series_phi(&jacobian, step, 1, &f0));
        let f1 = rate(between, between.to.0, &first);
        let moved: Vec<f64> = (0..N).map(|i| first[i] - u[i]).collect();
        let linear = published::mat_vec(&jacobian, &moved);
        let rest = std::array::from_fn(|i| f1[i] - f0[i] - linear[i]);
        self.0 = finite(plus(&first, step, &series_phi(&jacobian, step, 2, &rest)))?;
        Ok(None)
    }

    fn state(&self) -> State {
        self.0
    }
}

/// 3: the Rust as published.
pub struct Published {
    kernel: published::Kernel,
    state: State,
}

impl Published {
    pub fn new(state: State, between: &Between) -> Self {
        let mut kernel = published::kernel(N, ETDRK2);
        let between = *between;
        let problem = OdeProblem::new(move |du: &mut [f64], u: &[f64], _: &(), t: f64| {
            derivative(&between, t, u, du);
            Ok(())
        });
        kernel
            .initialize(&problem, &state, between.from.0, &mut SolverStats::default())
            .expect("the pass starts from a finite derivative");
        Self { kernel, state }
    }
}

impl Stepper for Published {
    fn step(&mut self, between: &Between) -> Result<Option<u32>, Fault> {
        let (from, to) = (between.from.0, between.to.0);
        let between = *between;
        let problem = OdeProblem::new(move |du: &mut [f64], u: &[f64], _: &(), t: f64| {
            derivative(&between, t, u, du);
            Ok(())
        });
        let options = SolveOptions::tolerances(RELATIVE, ABSOLUTE);
        let mut stats = SolverStats::default();
        let mut candidate = [0.0; N];
        self.kernel
            .attempt_step(&problem, &self.state, from, to - from, &mut candidate, &options, &mut stats)
            .and_then(|_| self.kernel.accept_step(&problem, &candidate, to, &mut stats))
            .map_err(|_| Fault::NotFinite)?;
        self.state = candidate;
        Ok(None)
    }

    fn state(&self) -> State {
        self.state
    }
}

/// 4: this core.
pub struct Core(Session);

impl Core {
    pub fn new(state: State, between: &Between) -> Self {
        let f0 = rate(between, between.from.0, &state);
        let session = Session::open(Scheme::Etdrk2, between.from.0, &state, &f0, RELATIVE, &[ABSOLUTE; N]);
        Self(session.unwrap_or_else(|refusal| panic!("the opening was refused by {}", refusal.number())))
    }
}

impl Stepper for Core {
    fn step(&mut self, between: &Between) -> Result<Option<u32>, Fault> {
        let step = between.to.0 - self.0.time();
        self.0
            .step(step, |t, u, du| derivative(between, t, u, du))
            .map(|stepped| Some(stepped.products))
            .map_err(|refusal| Fault::Refused(refusal.number()))
    }

    fn state(&self) -> State {
        std::array::from_fn(|i| self.0.state()[i])
    }
}

/// The state at each frame by many small steps, over the words as they were sent.
pub fn reference(steps: usize) -> Vec<State> {
    let mut state = start();
    let mut states = vec![state];
    for frame in 1..=FRAMES {
        let from = time(frame - 1);
        let between = Between { from: (from, sent(frame - 1)), to: (time(frame), sent(frame)) };
        let step = FRAME / steps as f64;
        for turn in 0..steps {
            state = runge_kutta(&between, from + turn as f64 * step, step, &state);
        }
        states.push(state);
    }
    states
}
