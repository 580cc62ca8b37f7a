//! Times single passes (begin with a supplied Jacobian, the questions, drop) and whole steps (begin with differencing, the questions,
//! accept) of the core's session, and the same work of the published Rust, on the same right-hand side. The means come last.
use oracle::{OdeProblem, SolveError, SolveOptions, SolverStats, published};
use std::hint::black_box;
use vunchrem::{Progress, Scheme, Session};

mod rounds;

const CASES: [(&str, f64); 2] = [("soft", 1.0), ("stiff", 1_000.0)];
const SIZES: [usize; 4] = [1, 3, 8, 16];
const TOLERANCE: f64 = 1e-6;

/// A chain of coupled cells with a mild nonlinearity; `stiffness` is the size of its Jacobian's entries.
fn chain(stiffness: f64, u: &[f64], du: &mut [f64]) {
    let n = u.len();
    for i in 0..n {
        let left = if i > 0 { u[i - 1] } else { 0.0 };
        let right = if i + 1 < n { u[i + 1] } else { 0.0 };
        du[i] = stiffness * (0.5 * left - u[i] + 0.25 * right) + 0.1 * u[i] * u[i];
    }
}

struct Case {
    n: usize,
    stiffness: f64,
    step: f64,
    state: Vec<f64>,
    f0: Vec<f64>,
    jacobian: Vec<f64>,
}

fn case(n: usize, stiffness: f64) -> Case {
    let state: Vec<f64> = (0..n).map(|i| 1.0 + 0.1 * i as f64).collect();
    let mut f0 = vec![0.0; n];
    chain(stiffness, &state, &mut f0);
    let problem = OdeProblem::new(move |du: &mut [f64], u: &[f64], _: &(), _: f64| {
        chain(stiffness, u, du);
        Ok::<(), SolveError>(())
    });
    let mut jacobian = vec![0.0; n * n];
    published::compute_jacobian(&problem, &state, 0.0, &f0, &mut jacobian, &mut SolverStats::default()).unwrap();
    Case { n, stiffness, step: 0.01, state, f0, jacobian }
}

/// Questions answered until the attempt is ready, or refused.
fn answer(session: &mut Session, mut progress: Progress, stiffness: f64) -> Option<Vec<f64>> {
    loop {
        match progress {
            Progress::Ask(question) => {
                let mut du = vec![0.0; question.state().len()];
                chain(stiffness, question.state(), &mut du);
                progress = session.answer(question, &du).ok()?;
            }
            Progress::Ready { candidate, .. } => return Some(candidate),
        }
    }
}

/// The core's time over the Rust's, of a pass and of a whole step.
struct Cell {
    label: String,
    n: usize,
    pass: f64,
    step: f64,
}

/// The geometric mean of some cells, and the largest of them with its scheme and case.
fn mean(cells: &[&Cell], ratio: fn(&Cell) -> f64) -> String {
    let logarithms: f64 = cells.iter().map(|c| ratio(c).ln()).sum();
    let largest = cells.iter().max_by(|a, b| ratio(a).total_cmp(&ratio(b))).unwrap();
    format!("{:>5.2} {:>9.2} {:<19}", (logarithms / cells.len() as f64).exp(), ratio(largest), largest.label)
}

/// The means for each n, soft and stiff together.
fn means(cells: &[Cell]) {
    let all = CASES.len() * Scheme::ALL.len();
    println!("Geometric means of core / Rust over the {} schemes, soft and stiff together; refused cells are left out.\n", Scheme::ALL.len());
    println!("{:>2}  {:>8}  {:>5} {:>9} {:<19}  {:>5} {:>9}", "n", "cells", "pass", "largest", "", "step", "largest");
    for n in SIZES {
        let some: Vec<&Cell> = cells.iter().filter(|c| c.n == n).collect();
        println!("{n:>2}  {:>2} of {all}  {}  {}", some.len(), mean(&some, |c| c.pass), mean(&some, |c| c.step).trim_end());
    }
}

fn main() {
    let mut cells = Vec::new();
    println!("soft: the Jacobian's row sums times the step are about 0.02; stiff: about 20. Microseconds, and core / Rust.\n");
    for (name, stiffness) in CASES {
        println!("{name:<12} {:>2}  {:>10} {:>10} {:>6}   {:>10} {:>10} {:>6}", "n", "pass: Rust", "core", "ratio", "step: Rust", "core", "ratio");
        for (number, scheme) in Scheme::ALL.into_iter().enumerate() {
            for n in SIZES {
                let c = case(n, stiffness);
                let problem = OdeProblem::new(move |du: &mut [f64], u: &[f64], _: &(), _: f64| {
                    chain(stiffness, u, du);
                    Ok::<(), SolveError>(())
                });
                let pass = |jacobian: &[f64]| {
                    published::perform_step(number, &problem, &c.state, 0.0, c.step, &c.f0, jacobian, None, &mut SolverStats::default()).unwrap()
                };
                let mut session = Session::open(scheme, 0.0, &c.state, &c.f0, TOLERANCE, TOLERANCE).unwrap();
                let first = session.begin(c.step, Some(&c.jacobian)).unwrap();
                let Some(candidate) = answer(&mut session, first, c.stiffness) else {
                    let rust = published::perform_step(number, &problem, &c.state, 0.0, c.step, &c.f0, &c.jacobian, None, &mut SolverStats::default());
                    println!("{:<12} {:>2}  refused by 6; the Rust: {}", published::name(number), c.n, if rust.is_err() { "an error" } else { "a candidate" });
                    continue;
                };
                session.drop_attempt().unwrap();
                let same = candidate.iter().zip(&pass(&c.jacobian).candidate).all(|(a, b)| a.to_bits() == b.to_bits());
                let [rust_pass, core_pass] = rounds::times([
                    &mut || {
                        black_box(pass(&c.jacobian));
                    },
                    &mut || {
                        let first = session.begin(c.step, Some(&c.jacobian)).unwrap();
                        black_box(answer(&mut session, first, c.stiffness));
                        session.drop_attempt().unwrap();
                    },
                ]);
                let options = SolveOptions::tolerances(TOLERANCE, TOLERANCE);
                let mut jacobian = vec![0.0; n * n];
                let mut derivative = vec![0.0; n];
                let [rust_step, core_step] = rounds::times([
                    &mut || {
                        let stats = &mut SolverStats::default();
                        published::compute_jacobian(&problem, &c.state, 0.0, &c.f0, &mut jacobian, stats).unwrap();
                        let done = pass(&jacobian);
                        black_box(published::scaled_error_norm(&done.error, &c.state, &done.candidate, &options));
                        chain(stiffness, &done.candidate, &mut derivative);
                        black_box(&derivative);
                    },
                    &mut || {
                        let mut session = Session::open(scheme, 0.0, &c.state, &c.f0, TOLERANCE, TOLERANCE).unwrap();
                        black_box(session.step(c.step, |_: f64, u: &[f64], du: &mut [f64]| chain(stiffness, u, du)).unwrap());
                    },
                ]);
                let cell = Cell { label: format!("{}, {name}", published::name(number)), n, pass: core_pass / rust_pass, step: core_step / rust_step };
                println!(
                    "{:<12} {:>2}  {:>10.2} {:>10.2} {:>6.2}   {:>10.2} {:>10.2} {:>6.2}{}",
                    published::name(number), c.n, rust_pass / 1e3, core_pass / 1e3, cell.pass,
                    rust_step / 1e3, core_step / 1e3, cell.step, if same { "" } else { "  DIFFERS" }
                );
                cells.push(cell);
            }
        }
        println!();
    }
    means(&cells);
}
