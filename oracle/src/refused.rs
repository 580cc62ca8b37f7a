//! What the Rust does with each kind of input that document 01 refuses by 6.
//!
//! The observed copy is run: it is the published text, but where it would square a matrix thousands of times it
//! tells the number and stops. So nothing here hangs.

use crate::bits::{power_of_two, show};
use crate::watch::Unbearable;
use crate::{OdeProblem, SolveError, SolveOptions, SolverStats, observed};
use std::panic::{AssertUnwindSafe, catch_unwind};

/// What became of a step.
#[derive(Clone, Debug, PartialEq)]
pub enum Fate {
    /// A finite candidate that is not the old state, and its error norm.
    GoesOn { candidate: f64, norm: f64 },
    /// The old state, bit for bit, as a good candidate.
    OldState,
    /// The published error.
    Errs,
    /// So many squarings for one exponential.
    Hangs { squarings: u32 },
}

/// A step of one component.
#[derive(Clone)]
pub struct Input {
    /// `None` to difference.
    pub jacobian: Option<f64>,
    pub time: f64,
    pub state: f64,
    pub f0: f64,
    pub step: f64,
    /// What the right-hand side answers in turn; the last answer goes on for ever.
    pub answers: Vec<f64>,
}

impl Input {
    fn new(jacobian: Option<f64>, state: f64, f0: f64, step: f64, answers: &[f64]) -> Self {
        let answers = answers.to_vec();
        Self { jacobian, time: 0.0, state, f0, step, answers }
    }
}

/// Runs the kernel's `attempt_step`.
pub fn fate(scheme: usize, input: &Input) -> Fate {
    let turn = std::cell::Cell::new(0);
    let rhs = |derivative: &mut [f64], _: &[f64], _: &(), _: f64| -> Result<(), SolveError> {
        // The kernel's first call is for f0.
        derivative[0] = match turn.replace(turn.get() + 1) {
            0 => input.f0,
            k => input.answers[(k - 1).min(input.answers.len() - 1)],
        };
        Ok(())
    };
    let problem = match input.jacobian {
        Some(entry) => OdeProblem::with_jacobian(rhs, vec![entry]),
        None => OdeProblem::new(rhs),
    };
    let options = SolveOptions::tolerances(1.0, 1.0);
    let mut stats = SolverStats::default();
    let mut kernel = observed::kernel(1, scheme);
    let mut candidate = [0.0];
    let result = catch_unwind(AssertUnwindSafe(|| {
        kernel.initialize(&problem, &[input.state], input.time, &mut stats)?;
        let state = [input.state];
        kernel.attempt_step(&problem, &state, input.time, input.step, &mut candidate, &options, &mut stats)
    }));
    match result {
        Ok(Ok(_)) if candidate[0].to_bits() == input.state.to_bits() => Fate::OldState,
        Ok(Ok(norm)) => Fate::GoesOn { candidate: candidate[0], norm },
        Ok(Err(_)) => Fate::Errs,
        Err(panic) => match panic.downcast::<Unbearable>() {
            Ok(unbearable) => Fate::Hangs { squarings: unbearable.0 },
            Err(other) => std::panic::resume_unwind(other),
        },
    }
}

/// A kind of refusal by 6.
pub struct Kind {
    pub name: &'static str,
    /// Its smallest input.
    pub input: Input,
    /// The schemes that it is an input for.
    pub schemes: &'static [usize],
}

const EVERY: &[usize] = &[0, 1, 2, 3, 4, 5, 6, 7, 8, 9, 10, 11, 12, 13, 14, 15];

pub fn kinds() -> Vec<Kind> {
    let huge = power_of_two(1023);
    let large = 6e6;
    let late = Input { time: huge, ..Input::new(Some(0.0), 1.0, 0.0, huge, &[0.0]) };
    let kind = |name, schemes, input| Kind { name, input, schemes };
    let with_jacobian = |entry| Input::new(Some(entry), 1.0, 1.0, 1.0, &[1.0]);
    vec![
        kind(
            "a differenced Jacobian entry not finite",
            EVERY,
            Input::new(None, 0.0, 0.0, 1.0, &[power_of_two(998), 0.0]),
        ),
        kind("J u not finite", EVERY, Input::new(Some(-2.0), huge, 0.0, 1.0, &[0.0])),
        kind("f0 - J u not finite", EVERY, Input::new(Some(-1.0), f64::MAX, power_of_two(970), 1.0, &[0.0])),
        kind("a row sum infinite, by an entry of h J", EVERY, Input::new(Some(huge), 0.0, 0.0, 2.0, &[0.0])),
        kind(
            "a row sum infinite, by the input column",
            &[1, 2, 3, 4, 5, 6, 7, 8, 9, 10, 11, 12, 14, 15],
            Input::new(Some(huge), 0.0, huge, 1.0, &[0.0]),
        ),
        kind(
            "a row sum NaN: h^2 is 0, a coefficient over it is infinite, and times 0 it is NaN",
            &[7, 8],
            Input::new(Some(0.0), 0.0, 0.0, power_of_two(-540), &[0.0]),
        ),
        kind(
            "a row sum NaN: 2 h is infinite, and times 0 it is NaN",
            &[6],
            Input::new(Some(0.0), 1.0, 0.0, huge, &[0.0]),
        ),
        kind("a row sum just above 2^31", EVERY, with_jacobian(-power_of_two(31).next_up())),
        kind("a row sum above 2^40, J positive", EVERY, with_jacobian(power_of_two(40))),
        kind("a row sum above 2^40, J negative", EVERY, with_jacobian(-power_of_two(40))),
        kind("a row sum whose count comes to 1024", EVERY, with_jacobian(1.5 * power_of_two(1022))),
        kind("a row sum of 2^1023, which doubled is infinite", EVERY, with_jacobian(huge)),
        kind("an asked state infinite, J zero", &[2, 14], Input::new(Some(0.0), huge, 1.0, huge, &[0.0])),
        kind(
            "an asked state infinite, J not zero",
            &[2, 14],
            Input::new(Some(power_of_two(-1060)), huge, 1.0, huge, &[0.0]),
        ),
        kind(
            "an asked state NaN: a coefficient over h^2 times 0, as above",
            &[9, 10],
            Input::new(Some(0.0), 0.0, 0.0, power_of_two(-540), &[0.0]),
        ),
        kind("an asked state infinite, in differencing", EVERY, Input::new(None, f64::MAX, 0.0, 1.0, &[0.0])),
        kind("an asked time not finite", &[2, 3, 4, 5, 14, 15], late.clone()),
        kind("a candidate not finite", &[0, 1, 13], Input::new(Some(0.0), huge, 1.0, huge, &[1.0])),
        kind(
            "an error entry not finite",
            &[15],
            Input::new(Some(0.0), 0.0, large, power_of_two(1000), &[-large, large]),
        ),
        kind("the accepted time not finite", &[0, 1, 13], late),
    ]
}

/// Each kind with its input and what each of its schemes makes of it.
pub fn report() -> String {
    // What the observed copy stops with is expected; nothing is printed for it.
    std::panic::set_hook(Box::new(|_| {}));
    let mut lines = Vec::new();
    for kind in kinds() {
        let Kind { name, input, .. } = &kind;
        lines.push(name.to_string());
        let jacobian = match input.jacobian {
            Some(entry) => format!("J = [{}]", show(entry)),
            None => "J differenced".into(),
        };
        let answers: Vec<String> = input.answers.iter().map(|x| show(*x)).collect();
        lines.push(format!(
            "  n = 1, {jacobian}, u = {}, f0 = {}, time {}, step {}, answers {}",
            show(input.state),
            show(input.f0),
            show(input.time),
            show(input.step),
            answers.join(", ")
        ));
        for (words, names) in by_fate(&kind) {
            lines.push(format!("    {words}: {}", names.join(", ")));
        }
        lines.push(String::new());
    }
    lines.join("\n")
}

/// The schemes by what becomes of the step, in the order of the schemes.
fn by_fate(kind: &Kind) -> Vec<(String, Vec<String>)> {
    let mut groups: Vec<(String, Vec<String>)> = Vec::new();
    for scheme in kind.schemes {
        let words = match fate(*scheme, &kind.input) {
            Fate::GoesOn { candidate, norm } => {
                format!("goes on; candidate {}, error norm {}", show(candidate), show(norm))
            }
            Fate::OldState => "goes on; the candidate is the old state".into(),
            Fate::Errs => "errs (NonFiniteDerivative)".into(),
            Fate::Hangs { squarings } => format!("hangs: {squarings} squarings of one matrix"),
        };
        let name = observed::name(*scheme);
        match groups.iter_mut().find(|(known, _)| *known == words) {
            Some((_, names)) => names.push(name),
            None => groups.push((words, vec![name])),
        }
    }
    groups
}
