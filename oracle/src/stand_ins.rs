//! Stand-ins for the types of the published crate that its exponential module leans on and that are not here.
//! They hold what the module reads and nothing more.

/// Why a pass ended without a candidate.
#[derive(Clone, Copy, Debug, Eq, PartialEq)]
pub enum SolveError {
    /// The published crate's own error for a derivative, a supplied Jacobian or a candidate that is not finite.
    NonFiniteDerivative,
    /// The oracle's: the right-hand side was asked and has no answer to give, so the pass stops at its question.
    Unanswered,
}

/// The right-hand side of an ordinary differential equation.
pub trait OdeFunction<P> {
    fn evaluate(
        &self,
        derivative: &mut [f64],
        state: &[f64],
        parameters: &P,
        time: f64,
    ) -> Result<(), SolveError>;
}

impl<F, P> OdeFunction<P> for F
where
    F: Fn(&mut [f64], &[f64], &P, f64) -> Result<(), SolveError>,
{
    fn evaluate(
        &self,
        derivative: &mut [f64],
        state: &[f64],
        parameters: &P,
        time: f64,
    ) -> Result<(), SolveError> {
        self(derivative, state, parameters, time)
    }
}

/// A problem: its right-hand side, and its Jacobian if the user wrote one.
pub struct OdeProblem<F, P> {
    pub(crate) rhs: F,
    parameters: P,
    jacobian: Option<Vec<f64>>,
}

impl<F> OdeProblem<F, ()> {
    /// A problem whose Jacobian is differenced.
    pub fn new(rhs: F) -> Self {
        Self { rhs, parameters: (), jacobian: None }
    }

    /// A problem whose user writes these numbers, row by row, whenever the Jacobian is asked for.
    pub fn with_jacobian(rhs: F, jacobian: Vec<f64>) -> Self {
        Self { rhs, parameters: (), jacobian: Some(jacobian) }
    }
}

type Unasked = fn(&mut [f64], &[f64], &(), f64) -> Result<(), SolveError>;

impl OdeProblem<Unasked, ()> {
    /// A problem for a function that takes one and asks nothing of it.
    pub fn without_right_hand_side() -> Self {
        Self::new(|_, _, _, _| Err(SolveError::Unanswered))
    }
}

impl<F, P> OdeProblem<F, P> {
    pub(crate) fn parameters(&self) -> &P {
        &self.parameters
    }

    pub(crate) fn initial_state(&self) -> &[f64] {
        &[]
    }

    pub(crate) fn evaluate_jacobian(&self, jacobian: &mut [f64], _: &[f64], _: f64) -> bool {
        match &self.jacobian {
            Some(values) => {
                jacobian.copy_from_slice(values);
                true
            }
            None => false,
        }
    }
}

/// The options that the module reads.
#[derive(Clone, Copy, Debug)]
pub struct SolveOptions {
    pub absolute_tolerance: f64,
    pub relative_tolerance: f64,
    pub adaptive: bool,
}

impl SolveOptions {
    pub fn tolerances(relative: f64, absolute: f64) -> Self {
        Self { absolute_tolerance: absolute, relative_tolerance: relative, adaptive: true }
    }
}

/// The counts that the module keeps.
#[derive(Clone, Copy, Debug, Default, Eq, PartialEq)]
pub struct SolverStats {
    pub rhs_evaluations: usize,
    pub jacobian_evaluations: usize,
}

/// The trajectory, which the oracle never makes.
pub struct Solution;

/// The trait that general.rs implements for each algorithm.
pub trait OdeAlgorithm {
    fn solve_validated<F, P>(
        &self,
        problem: &OdeProblem<F, P>,
        options: &SolveOptions,
    ) -> Result<Solution, SolveError>
    where
        F: OdeFunction<P>;
}

/// The driver's side of the kernel. The driver itself is not here.
#[allow(dead_code)]
pub mod integrator {
    use super::{OdeFunction, OdeProblem, Solution, SolveError, SolveOptions, SolverStats};

    pub(crate) struct ControllerConfig;

    impl ControllerConfig {
        pub(crate) const fn proportional(_: usize, _: f64, _: f64, _: f64, _: f64) -> Self {
            Self
        }
    }

    pub(crate) struct KernelCapabilities;

    impl KernelCapabilities {
        pub(crate) const fn with_controller(_: bool, _: ControllerConfig) -> Self {
            Self
        }
    }

    pub(crate) struct StepEstimate {
        pub(crate) error_norm: f64,
    }

    impl StepEstimate {
        pub(crate) const fn new(error_norm: f64) -> Self {
            Self { error_norm }
        }
    }

    #[allow(clippy::too_many_arguments)]
    pub(crate) trait StepKernel<F, P>
    where
        F: OdeFunction<P>,
    {
        fn capabilities(&self) -> KernelCapabilities;

        fn initialize(
            &mut self,
            problem: &OdeProblem<F, P>,
            state: &[f64],
            time: f64,
            stats: &mut SolverStats,
        ) -> Result<(), SolveError>;

        fn estimate_initial_step(
            &mut self,
            problem: &OdeProblem<F, P>,
            state: &[f64],
            time: f64,
            direction: f64,
            maximum_step: f64,
            candidate: &mut [f64],
            options: &SolveOptions,
            stats: &mut SolverStats,
        ) -> Result<f64, SolveError>;

        fn attempt_step(
            &mut self,
            problem: &OdeProblem<F, P>,
            state: &[f64],
            time: f64,
            step: f64,
            candidate: &mut [f64],
            options: &SolveOptions,
            stats: &mut SolverStats,
        ) -> Result<StepEstimate, SolveError>;

        fn accept_step(
            &mut self,
            problem: &OdeProblem<F, P>,
            previous_state: &[f64],
            state: &[f64],
            time: f64,
            accepted_step: f64,
            callback_applied: bool,
            stats: &mut SolverStats,
        ) -> Result<(), SolveError>;

        fn reject_step(&mut self);
    }

    pub(crate) fn integrate<F, P, K>(
        _: &OdeProblem<F, P>,
        _: &SolveOptions,
        _: K,
    ) -> Result<Solution, SolveError>
    where
        F: OdeFunction<P>,
        K: StepKernel<F, P>,
    {
        unreachable!("the oracle steps by itself")
    }
}
