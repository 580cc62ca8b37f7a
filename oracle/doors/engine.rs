
// ---- appended by oracle/build; the published file ends above this line ----

pub mod door {
    use super::{ExponentialKernel, Scheme};
    use crate::integrator::StepKernel;
    use crate::{OdeFunction, OdeProblem, SolveError, SolveOptions, SolverStats};

    pub fn compute_jacobian<F: OdeFunction<()>>(
        problem: &OdeProblem<F, ()>,
        state: &[f64],
        time: f64,
        f0: &[f64],
        jacobian: &mut [f64],
        stats: &mut SolverStats,
    ) -> Result<(), SolveError> {
        super::compute_jacobian(problem, state, time, f0, jacobian, stats)
    }

    pub fn scaled_error_norm(error: &[f64], state: &[f64], candidate: &[f64], options: &SolveOptions) -> f64 {
        super::scaled_error_norm(error, state, candidate, options)
    }

    /// The kernel's first step; of the kernel it reads the derivative alone.
    pub fn estimate_initial_step(
        state: &[f64],
        derivative: &[f64],
        maximum_step: f64,
        options: &SolveOptions,
    ) -> Result<f64, SolveError> {
        let mut kernel = ExponentialKernel::new(state.len(), Scheme::LawsonEuler);
        kernel.derivative.copy_from_slice(derivative);
        kernel.estimate_initial_step(
            &OdeProblem::without_right_hand_side(),
            state,
            0.0,
            1.0,
            maximum_step,
            &mut [],
            options,
            &mut SolverStats::default(),
        )
    }

    /// The whole kernel, as the published driver would hold it.
    pub struct Kernel(ExponentialKernel);

    impl Kernel {
        pub(in super::super) fn new(dimension: usize, scheme: Scheme) -> Self {
            Self(ExponentialKernel::new(dimension, scheme))
        }

        pub fn initialize<F: OdeFunction<()>>(
            &mut self,
            problem: &OdeProblem<F, ()>,
            state: &[f64],
            time: f64,
            stats: &mut SolverStats,
        ) -> Result<(), SolveError> {
            self.0.initialize(problem, state, time, stats)
        }

        /// Writes the candidate and gives its error norm.
        #[allow(clippy::too_many_arguments)]
        pub fn attempt_step<F: OdeFunction<()>>(
            &mut self,
            problem: &OdeProblem<F, ()>,
            state: &[f64],
            time: f64,
            step: f64,
            candidate: &mut [f64],
            options: &SolveOptions,
            stats: &mut SolverStats,
        ) -> Result<f64, SolveError> {
            self.0
                .attempt_step(problem, state, time, step, candidate, options, stats)
                .map(|estimate| estimate.error_norm)
        }

        pub fn accept_step<F: OdeFunction<()>>(
            &mut self,
            problem: &OdeProblem<F, ()>,
            state: &[f64],
            time: f64,
            stats: &mut SolverStats,
        ) -> Result<(), SolveError> {
            self.0.accept_step(problem, &[], state, time, 0.0, false, stats)
        }
    }
}
