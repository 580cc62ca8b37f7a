
// ---- appended by oracle/build; the published file ends above this line ----

/// What the oracle reaches this module through: its private functions under their own names, schemes by number.
pub mod door {
    use super::{Scheme, engine, matrix, methods};
    use crate::{OdeFunction, OdeProblem, SolveError, SolverStats};

    pub use engine::door::{Kernel, compute_jacobian, estimate_initial_step, scaled_error_norm};

    const SCHEMES: [Scheme; 16] = [
        Scheme::LawsonEuler,
        Scheme::NorsettEuler,
        Scheme::Etdrk2,
        Scheme::Etdrk3,
        Scheme::Etdrk4,
        Scheme::HochOst4,
        Scheme::Exp4,
        Scheme::Epirk4s3A,
        Scheme::Epirk4s3B,
        Scheme::Epirk5s3,
        Scheme::Exprb53s3,
        Scheme::Epirk5P1,
        Scheme::Epirk5P2,
        Scheme::Etd2,
        Scheme::Exprb32,
        Scheme::Exprb43,
    ];

    /// A pass that came to its end.
    #[derive(Clone, Debug)]
    pub struct Pass {
        pub candidate: Vec<f64>,
        /// Empty for the schemes without an error of their own.
        pub error: Vec<f64>,
        /// f0 - J u, which Etd2 keeps.
        pub nonlinear: Vec<f64>,
    }

    pub fn name(scheme: usize) -> String {
        format!("{:?}", SCHEMES[scheme])
    }

    pub fn order(scheme: usize) -> usize {
        SCHEMES[scheme].order()
    }

    /// The number that the enum gives a scheme.
    pub fn number(scheme: usize) -> usize {
        SCHEMES[scheme] as usize
    }

    pub fn kernel(dimension: usize, scheme: usize) -> Kernel {
        Kernel::new(dimension, SCHEMES[scheme])
    }

    #[allow(clippy::too_many_arguments)]
    pub fn perform_step<F: OdeFunction<()>>(
        scheme: usize,
        problem: &OdeProblem<F, ()>,
        state: &[f64],
        time: f64,
        step: f64,
        f0: &[f64],
        jacobian: &[f64],
        history: Option<&[f64]>,
        stats: &mut SolverStats,
    ) -> Result<Pass, SolveError> {
        let result =
            methods::perform_step(SCHEMES[scheme], problem, state, time, step, f0, jacobian, history, stats)?;
        Ok(Pass { candidate: result.state, error: result.error, nonlinear: result.current_nonlinear })
    }

    pub fn matrix_exp(matrix: &[f64], size: usize) -> Vec<f64> {
        matrix::matrix_exp(matrix, size)
    }

    pub fn mat_mul(left: &[f64], right: &[f64], size: usize) -> Vec<f64> {
        matrix::mat_mul(left, right, size)
    }

    pub fn mat_vec(matrix: &[f64], vector: &[f64]) -> Vec<f64> {
        matrix::mat_vec(matrix, vector)
    }

    pub fn phi_action(a: &[f64], scale_a: f64, order: usize, input: &[f64]) -> Vec<f64> {
        methods::phi_action(a, scale_a, order, input)
    }
}
