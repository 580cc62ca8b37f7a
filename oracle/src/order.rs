//! The order of each scheme, seen as the step is halved, by the published copy.
//!
//! The problems live in the plane and have a known solution. In each the field is
//!
//!   F(u) = (u1 - u2 - u1 r^2, u1 + u2 - u2 r^2),  r^2 = u1^2 + u2^2,
//!
//! whose solutions wind onto the unit circle.

use crate::pass::ETD2;
use crate::{OdeProblem, SolverStats, published};

/// What is integrated.
#[derive(Clone, Copy, Debug, Eq, PartialEq)]
pub enum Problem {
    /// u' = F(u): the angle grows as time does, and 1/r^2 - 1 falls as exp(-2t).
    Autonomous,
    /// u' = F(u) + g'(t) - F(g(t)), whose solution is g(t) = (cos 2t, sin 2t) / 2.
    Driven,
    /// The same with time as a third component, so that nothing depends on time but through the state.
    DrivenByComponent,
}

/// Which Jacobian the scheme is given.
#[derive(Clone, Copy, Debug, Eq, PartialEq)]
pub enum Given {
    /// That of the right-hand side at each step's state.
    Exact,
    /// The linear part of F, the same at every step.
    Constant,
}

const END: f64 = 1.0;
const LINEAR: [f64; 4] = [1.0, -1.0, 1.0, 1.0];

fn field(u: &[f64]) -> [f64; 2] {
    let square = u[0] * u[0] + u[1] * u[1];
    [u[0] - u[1] - u[0] * square, u[0] + u[1] - u[1] * square]
}

fn field_jacobian(u: &[f64]) -> [f64; 4] {
    let square = u[0] * u[0] + u[1] * u[1];
    let cross = 2.0 * u[0] * u[1];
    [1.0 - square - 2.0 * u[0] * u[0], -1.0 - cross, 1.0 - cross, 1.0 - square - 2.0 * u[1] * u[1]]
}

/// g and its first two derivatives.
fn path(t: f64) -> [[f64; 2]; 3] {
    let (sine, cosine) = (2.0 * t).sin_cos();
    [[0.5 * cosine, 0.5 * sine], [-sine, cosine], [-2.0 * cosine, -2.0 * sine]]
}

fn drive(t: f64) -> [f64; 2] {
    let [g, slope, _] = path(t);
    let at_g = field(&g);
    [slope[0] - at_g[0], slope[1] - at_g[1]]
}

fn drive_slope(t: f64) -> [f64; 2] {
    let [g, slope, bend] = path(t);
    let by_u = field_jacobian(&g);
    [bend[0] - by_u[0] * slope[0] - by_u[1] * slope[1], bend[1] - by_u[2] * slope[0] - by_u[3] * slope[1]]
}

impl Problem {
    fn exact(self, t: f64) -> Vec<f64> {
        let [g, ..] = path(t);
        match self {
            Self::Autonomous => {
                let radius = 1.0 / (1.0 + 3.0 * (-2.0 * t).exp()).sqrt();
                vec![radius * t.cos(), radius * t.sin()]
            }
            Self::Driven => g.to_vec(),
            Self::DrivenByComponent => vec![g[0], g[1], t],
        }
    }

    fn rhs(self, t: f64, u: &[f64]) -> Vec<f64> {
        let own = field(u);
        let driven = |t| {
            let force = drive(t);
            vec![own[0] + force[0], own[1] + force[1]]
        };
        match self {
            Self::Autonomous => own.to_vec(),
            Self::Driven => driven(t),
            Self::DrivenByComponent => [driven(u[2]), vec![1.0]].concat(),
        }
    }

    fn jacobian(self, u: &[f64]) -> Vec<f64> {
        let by_u = field_jacobian(u);
        if self != Self::DrivenByComponent {
            return by_u.to_vec();
        }
        let by_time = drive_slope(u[2]);
        vec![by_u[0], by_u[1], by_time[0], by_u[2], by_u[3], by_time[1], 0.0, 0.0, 0.0]
    }
}

/// The error at the end of so many steps of a scheme.
pub fn error(scheme: usize, problem: Problem, given: Given, steps: usize) -> f64 {
    let rhs = |derivative: &mut [f64], u: &[f64], _: &(), t: f64| {
        derivative.copy_from_slice(&problem.rhs(t, u));
        Ok(())
    };
    let ode = OdeProblem::new(rhs);
    let mut stats = SolverStats::default();
    let mut history: Option<Vec<f64>> = None;
    error_by(problem, steps, |time, step, state| {
        let f0 = problem.rhs(time, state);
        let jacobian = match given {
            Given::Exact => problem.jacobian(state),
            Given::Constant => LINEAR.to_vec(),
        };
        let pass = published::perform_step(
            scheme,
            &ode,
            state,
            time,
            step,
            &f0,
            &jacobian,
            history.as_deref(),
            &mut stats,
        )
        .expect("every number stays finite");
        if scheme == ETD2 {
            history = Some(pass.nonlinear);
        }
        pass.candidate
    })
}

fn error_by(problem: Problem, steps: usize, mut advance: impl FnMut(f64, f64, &[f64]) -> Vec<f64>) -> f64 {
    let step = END / steps as f64;
    let mut state = problem.exact(0.0);
    for index in 0..steps {
        state = advance(index as f64 * step, step, &state);
    }
    let exact = problem.exact(END);
    (state[0] - exact[0]).hypot(state[1] - exact[1])
}

/// Epirk5s3 with another last coefficient in the place of the published -2187/106, without time.
fn epirk5s3(problem: Problem, last: f64, h: f64, u: &[f64]) -> Vec<f64> {
    let a = problem.jacobian(u);
    let f0 = problem.rhs(0.0, u);
    let phi = |scale: f64, order: usize, weight: f64, v: &[f64]| -> Vec<f64> {
        let action = published::phi_action(&a, scale * h, order, v);
        action.iter().map(|x| weight * x).collect()
    };
    let plus = |terms: &[Vec<f64>]| -> Vec<f64> {
        (0..u.len()).map(|i| terms.iter().map(|term| term[i]).sum()).collect()
    };
    let remainder = |stage: &[f64]| -> Vec<f64> {
        let shift: Vec<f64> = stage.iter().zip(u).map(|(s, u)| s - u).collect();
        let linear = published::mat_vec(&a, &shift);
        let f = problem.rhs(0.0, stage);
        (0..u.len()).map(|i| f[i] - f0[i] - linear[i]).collect()
    };
    let (c2, c3) = (48.0_f64 / 55.0, 4.0_f64 / 9.0);
    let u2 = plus(&[
        u.to_vec(),
        phi(c2, 2, h * 55.0 / 8.0 * c2 * c2, &f0),
        phi(c2, 3, h * -3025.0 / 192.0 * c2.powi(3), &f0),
    ]);
    let r2 = remainder(&u2);
    let u3 = plus(&[
        u.to_vec(),
        phi(c3, 1, h * 53.0 / 5.0 * c3, &f0),
        phi(c3, 2, h * -648.0 / 5.0 * c3 * c3, &f0),
        phi(c3, 3, h * 2916.0 / 5.0 * c3.powi(3), &f0),
        phi(c3, 3, h * 32065.0 / 1152.0 * c3.powi(3), &r2),
    ]);
    let r3 = remainder(&u3);
    plus(&[
        u.to_vec(),
        phi(1.0, 1, h, &f0),
        phi(1.0, 3, h * -166375.0 / 61056.0, &r2),
        phi(1.0, 3, h * 2187.0 / 106.0, &r3),
        phi(1.0, 4, h * 499125.0 / 27136.0, &r2),
        phi(1.0, 4, h * last, &r3),
    ])
}

/// The order between the last two step counts whose errors stand well above rounding.
fn order_of(error: impl Fn(usize) -> f64) -> f64 {
    const NOISE: f64 = 1e-12;
    let mut order = f64::NAN;
    let mut coarse = error(8);
    for doublings in 4..=8 {
        let fine = error(1 << doublings);
        if fine < NOISE {
            break;
        }
        order = (coarse / fine).log2();
        coarse = fine;
    }
    order
}

pub fn observed(scheme: usize, problem: Problem, given: Given) -> f64 {
    order_of(|steps| error(scheme, problem, given, steps))
}

/// The order of Epirk5s3 with that last coefficient.
pub fn observed_epirk5s3(last: f64) -> f64 {
    let problem = Problem::Autonomous;
    order_of(|steps| error_by(problem, steps, |_, step, state| epirk5s3(problem, last, step, state)))
}

pub const EPIRK5S3_PUBLISHED: f64 = -2187.0 / 106.0;
/// What the order conditions ask for: gamma2 c2^2 + gamma3 c3^2 = 0.
pub const EPIRK5S3_BY_CONDITION: f64 = -120285.0 / 1696.0;

pub fn report() -> String {
    let mut lines = vec![
        "Order as the step is halved, on u' = F(u) and on the same field driven in time.".into(),
        String::new(),
        "                        autonomous            driven              time as component".into(),
        "scheme       claimed  exact J  constant J  exact J  constant J  exact J".into(),
    ];
    for scheme in 0..16 {
        let order = |problem, given| observed(scheme, problem, given);
        lines.push(format!(
            "{:<12} {:>7} {:>8.2} {:>11.2} {:>8.2} {:>11.2} {:>8.2}",
            published::name(scheme),
            published::order(scheme),
            order(Problem::Autonomous, Given::Exact),
            order(Problem::Autonomous, Given::Constant),
            order(Problem::Driven, Given::Exact),
            order(Problem::Driven, Given::Constant),
            order(Problem::DrivenByComponent, Given::Exact),
        ));
    }
    lines.push(String::new());
    lines.push(format!(
        "Epirk5s3 with last coefficient -2187/106 (published): {:.2}; with -120285/1696: {:.2}",
        observed_epirk5s3(EPIRK5S3_PUBLISHED),
        observed_epirk5s3(EPIRK5S3_BY_CONDITION),
    ));
    lines.join("\n") + "\n"
}
