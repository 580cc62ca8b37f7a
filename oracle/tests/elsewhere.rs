//! What docs/DIFFERENCES.md says of the Rust beside the refusals by 6.

use oracle::model::{Answer, Opening, PLACES, Session};
use oracle::published;
use oracle::{OdeProblem, SolveOptions, SolverStats};
use std::panic::catch_unwind;

fn step(scheme: usize, jacobian: &[f64], state: &[f64], f0: &[f64], h: f64) -> Option<Vec<f64>> {
    let constant = |derivative: &mut [f64], _: &[f64], _: &(), _: f64| {
        derivative.copy_from_slice(f0);
        Ok(())
    };
    let problem = OdeProblem::new(constant);
    let mut stats = SolverStats::default();
    published::perform_step(scheme, &problem, state, 0.0, h, f0, jacobian, None, &mut stats)
        .map(|pass| pass.candidate)
        .ok()
}

#[test]
fn phi_of_order_0_panics_and_of_order_5_goes_on() {
    assert!(catch_unwind(|| published::phi_action(&[1.0], 1.0, 0, &[1.0])).is_err());
    assert!(published::phi_action(&[0.0], 1.0, 5, &[120.0])[0] == 1.0);
}

#[test]
fn an_empty_state_and_seventeen_components_go_on() {
    assert_eq!(step(1, &[], &[], &[], 1.0), Some(vec![]));
    assert_eq!(step(1, &[0.0; 289], &[1.0; 17], &[2.0; 17], 1.0), Some(vec![3.0; 17]));
}

#[test]
fn a_matrix_too_short_panics() {
    assert!(catch_unwind(|| published::matrix_exp(&[0.0; 3], 2)).is_err());
}

#[test]
fn a_matrix_too_long_goes_on_with_its_first_entries() {
    // An entry more that would change the norm, the squarings and every entry, if it were looked at.
    let entries = [0.5, 0.25, -0.125, 1.0, 1e300];
    assert_eq!(published::matrix_exp(&entries, 2), published::matrix_exp(&entries[..4], 2));
}

#[test]
fn a_time_that_is_nan_goes_on() {
    let constant = |derivative: &mut [f64], _: &[f64], _: &(), _: f64| {
        derivative[0] = 2.0;
        Ok(())
    };
    let problem = OdeProblem::new(constant);
    for scheme in 0..16 {
        let mut stats = SolverStats::default();
        let pass = published::perform_step(
            scheme,
            &problem,
            &[1.0],
            f64::NAN,
            1.0,
            &[2.0],
            &[0.0],
            None,
            &mut stats,
        );
        assert!(pass.is_ok_and(|pass| pass.candidate[0].is_finite()), "scheme {scheme}");
    }
}

#[test]
fn a_state_that_is_not_finite_ends_in_the_published_error() {
    assert_eq!(step(1, &[0.0], &[f64::INFINITY], &[1.0], 1.0), None);
    assert_eq!(step(13, &[0.0], &[f64::NAN], &[1.0], 1.0), None);
}

#[test]
fn a_tolerance_of_zero_gives_an_infinite_norm_or_nan() {
    let norm = |error: f64| {
        published::scaled_error_norm(&[error], &[0.0], &[0.0], &SolveOptions::tolerances(0.0, 0.0))
    };
    assert_eq!(norm(1.0), f64::INFINITY);
    assert!(norm(0.0).is_nan());
}

#[test]
fn a_relative_tolerance_of_zero_alone_goes_on() {
    let options = SolveOptions::tolerances(0.0, 2.0);
    assert_eq!(published::scaled_error_norm(&[6.0], &[1e9], &[1e9], &options), 3.0);
}

#[test]
fn a_step_of_zero_goes_on_or_divides_by_it() {
    assert_eq!(step(1, &[0.0], &[1.0], &[2.0], 0.0), Some(vec![1.0]));
    for scheme in [7, 8, 9, 10, 11, 12] {
        assert_eq!(step(scheme, &[0.0], &[1.0], &[2.0], 0.0), None);
    }
}

#[test]
fn a_largest_step_that_is_nan_or_below_epsilon_panics() {
    let first = |largest: f64| {
        catch_unwind(move || {
            let options = SolveOptions::tolerances(1.0, 1.0);
            published::estimate_initial_step(&[0.0], &[0.0], largest, &options)
        })
    };
    assert!(first(f64::NAN).is_err());
    assert!(first(f64::EPSILON.next_down()).is_err());
    assert_eq!(first(f64::EPSILON).unwrap(), Ok(f64::EPSILON));
    assert_eq!(first(f64::INFINITY).unwrap(), Ok(0.001));
}

#[test]
fn the_sign_of_a_zero_candidate_hangs_on_where_a_sum_starts() {
    let candidate = step(13, &[0.0], &[-0.0], &[0.0], -1.0).unwrap();
    assert_eq!(candidate[0].to_bits(), (-0.0_f64).to_bits());
}

/// The Rust moves Etd2's history, and its derivative, before it tests the derivative at the candidate.
#[test]
fn a_refused_acceptance_leaves_the_kernel_changed() {
    let bad = std::cell::Cell::new(false);
    let rhs = |derivative: &mut [f64], _: &[f64], _: &(), _: f64| {
        derivative[0] = if bad.get() { f64::NAN } else { 2.0 };
        Ok(())
    };
    let problem = OdeProblem::with_jacobian(rhs, vec![0.0]);
    let options = SolveOptions::tolerances(1.0, 1.0);
    let mut stats = SolverStats::default();
    let mut kernel = published::kernel(1, 13);
    let mut candidate = [0.0];
    kernel.initialize(&problem, &[1.0], 0.0, &mut stats).unwrap();
    let mut attempt = |kernel: &mut published::Kernel, stats: &mut SolverStats| {
        kernel.attempt_step(&problem, &[1.0], 0.0, 1.0, &mut candidate, &options, stats)
    };
    assert_eq!(attempt(&mut kernel, &mut stats), Ok(0.0));
    bad.set(true);
    assert!(kernel.accept_step(&problem, &[3.0], 1.0, &mut stats).is_err());
    bad.set(false);
    // The same attempt again, from the same state.
    assert!(attempt(&mut kernel, &mut stats).is_err());
}

/// f(u) = -u + 0.1 u^2 at u = 1, with J = [-0.8]: the published Rust, and document 01's session beside it.
fn small_step(scheme: usize, step: f64) -> (Option<f64>, Answer) {
    let rhs = |u: f64| -u + 0.1 * u * u;
    let problem = OdeProblem::new(move |derivative: &mut [f64], u: &[f64], _: &(), _: f64| {
        derivative[0] = rhs(u[0]);
        Ok(())
    });
    let mut stats = SolverStats::default();
    let rust =
        published::perform_step(scheme, &problem, &[1.0], 0.0, step, &[rhs(1.0)], &[-0.8], None, &mut stats);
    let first = |x: f64| {
        let mut vector = [0.0; PLACES];
        vector[0] = x;
        vector
    };
    let (_, session) = Session::open(&Opening {
        scheme: scheme as u8,
        n: 1,
        history_held: false,
        time: 0.0,
        relative: 1.0,
        absolute: first(1.0),
        state: first(1.0),
        derivative: first(rhs(1.0)),
        history: [0.0; PLACES],
    });
    let mut jacobian = [0.0; PLACES * PLACES];
    jacobian[0] = -0.8;
    let mut lent = [0.0];
    let (mut answer, mut session) = session.begin(true, step, &jacobian, &mut lent);
    while let Answer::Ask { place, .. } = answer {
        let supplied = first(rhs(lent[0]));
        (answer, session) = session.supply(place, &supplied, &mut lent);
    }
    (rust.ok().map(|pass| pass.candidate[0]), answer)
}

#[test]
fn small_steps_are_refused_where_a_coefficient_over_a_power_of_the_step_is_large() {
    for (scheme, power) in [(9, 11), (8, 26), (7, 27), (10, 27)] {
        let step = 0.5_f64.powi(power);
        let (rust, session) = small_step(scheme, 2.0 * step);
        assert!(rust.is_some_and(f64::is_finite), "scheme {scheme}");
        assert!(matches!(session, Answer::Ready { .. }), "scheme {scheme}: {session:?}");
        let (rust, session) = small_step(scheme, step);
        assert!(rust.is_some_and(f64::is_finite), "scheme {scheme}");
        assert_eq!(session, Answer::Refused(6), "scheme {scheme}");
    }
}
