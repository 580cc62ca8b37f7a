//! The error norm and the first step with an absolute tolerance for each component.
//!
//! Where all are equal the published functions (the compared copy) give them. Elsewhere the oracle's own formulas do: the published ones in
//! their order of operations, each component with its own tolerance.

use crate::exact::ExactPowi as _;
use crate::model::{PLACES, Vector};
use crate::{SolveOptions, compared};

/// The relative tolerance, and the absolute one of each component.
#[derive(Clone, Copy, Debug)]
pub struct Tolerances<'a> {
    pub relative: f64,
    pub absolute: &'a [f64],
}

/// The same tolerance in the first n places, in all of them if n is above 16; +0.0 in the others.
pub fn alike(n: usize, tolerance: f64) -> Vector {
    let mut absolute = [0.0; PLACES];
    absolute[..n.min(PLACES)].fill(tolerance);
    absolute
}

/// Not finite and positive.
pub fn is_bad(tolerance: f64) -> bool {
    !(tolerance.is_finite() && tolerance > 0.0)
}

impl Tolerances<'_> {
    pub fn are_bad(&self) -> bool {
        is_bad(self.relative) || self.absolute.iter().any(|tolerance| is_bad(*tolerance))
    }

    /// To the bit.
    pub fn are_equal(&self) -> bool {
        self.absolute.windows(2).all(|pair| pair[0].to_bits() == pair[1].to_bits())
    }

    /// As the published functions take them, if they can.
    fn options(&self) -> Option<SolveOptions> {
        self.are_equal().then(|| SolveOptions::tolerances(self.relative, self.absolute[0]))
    }

    pub fn error_norm(&self, error: &[f64], state: &[f64], candidate: &[f64]) -> f64 {
        match self.options() {
            Some(options) => compared::scaled_error_norm(error, state, candidate, &options),
            None => self.own_error_norm(error, state, candidate),
        }
    }

    pub fn first_step(&self, state: &[f64], derivative: &[f64], largest: f64) -> f64 {
        match self.options() {
            Some(options) => {
                let step = compared::estimate_initial_step(state, derivative, largest, &options);
                step.expect("it asks nothing")
            }
            None => self.own_first_step(state, derivative, largest),
        }
    }

    /// `scaled_error_norm` of the published engine.rs.
    pub fn own_error_norm(&self, error: &[f64], state: &[f64], candidate: &[f64]) -> f64 {
        if error.is_empty() {
            return 0.0;
        }
        let components = error.iter().zip(state).zip(candidate).zip(self.absolute);
        let sum = components
            .map(|(((e, u), v), absolute)| {
                let scale = absolute + self.relative * u.abs().max(v.abs());
                (e / scale).exact_powi(2)
            })
            .sum::<f64>();
        (sum / error.len() as f64).sqrt()
    }

    /// `estimate_initial_step` of the published engine.rs.
    pub fn own_first_step(&self, state: &[f64], derivative: &[f64], largest: f64) -> f64 {
        let mut scale = 0.0_f64;
        for ((state, derivative), absolute) in state.iter().zip(derivative).zip(self.absolute) {
            let tolerance = absolute + self.relative * state.abs();
            scale = scale.max((derivative / tolerance).abs());
        }
        let estimate = if scale == 0.0 { 1.0e-3 } else { 0.01 / scale };
        estimate.clamp(f64::EPSILON, largest)
    }
}
