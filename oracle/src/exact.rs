//! The two figures that document 01 settles where the Rust leaves them to its library.

/// The largest row sum that document 01 admits.
pub const LARGEST_NORM: f64 = 2147483648.0;

/// Step 2 of document 01 for a norm above 0.5: the least whole number s with 2^s >= 2 norm, from the bits.
///
/// A norm that document 01 refuses has been noted by [`crate::watch`] before this is asked; its result is not
/// looked at, so that it may be anything that ends.
pub fn squarings(norm: f64) -> u32 {
    if norm > LARGEST_NORM {
        return 0;
    }
    let bits = norm.to_bits();
    // norm lies in [2^exponent, 2^(exponent + 1)), and 2 norm one power of two higher.
    let exponent = (bits >> 52) as i32 - 1023;
    let is_power_of_two = bits << 12 == 0;
    (exponent + if is_power_of_two { 1 } else { 2 }) as u32
}

/// Whole powers as document 01 writes them, each product rounded once.
pub trait ExactPowi {
    fn exact_powi(self, exponent: i32) -> Self;
}

impl ExactPowi for f64 {
    fn exact_powi(self, exponent: i32) -> f64 {
        match exponent {
            1 => self,
            2 => self * self,
            3 => self * (self * self),
            4 => (self * self) * (self * self),
            0..=32 if self == 2.0 => (1u64 << exponent) as f64,
            _ => panic!("no scheme takes {self} to the power {exponent}"),
        }
    }
}
