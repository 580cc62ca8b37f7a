//! The squarings of the list for matrices.
//!
//! The port squares from one array into the other, and in every round they trade their parts. Here each power is made
//! from the one before it, all are kept, and the last two are put where the rounds leave them.

use crate::bits::power_of_two;
use crate::matrix_list::{Matrix, nilpotent, signed_zeros};
use crate::published;
use crate::random::Random;

/// The most squarings that an exponential takes.
const MOST: u8 = 32;

/// The largest size that gets every count with every matrix.
const SMALL: usize = 4;

/// The first count that a larger size gets with the lasting matrix alone.
const FEW: usize = 12;

pub struct Squarings {
    pub count: u8,
    pub first: Matrix,
    /// What the second array holds beforehand.
    pub second: Matrix,
}

/// Both arrays after so many rounds: the result stands in the first if their number is even, otherwise in the second. The
/// other has the power before it; with no round the second is left as it was.
pub fn traded(first: &[f64], second: &[f64], count: u8, size: usize) -> [Vec<f64>; 2] {
    let mut powers = vec![first.to_vec()];
    for round in 0..usize::from(count) {
        powers.push(published::mat_mul(&powers[round], &powers[round], size));
    }
    let result = powers.pop().expect("the matrix itself is there");
    let before = powers.pop().unwrap_or(second.to_vec());
    if count.is_multiple_of(2) { [result, before] } else { [before, result] }
}

/// Nearly orthogonal: rotations in the planes of all axes, times a factor near 1. Squared 32 times it neither vanishes
/// nor overflows, and no power is like the one before it.
fn lasting(size: usize, random: &mut Random) -> Matrix {
    let factor = 1.0 + power_of_two(-24) * random.unit();
    let mut matrix = Matrix::zero(size);
    for i in 0..size {
        matrix = matrix.with(i, i, random.pick(&[factor, -factor]));
    }
    for right in 1..size {
        for left in 0..right {
            let t = random.unit();
            let (cosine, sine) = ((1.0 - t * t) / (1.0 + t * t), 2.0 * t / (1.0 + t * t));
            for row in 0..size {
                let (x, y) = (matrix.entries[row * size + left], matrix.entries[row * size + right]);
                matrix =
                    matrix.with(row, left, cosine * x - sine * y).with(row, right, sine * x + cosine * y);
            }
        }
    }
    matrix
}

/// Its powers vanish or overflow after some rounds.
fn passing(size: usize, random: &mut Random) -> Matrix {
    let reach = power_of_two(random.below(21) as i32 - 10);
    Matrix::filled(size, || reach * random.unit())
}

/// One entry is at an end of the range, infinite or NaN.
fn one_special(size: usize, random: &mut Random) -> Matrix {
    let special = random.pick(&[f64::from_bits(1), f64::MAX, f64::INFINITY, f64::NEG_INFINITY, f64::NAN]);
    let (row, column) = (random.below(size), random.below(size));
    Matrix::filled(size, || random.unit()).with(row, column, special)
}

/// The counts of a size for one kind of matrix.
fn counts(size: usize, lasts: bool, random: &mut Random) -> Vec<u8> {
    match (size <= SMALL, lasts) {
        (true, _) => (0..=MOST).collect(),
        (false, true) => vec![0, 1, 2, MOST - 1, MOST],
        (false, false) => vec![random.below(FEW) as u8],
    }
}

pub fn squarings(random: &mut Random) -> Vec<Squarings> {
    let mut found = Vec::new();
    for size in 1..=20 {
        for (kind, matrix) in [lasting, passing, nilpotent, signed_zeros, one_special].iter().enumerate() {
            for count in counts(size, kind == 0, random) {
                let first = matrix(size, random);
                let second = Matrix::filled(size, || random.unit());
                found.push(Squarings { count, first, second });
            }
        }
    }
    found
}
