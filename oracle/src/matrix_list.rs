//! The list for matrices.
//!
//! A record is a kind and a size, and what the kind has. An exponential has the matrix row by row; its reply is 1, the terms,
//! the squarings and the exponential, or 0 where document 01 refuses. Squarings have their number and two arrays; the reply
//! is both arrays after them.

use crate::bits::{above, power_of_two};
use crate::bytes::put_doubles;
use crate::lists::List;
use crate::random::Random;
use crate::squaring_list::{self, Squarings};
use crate::{compared, pass, watch};

const EXPONENTIAL: u8 = 0;
const SQUARINGS: u8 = 1;

pub struct Matrix {
    pub size: usize,
    pub entries: Vec<f64>,
}

impl Matrix {
    pub fn zero(size: usize) -> Self {
        Self::filled(size, || 0.0)
    }

    pub fn filled(size: usize, mut entry: impl FnMut() -> f64) -> Self {
        let entries = (0..size * size).map(|_| entry()).collect();
        Self { size, entries }
    }

    pub fn with(mut self, row: usize, column: usize, entry: f64) -> Self {
        self.entries[row * self.size + column] = entry;
        self
    }
}

/// 1x1 matrices: every power of two from 2^-1 to 2^31 with its neighbours, both signs, and the ends of the range.
fn one_by_one() -> Vec<Matrix> {
    let mut values = vec![0.0, f64::MIN_POSITIVE, f64::from_bits(1), 0.3, 1.7, 100.0, 709.0, 710.0];
    for k in -1..=31 {
        for places in [-2, -1, 0, 1, 2, 3, 6] {
            values.push(above(power_of_two(k), places));
        }
    }
    values.extend([power_of_two(40), power_of_two(1022) * 1.5, f64::MAX, f64::INFINITY, f64::NAN]);
    values.iter().flat_map(|x| [*x, -x]).map(|x| Matrix::zero(1).with(0, 0, x)).collect()
}

/// 2x2 and 3x3 matrices one of whose row sums is a power of two or its neighbour, by several entries.
fn row_sums(random: &mut Random) -> Vec<Matrix> {
    let mut found = Vec::new();
    for k in -2..=31 {
        for places in [-1, 0, 1] {
            let size = 2 + random.below(2);
            let sum = above(power_of_two(k), places);
            let part = sum * random.pick(&[0.25, 0.5, 0.75]);
            let row = random.below(size);
            let small = power_of_two(k - 2);
            let mut matrix = Matrix::filled(size, || small * random.unit());
            for column in 0..size {
                matrix = matrix.with(row, column, 0.0);
            }
            // The last column stands for the input column of a phi action: it counts.
            let sign = random.pick(&[1.0, -1.0]);
            found.push(matrix.with(row, 0, sign * part).with(row, size - 1, -sign * (sum - part)));
        }
    }
    found
}

/// What every size gets.
fn of_size(size: usize, random: &mut Random) -> Vec<Matrix> {
    let last = size - 1;
    let mut found = vec![
        Matrix::zero(size),
        signed_zeros(size, random),
        Matrix::filled(size, || random.unit() * 1e-3),
        Matrix::filled(size, || random.unit()),
        // The diagonal of a stiff cable, softly coupled.
        stiff(size, random),
        // Above the diagonal alone: a power of it is zero.
        nilpotent(size, random),
        Matrix::filled(size, || f64::from_bits(random.draw() >> 12)),
        // Overflows on the way.
        Matrix::filled(size, || 900.0 * random.unit()).with(0, last, 1000.0).with(last, 0, 1000.0),
        Matrix::filled(size, || random.unit() * power_of_two(26)),
        Matrix::zero(size).with(last, 0, power_of_two(31)).with(0, last, 0.5),
        Matrix::zero(size).with(last, last, -power_of_two(31).next_up()),
    ];
    if size <= 8 {
        found.push(Matrix::zero(size).with(0, last, f64::NAN));
        found.push(Matrix::zero(size).with(last, 0, f64::NEG_INFINITY));
        found.push(Matrix::filled(size, || 30.0 * random.unit()));
    }
    found
}

pub fn signed_zeros(size: usize, random: &mut Random) -> Matrix {
    Matrix::filled(size, || random.pick(&[0.0, -0.0]))
}

fn stiff(size: usize, random: &mut Random) -> Matrix {
    let mut matrix = Matrix::filled(size, || random.unit());
    for i in 0..size {
        let stiffness = power_of_two(random.below(20) as i32);
        matrix = matrix.with(i, i, -stiffness * (1.5 + random.unit()));
    }
    matrix
}

pub fn nilpotent(size: usize, random: &mut Random) -> Matrix {
    let mut matrix = Matrix::zero(size);
    for row in 0..size {
        for column in row + 1..size {
            matrix = matrix.with(row, column, 10.0 * random.unit());
        }
    }
    matrix
}

/// Augmented matrices as a phi action builds them.
fn augmented(random: &mut Random) -> Vec<Matrix> {
    let mut found = Vec::new();
    for (n, order) in [(1, 1), (1, 4), (2, 3), (3, 2), (5, 4), (8, 3), (16, 1), (16, 4)] {
        let size = n + order;
        let reach = random.pick(&[0.2, 3.0, 50.0]);
        let mut matrix = Matrix::zero(size);
        for row in 0..n {
            for column in 0..=n {
                matrix = matrix.with(row, column, reach * random.unit());
            }
        }
        for index in 0..order - 1 {
            matrix = matrix.with(n + index, n + index + 1, 1.0);
        }
        found.push(matrix);
    }
    found
}

/// The matrices that are exponentiated.
fn matrices(random: &mut Random) -> Vec<Matrix> {
    let mut found = one_by_one();
    found.extend(row_sums(random));
    for size in 1..=20 {
        found.extend(of_size(size, random));
    }
    found.extend(augmented(random));
    found
}

pub fn list() -> List {
    let mut random = Random::new(30);
    let matrices = matrices(&mut random);
    let squared = squaring_list::squarings(&mut random);
    let mut input = Vec::new();
    let mut output = Vec::new();
    let mut refused = 0;
    let mut not_finite = 0;
    let (mut terms, mut squarings) = (0, 0);
    for Matrix { size, entries } in &matrices {
        input.extend([EXPONENTIAL, *size as u8]);
        put_doubles(&mut input, entries);
        if watch::admits(entries, *size) {
            let watch = watch::start();
            let exponential = compared::matrix_exp(entries, *size);
            let noted = watch.only();
            output.extend([1, noted.terms as u8, noted.squarings as u8]);
            put_doubles(&mut output, &exponential);
            not_finite += usize::from(!pass::all_finite(&exponential));
            terms = noted.terms.max(terms);
            squarings = noted.squarings.max(squarings);
        } else {
            output.push(0);
            refused += 1;
        }
    }
    let mut squared_not_finite = 0;
    for Squarings { count, first, second } in &squared {
        input.extend([SQUARINGS, first.size as u8, *count]);
        put_doubles(&mut input, &first.entries);
        put_doubles(&mut input, &second.entries);
        let [first, second] = squaring_list::traded(&first.entries, &second.entries, *count, first.size);
        put_doubles(&mut output, &first);
        put_doubles(&mut output, &second);
        squared_not_finite += usize::from(!(pass::all_finite(&first) && pass::all_finite(&second)));
    }
    let summary = format!(
        "{} matrices, {refused} refused, {not_finite} with entries that are not finite, \
         up to {terms} terms and {squarings} squarings; {} squared, {squared_not_finite} with entries that are not finite",
        matrices.len(),
        squared.len()
    );
    List { name: "matrix_run", input, output, summary }
}
