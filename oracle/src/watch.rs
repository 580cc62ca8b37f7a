//! What the oracle's copies of the published module tell while they work.
//!
//! The compared copy notes every exponential: whether document 01 admits its matrix, for the refusal by 6, and how
//! many series terms are added and squarings made in it. The observed copy ends a pass that would square a matrix more
//! often than anyone waits for.

use crate::exact::LARGEST_NORM;
use std::cell::{Cell, RefCell};
use std::marker::PhantomData;

thread_local! {
    /// The open watches.
    static OPEN: Cell<usize> = const { Cell::new(0) };
    /// The exponentials since there was none open.
    static NOTED: RefCell<Vec<Exponential>> = const { RefCell::new(Vec::new()) };
}

/// A call of `matrix_exp`.
#[derive(Clone, Copy, Debug, Eq, PartialEq)]
pub struct Exponential {
    /// Whether document 01 admits its matrix.
    pub admitted: bool,
    /// The terms added to the identity, with which the sum starts.
    pub terms: u32,
    pub squarings: u32,
}

impl Exponential {
    /// A term and a squaring are a matrix product each.
    pub fn products(self) -> u32 {
        self.terms + self.squarings
    }
}

/// The matrix products of these exponentials together.
pub fn products(exponentials: &[Exponential]) -> u32 {
    exponentials.iter().map(|exponential| exponential.products()).sum()
}

/// Sees the exponentials of its thread from its start on, whichever other watches are open.
#[must_use]
pub struct Watch {
    from: usize,
    stays_in_its_thread: PhantomData<*const ()>,
}

pub fn start() -> Watch {
    OPEN.set(OPEN.get() + 1);
    Watch { from: NOTED.with_borrow(Vec::len), stays_in_its_thread: PhantomData }
}

impl Watch {
    /// Every call of `matrix_exp` since the start, repeats too.
    pub fn exponentials(&self) -> Vec<Exponential> {
        NOTED.with_borrow(|noted| noted[self.from..].to_vec())
    }

    /// The exponential, where there was one alone.
    pub fn only(&self) -> Exponential {
        match self.exponentials()[..] {
            [only] => only,
            ref noted => panic!("{} exponentials, not one", noted.len()),
        }
    }

    /// Whether every matrix since the start was admitted.
    pub fn all_admitted(&self) -> bool {
        NOTED.with_borrow(|noted| noted[self.from..].iter().all(|exponential| exponential.admitted))
    }
}

impl Drop for Watch {
    fn drop(&mut self) {
        OPEN.set(OPEN.get() - 1);
        if OPEN.get() == 0 {
            NOTED.with_borrow_mut(Vec::clear);
        }
    }
}

/// Whether every row sum of absolute values, from its first item on, is finite and at most 2^31.
pub fn admits(matrix: &[f64], size: usize) -> bool {
    matrix.chunks(size).all(|row| {
        let sum = row[1..].iter().fold(row[0].abs(), |sum, entry| sum + entry.abs());
        sum <= LARGEST_NORM
    })
}

/// Called by the compared copy at the head of `matrix_exp`.
pub(crate) fn exponentiated(matrix: &[f64], size: usize) {
    if OPEN.get() > 0 {
        let admitted = size == 0 || admits(matrix, size);
        NOTED.with_borrow_mut(|noted| noted.push(Exponential { admitted, terms: 0, squarings: 0 }));
    }
}

/// Called by the compared copy when a term of the series has been added.
pub(crate) fn term_added() {
    note(|exponential| exponential.terms += 1);
}

/// Called by the compared copy when the result has been squared.
pub(crate) fn squared() {
    note(|exponential| exponential.squarings += 1);
}

/// Notes it of the exponential at work, which is the last one; of none if no watch is open.
fn note(what: impl FnOnce(&mut Exponential)) {
    NOTED.with_borrow_mut(|noted| noted.last_mut().map(what));
}

/// More squarings than any divisor that is a double can need.
const BEARABLE: u32 = 2000;

/// What the observed copy panics with in place of squaring a matrix this many times.
pub struct Unbearable(pub u32);

/// Called by the observed copy before it squares.
pub(crate) fn bearable(squarings: u32) -> u32 {
    if squarings > BEARABLE {
        std::panic::panic_any(Unbearable(squarings));
    }
    squarings
}
