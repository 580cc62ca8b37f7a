//! The session as it was while all components had one absolute tolerance between them.

use crate::bytes::{Reader, put_doubles};
use crate::console::{NUMBERS, attempt_of, byte_of, put_vectors, read_vectors};
use crate::model::{ANSWERS, Attempt, Matrix, PLACES, Session, Vector};
use crate::tolerances::alike;

/// The doubles of an old image: time, step and two tolerances; three vectors; the Jacobian; the answers.
pub const OLD_FIGURES: usize = 4 + 3 * PLACES + PLACES * PLACES + ANSWERS * PLACES;
pub const OLD_BYTES: usize = NUMBERS + 8 * OLD_FIGURES;

#[derive(Clone, Debug)]
pub struct OldSession {
    pub scheme: u8,
    pub n: u8,
    pub history_held: bool,
    pub attempt: Attempt,
    pub count: u8,
    pub time: f64,
    pub step: f64,
    pub relative: f64,
    pub absolute: f64,
    pub state: Vector,
    pub derivative: Vector,
    pub history: Vector,
    pub jacobian: Matrix,
    pub answers: [Vector; ANSWERS],
}

impl OldSession {
    /// The session under one tolerance in place of its own.
    pub fn of(session: &Session, absolute: f64) -> Self {
        Self {
            scheme: session.scheme,
            n: session.n,
            history_held: session.history_held,
            attempt: session.attempt,
            count: session.count,
            time: session.time,
            step: session.step,
            relative: session.relative,
            absolute,
            state: session.state,
            derivative: session.derivative,
            history: session.history,
            jacobian: session.jacobian,
            answers: session.answers,
        }
    }

    /// Its tolerance goes to each component. Nothing is checked: the next call judges the session.
    pub fn brought_over(&self) -> Session {
        Session {
            scheme: self.scheme,
            n: self.n,
            history_held: self.history_held,
            attempt: self.attempt,
            count: self.count,
            time: self.time,
            step: self.step,
            relative: self.relative,
            absolute: alike(usize::from(self.n), self.absolute),
            state: self.state,
            derivative: self.derivative,
            history: self.history,
            jacobian: self.jacobian,
            answers: self.answers,
        }
    }

    pub fn read(reader: &mut Reader) -> Option<Self> {
        Some(Self {
            scheme: reader.byte()?,
            n: reader.byte()?,
            history_held: reader.byte()? != 0,
            attempt: attempt_of(reader.byte()?),
            count: reader.byte()?,
            time: reader.double()?,
            step: reader.double()?,
            relative: reader.double()?,
            absolute: reader.double()?,
            state: reader.array()?,
            derivative: reader.array()?,
            history: reader.array()?,
            jacobian: reader.array()?,
            answers: read_vectors(reader)?,
        })
    }

    pub fn put(&self, out: &mut Vec<u8>) {
        let held = u8::from(self.history_held);
        out.extend([self.scheme, self.n, held, byte_of(self.attempt), self.count]);
        put_doubles(out, &[self.time, self.step, self.relative, self.absolute]);
        put_vectors(out, &[self.state, self.derivative, self.history]);
        put_doubles(out, &self.jacobian);
        put_vectors(out, &self.answers);
    }
}
