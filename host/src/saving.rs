//! A session as bytes, the console's image of it: each number as one byte, then each figure as a double, lowest byte first.
use super::{layout, raw, Session};
use std::error::Error;
use std::fmt;

// The most that a number's byte holds, in the order of the numbers; one above counts as this.
const MOST_OF: [u64; layout::NUMBERS] = [255, 255, 1, 2, 255];

// How every NaN is written.
const NAN: u64 = 0x7ff8_0000_0000_0000;

/// Why bytes could not be restored.
#[derive(Clone, Copy, Debug, Eq, PartialEq)]
#[non_exhaustive]
pub enum RestoreError {
    /// No saved session has so many bytes.
    Length(usize),
}

impl fmt::Display for RestoreError {
    fn fmt(&self, f: &mut fmt::Formatter<'_>) -> fmt::Result {
        let RestoreError::Length(length) = self;
        write!(
            f,
            "a saved session has {} bytes, or {} from before there was a tolerance for each component; these are {length}",
            layout::BYTES,
            layout::OLD_BYTES
        )
    }
}

impl Error for RestoreError {}

fn read(figures: &mut [f64], bytes: &[u8]) {
    for (figure, b) in figures.iter_mut().zip(bytes.chunks_exact(8)) {
        *figure = f64::from_le_bytes(b.try_into().expect("chunks of 8"));
    }
}

impl Session {
    /// The session as bytes, the same on every machine, with its attempt and the answers so far: the image that the program `console` shows.
    /// The open question is not in them: keep it too, or drop the attempt after restoring.
    ///
    /// ```
    /// use vunchrem::{Scheme, Session};
    ///
    /// let mut session = Session::open(Scheme::Exprb43, 0.0, &[1.0], &[-1.0], 1e-6, 1e-9)?;
    /// let bytes = session.save();
    /// assert_eq!(bytes.len(), 5149);
    ///
    /// let mut restored = Session::restore(&bytes)?;
    /// session.step(0.01, |_, u, du| du[0] = -u[0])?;
    /// restored.step(0.01, |_, u, du| du[0] = -u[0])?;
    /// assert_eq!(restored.save(), session.save());
    /// # Ok::<(), Box<dyn std::error::Error>>(())
    /// ```
    pub fn save(&self) -> Vec<u8> {
        let numbers = self.numbers.iter().zip(MOST_OF).map(|(k, most)| most.min(*k) as u8);
        let figures = self.figures.iter().map(|x| if x.is_nan() { NAN } else { x.to_bits() });
        numbers.chain(figures.flat_map(u64::to_le_bytes)).collect()
    }

    /// The session that was saved. Bytes from before there was a tolerance for each component are told by their length and brought over:
    /// every component gets the one tolerance that they have.
    ///
    /// Only the length is tested here. Whatever else is wrong with the bytes, the next call refuses the session by its number.
    pub fn restore(bytes: &[u8]) -> Result<Session, RestoreError> {
        if ![layout::BYTES, layout::OLD_BYTES].contains(&bytes.len()) {
            return Err(RestoreError::Length(bytes.len()));
        }
        let (numbers, figures) = bytes.split_at(layout::NUMBERS);
        let mut s = Session::blank();
        for (number, byte) in s.numbers.iter_mut().zip(numbers) {
            *number = u64::from(*byte);
        }
        if bytes.len() == layout::BYTES {
            read(&mut s.figures[..], figures);
            return Ok(s);
        }
        let mut old = [0.0; layout::OLD_FIGURES];
        read(&mut old, figures);
        // SAFETY: each pointer and length is that of an array that is lent for the call; they do not overlap.
        let code = unsafe {
            raw::vunchrem_bring_over(
                s.numbers.as_ptr(),
                s.numbers.len(),
                old.as_ptr(),
                old.len(),
                s.figures.as_mut_ptr(),
                s.figures.len(),
            )
        };
        assert_eq!(code, 0, "a length that the core does not want");
        Ok(s)
    }
}
