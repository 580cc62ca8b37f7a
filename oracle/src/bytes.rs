//! Little-endian bytes.

use crate::bits::pattern;

pub fn put_double(out: &mut Vec<u8>, x: f64) {
    out.extend(pattern(x).to_le_bytes());
}

pub fn put_doubles(out: &mut Vec<u8>, values: &[f64]) {
    for x in values {
        put_double(out, *x);
    }
}

/// Reads from the front; nothing once the bytes run out.
pub struct Reader<'a> {
    rest: &'a [u8],
}

impl<'a> Reader<'a> {
    pub fn new(bytes: &'a [u8]) -> Self {
        Self { rest: bytes }
    }

    fn take<const N: usize>(&mut self) -> Option<[u8; N]> {
        let (head, rest) = self.rest.split_first_chunk::<N>()?;
        self.rest = rest;
        Some(*head)
    }

    pub fn byte(&mut self) -> Option<u8> {
        self.take::<1>().map(|bytes| bytes[0])
    }

    pub fn short(&mut self) -> Option<u16> {
        self.take().map(u16::from_le_bytes)
    }

    pub fn long(&mut self) -> Option<u32> {
        self.take().map(u32::from_le_bytes)
    }

    pub fn double(&mut self) -> Option<f64> {
        self.take().map(f64::from_le_bytes)
    }

    pub fn bytes(&mut self, count: usize) -> Option<&'a [u8]> {
        let (head, rest) = self.rest.split_at_checked(count)?;
        self.rest = rest;
        Some(head)
    }

    pub fn doubles(&mut self, count: usize) -> Option<Vec<f64>> {
        (0..count).map(|_| self.double()).collect()
    }

    pub fn array<const N: usize>(&mut self) -> Option<[f64; N]> {
        let mut values = [0.0; N];
        for value in &mut values {
            *value = self.double()?;
        }
        Some(values)
    }

    /// How many bytes are left.
    pub fn left(&self) -> usize {
        self.rest.len()
    }
}
