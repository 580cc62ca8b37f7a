//! A right-hand side as a table of records. The tool of sonde_table/ reads this file too.

/// A right-hand side as a table of terms, which the core evaluates by itself: a session that steps by it asks nothing.
///
/// Each term is added to one component of the derivative, the target, in the order in which the terms stand, from +0.0 on. There are four kinds: a
/// constant c, c·u_j, (c·u_j)·u_k and (c·u_j)·time. A term is a record of 16 bytes:
///
/// | bytes | hold |
/// |---|---|
/// | 0 | the target |
/// | 1 | the kind, 0 to 3 in the order above |
/// | 2 | j, zero in a constant |
/// | 3 | k, zero unless the kind is 2 |
/// | 4 to 7 | zero |
/// | 8 to 15 | c, a finite double, lowest byte first |
///
/// A table has no header and at most 256 records; an empty one is well-formed. Nothing is judged here: the call that takes the table knows the
/// dimension, and refuses by 8 what is wrong with it.
///
/// ```
/// use vunchrem::{Scheme, Session, Table};
///
/// // A sonde swings on its cable: u0 is the stretch beyond rest, u1 its rate; u0' = u1, u1' = -25 u0 - 0.5 u1.
/// let table = Table::new().linear(0, 1.0, 1).linear(1, -25.0, 0).linear(1, -0.5, 1);
/// assert_eq!(table.as_bytes().len(), 3 * Table::RECORD);
///
/// let mut session = Session::open_by_table(Scheme::Exprb43, 0.0, &[0.5, 0.0], 1e-6, 1e-9, &table)?;
/// assert_eq!(session.derivative(), [0.0, -12.5]);
/// for _ in 0..16 {
///     session.whole_step(0.125, &table)?;
/// }
/// let (t, w) = (session.time(), (25.0f64 - 0.0625).sqrt());
/// let exact = 0.5 * (-0.25 * t).exp() * ((w * t).cos() + 0.25 / w * (w * t).sin());
/// assert!(t == 2.0 && (session.state()[0] - exact).abs() < 1e-6);
/// # Ok::<(), vunchrem::Refusal>(())
/// ```
#[derive(Clone, Debug, Default, Eq, Hash, PartialEq)]
pub struct Table {
    bytes: Vec<u8>,
}

impl Table {
    /// Bytes of a record.
    pub const RECORD: usize = 16;
    /// The most records that a table holds.
    pub const RECORDS: usize = 256;

    /// The table without a term: every component's derivative is +0.0.
    pub fn new() -> Table {
        Table::default()
    }

    /// The table of these bytes, whatever they are.
    pub fn from_bytes(bytes: impl Into<Vec<u8>>) -> Table {
        Table { bytes: bytes.into() }
    }

    /// The table's bytes, 16 for each term.
    pub fn as_bytes(&self) -> &[u8] {
        &self.bytes
    }

    /// Adds the term c to the component `target`. Here and in the others a component above 255 is written as 255, which no call takes.
    #[must_use]
    pub fn constant(self, target: usize, c: f64) -> Table {
        self.with(target, 0, 0, 0, c)
    }

    /// Adds the term c·u_j to the component `target`.
    #[must_use]
    pub fn linear(self, target: usize, c: f64, j: usize) -> Table {
        self.with(target, 1, j, 0, c)
    }

    /// Adds the term (c·u_j)·u_k to the component `target`.
    #[must_use]
    pub fn product(self, target: usize, c: f64, j: usize, k: usize) -> Table {
        self.with(target, 2, j, k, c)
    }

    /// Adds the term (c·u_j)·time to the component `target`.
    #[must_use]
    pub fn timed(self, target: usize, c: f64, j: usize) -> Table {
        self.with(target, 3, j, 0, c)
    }

    fn with(mut self, target: usize, kind: u8, j: usize, k: usize, c: f64) -> Table {
        let byte = |component: usize| u8::try_from(component).unwrap_or(u8::MAX);
        self.bytes.extend([byte(target), kind, byte(j), byte(k), 0, 0, 0, 0]);
        self.bytes.extend(c.to_le_bytes());
        self
    }
}
