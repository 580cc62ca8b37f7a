//! The sonde's own right-hand side: a table of records of 16 bytes, each a term of one component's derivative.

use crate::model::{PLACES, Vector};

/// The bytes of a record.
pub const RECORD: usize = 16;
/// The most records of a table.
pub const RECORDS: usize = 256;

#[derive(Clone, Copy, Debug, Eq, PartialEq)]
pub enum Kind {
    Constant = 0,
    Linear = 1,
    Product = 2,
    ByTime = 3,
}

impl Kind {
    pub const ALL: [Self; 4] = [Self::Constant, Self::Linear, Self::Product, Self::ByTime];

    fn of(byte: u8) -> Option<Self> {
        Self::ALL.get(usize::from(byte)).copied()
    }
}

/// A record as it stands in the bytes, well-formed or not.
#[derive(Clone, Copy, Debug)]
pub struct Record {
    pub target: u8,
    pub kind: u8,
    pub j: u8,
    pub k: u8,
    /// Bytes 4 to 7.
    pub reserved: [u8; 4],
    pub c: f64,
}

impl Record {
    pub fn constant(target: u8, c: f64) -> Self {
        Self::of_kind(Kind::Constant, target, c)
    }

    pub fn linear(target: u8, c: f64, j: u8) -> Self {
        Self { j, ..Self::of_kind(Kind::Linear, target, c) }
    }

    pub fn product(target: u8, c: f64, j: u8, k: u8) -> Self {
        Self { j, k, ..Self::of_kind(Kind::Product, target, c) }
    }

    pub fn by_time(target: u8, c: f64, j: u8) -> Self {
        Self { j, ..Self::of_kind(Kind::ByTime, target, c) }
    }

    fn of_kind(kind: Kind, target: u8, c: f64) -> Self {
        Self { target, kind: kind as u8, j: 0, k: 0, reserved: [0; 4], c }
    }

    fn read(bytes: &[u8; RECORD]) -> Self {
        let [target, kind, j, k, r4, r5, r6, r7, c @ ..] = *bytes;
        Self { target, kind, j, k, reserved: [r4, r5, r6, r7], c: f64::from_le_bytes(c) }
    }

    fn bytes(&self) -> [u8; RECORD] {
        let Self { target, kind, j, k, reserved: [r4, r5, r6, r7], c } = *self;
        let [c0, c1, c2, c3, c4, c5, c6, c7] = c.to_le_bytes();
        [target, kind, j, k, r4, r5, r6, r7, c0, c1, c2, c3, c4, c5, c6, c7]
    }

    /// The target and its term; none where the record breaks a rule.
    fn term(&self, n: usize) -> Option<(usize, Term)> {
        let component = |byte: u8| Some(usize::from(byte)).filter(|place| *place < n);
        if self.reserved != [0; 4] || !self.c.is_finite() {
            return None;
        }
        let c = self.c;
        let term = match (Kind::of(self.kind)?, self.j, self.k) {
            (Kind::Constant, 0, 0) => Term::Constant { c },
            (Kind::Linear, j, 0) => Term::Linear { c, j: component(j)? },
            (Kind::Product, j, k) => Term::Product { c, j: component(j)?, k: component(k)? },
            (Kind::ByTime, j, 0) => Term::ByTime { c, j: component(j)? },
            _ => return None,
        };
        Some((component(self.target)?, term))
    }
}

pub fn bytes_of(records: &[Record]) -> Vec<u8> {
    records.iter().flat_map(Record::bytes).collect()
}

/// What a well-formed record adds to its target.
#[derive(Clone, Copy, Debug)]
enum Term {
    Constant { c: f64 },
    Linear { c: f64, j: usize },
    Product { c: f64, j: usize, k: usize },
    ByTime { c: f64, j: usize },
}

impl Term {
    fn value(self, time: f64, state: &[f64]) -> f64 {
        match self {
            Self::Constant { c } => c,
            Self::Linear { c, j } => c * state[j],
            Self::Product { c, j, k } => (c * state[j]) * state[k],
            Self::ByTime { c, j } => (c * state[j]) * time,
        }
    }
}

/// A well-formed table.
#[derive(Clone, Debug)]
pub struct Table {
    terms: Vec<(usize, Term)>,
}

impl Table {
    /// None where it is refused by 8; n is from 1 to 16.
    pub fn read(bytes: &[u8], n: usize) -> Option<Self> {
        let (records, rest) = bytes.as_chunks::<RECORD>();
        if !rest.is_empty() || records.len() > RECORDS {
            return None;
        }
        let terms = records.iter().map(|bytes| Record::read(bytes).term(n)).collect::<Option<_>>()?;
        Some(Self { terms })
    }

    /// Each component summed in record order from +0.0; past n nothing is added.
    pub fn derivative(&self, time: f64, state: &[f64]) -> Vector {
        let mut derivative = [0.0; PLACES];
        for (target, term) in &self.terms {
            derivative[*target] += term.value(time, state);
        }
        derivative
    }
}

/// The rules that a table can break, in the order in which [`broken_rules`] looks for them.
pub const RULES: [&str; 17] = [
    "a length that is no multiple of 16",
    "over 256 records",
    "target not below n",
    "kind above 3",
    "j not below n",
    "k not below n",
    "j not zero under a constant",
    "k not zero under a constant",
    "k not zero under c u_j",
    "k not zero under (c u_j) time",
    "byte 4 not zero",
    "byte 5 not zero",
    "byte 6 not zero",
    "byte 7 not zero",
    "c infinite",
    "c -infinite",
    "c NaN",
];

/// The rules that the bytes break, each once, found byte by byte and not by [`Table::read`]: what a test or a tally tells of a
/// refusal by 8.
pub fn broken_rules(bytes: &[u8], n: u8) -> Vec<&'static str> {
    let nan = |record: &[u8]| {
        let payload = record[14] & 0x0f != 0 || record[8..14].iter().any(|byte| *byte != 0);
        record[15] & 0x7f == 0x7f && record[14] & 0xf0 == 0xf0 && payload
    };
    let (records, rest) = bytes.as_chunks::<RECORD>();
    let any = |broken: &dyn Fn(&[u8]) -> bool| records.iter().any(|record| broken(record));
    let broken = [
        !rest.is_empty(),
        records.len() > RECORDS,
        any(&|r| r[0] >= n),
        any(&|r| r[1] > 3),
        any(&|r| [1, 2, 3].contains(&r[1]) && r[2] >= n),
        any(&|r| r[1] == 2 && r[3] >= n),
        any(&|r| r[1] == 0 && r[2] != 0),
        any(&|r| r[1] == 0 && r[3] != 0),
        any(&|r| r[1] == 1 && r[3] != 0),
        any(&|r| r[1] == 3 && r[3] != 0),
        any(&|r| r[4] != 0),
        any(&|r| r[5] != 0),
        any(&|r| r[6] != 0),
        any(&|r| r[7] != 0),
        any(&|r| r[8..] == [0, 0, 0, 0, 0, 0, 0xf0, 0x7f]),
        any(&|r| r[8..] == [0, 0, 0, 0, 0, 0, 0xf0, 0xff]),
        any(&nan),
    ];
    RULES.into_iter().zip(broken).filter_map(|(rule, broken)| broken.then_some(rule)).collect()
}
