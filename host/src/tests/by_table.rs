//! Tables, openings and whole steps by them, beside the calls.
use super::bits;
use crate::{Refusal, Scheme, Session, Table};

// Table's derivative, as its rules say.
fn by(table: &Table, time: f64, u: &[f64], du: &mut [f64]) {
    du.fill(0.0);
    for record in table.as_bytes().chunks_exact(Table::RECORD) {
        let [target, kind, j, k] = [0, 1, 2, 3].map(|at| usize::from(record[at]));
        let c = f64::from_le_bytes(record[8..].try_into().unwrap());
        du[target] += match kind {
            0 => c,
            1 => c * u[j],
            2 => (c * u[j]) * u[k],
            _ => (c * u[j]) * time,
        };
    }
}

// Numbers that look random, the same in every run.
struct Numbers(u64);

impl Numbers {
    fn below(&mut self, n: usize) -> usize {
        self.0 = self
            .0
            .wrapping_mul(6364136223846793005)
            .wrapping_add(1442695040888963407);
        (self.0 >> 33) as usize % n
    }

    // from -1 to 1
    fn unit(&mut self) -> f64 {
        self.below(1 << 20) as f64 / 524288.0 - 1.0
    }

    fn vector(&mut self, n: usize) -> Vec<f64> {
        (0..n).map(|_| self.unit()).collect()
    }

    fn table(&mut self, n: usize, records: usize) -> Table {
        (0..records).fold(Table::new(), |table, _| {
            let (target, c, j, k) = (self.below(n), 3.0 * self.unit(), self.below(n), self.below(n));
            match self.below(4) {
                0 => table.constant(target, c),
                1 => table.linear(target, c, j),
                2 => table.product(target, c, j, k),
                _ => table.timed(target, c, j),
            }
        })
    }
}

// A stiff pair with a product and a time: u0' = -100 u0 + 3 u1 t, u1' = 0.5 + u0 - u0 u1.
fn stiff() -> Table {
    Table::new()
        .linear(0, -100.0, 0)
        .timed(0, 3.0, 1)
        .constant(1, 0.5)
        .linear(1, 1.0, 0)
        .product(1, -1.0, 0, 1)
}

fn open_stiff(scheme: Scheme) -> Session {
    Session::open_by_table(scheme, 0.25, &[1.0, 2.0], 1e-6, &[1e-9, 1e-6], &stiff()).unwrap()
}

#[test]
fn a_table_has_its_bytes() {
    let table = Table::new()
        .constant(1, 6.5)
        .linear(2, -0.1, 3)
        .product(4, 1.0, 5, 6)
        .timed(7, -2.0, 8);
    let rows = [[1, 0, 0, 0], [2, 1, 3, 0], [4, 2, 5, 6], [7, 3, 8, 0]];
    for ((record, row), c) in table.as_bytes().chunks(16).zip(rows).zip([6.5, -0.1, 1.0, -2.0f64]) {
        assert_eq!(
            (&record[..4], &record[4..8], &record[8..]),
            (&row[..], &[0; 4][..], &c.to_le_bytes()[..])
        );
    }
    assert_eq!(Table::from_bytes(table.as_bytes()), table);
    // 257 does not turn into 1
    assert_eq!(
        Table::new().product(257, 1.0, 256, usize::MAX).as_bytes()[..4],
        [255, 2, 255, 255]
    );
    assert!(Table::new().as_bytes().is_empty());
}

#[test]
fn open_by_table_is_open_with_its_derivative() {
    let mut numbers = Numbers(3);
    for scheme in Scheme::ALL {
        for n in 1..=16 {
            let (u, records) = (numbers.vector(n), [0, 1, 16, 256][n % 4]);
            let (table, time, absolute) = (numbers.table(n, records), numbers.unit(), vec![1e-9; n]);
            let mut f0 = vec![0.0; n];
            by(&table, time, &u, &mut f0);
            let opened = Session::open_by_table(scheme, time, &u, 1e-6, &absolute, &table).unwrap();
            assert_eq!(
                bits(&opened),
                bits(&Session::open(scheme, time, &u, &f0, 1e-6, 1e-9).unwrap())
            );
        }
    }
}

#[test]
fn a_sum_starts_from_plus_zero() {
    let table = Table::new().constant(0, -0.0).linear(1, -1.0, 2);
    let s = Session::open_by_table(Scheme::Exp4, 0.0, &[1.0, 1.0, 0.0], 1.0, 1.0, &table).unwrap();
    assert_eq!(s.derivative().iter().map(|x| x.to_bits()).collect::<Vec<_>>(), [0; 3]);
}

#[test]
fn terms_are_summed_in_their_order() {
    let sum = |c: [f64; 3]| {
        let table = c.into_iter().fold(Table::new(), |table, c| table.constant(0, c));
        let s = Session::open_by_table(Scheme::Exp4, 0.0, &[1.0], 1.0, 1.0, &table).unwrap();
        s.derivative()[0]
    };
    assert_eq!((sum([1e16, 1.0, -1e16]), sum([1e16, -1e16, 1.0])), (0.0, 1.0));
    // a product is (c u_j) u_k, a timed term (c u_j) time
    let tiny = 1e-200;
    let of = |table: Table, time: f64| {
        let s = Session::open_by_table(Scheme::Exp4, time, &[tiny, 1e200], 1.0, 1.0, &table).unwrap();
        s.derivative()[0]
    };
    assert_eq!(of(Table::new().product(0, tiny, 0, 1), 0.0), 0.0);
    assert_eq!(of(Table::new().product(0, tiny, 1, 0), 0.0), tiny * 1e200 * tiny);
    assert_eq!(of(Table::new().timed(0, tiny, 0), 1e300), 0.0);
}

#[test]
fn a_whole_step_is_the_calls() {
    let mut numbers = Numbers(2026);
    for scheme in Scheme::ALL {
        for n in [1, 2, 3, 5, 16] {
            let (table, u) = (numbers.table(n, 3 * n), numbers.vector(n));
            let mut whole = Session::open_by_table(scheme, 0.5, &u, 1e-6, 1e-9, &table).unwrap();
            let mut asked = whole.clone();
            for h in [0.01, 0.3, -0.125] {
                assert_eq!(whole.whole_step(h, &table), Ok(()), "{scheme:?}, n is {n}");
                asked.step(h, |t, u, du| by(&table, t, u, du)).unwrap();
                assert_eq!(bits(&whole), bits(&asked), "{scheme:?}, n is {n}");
            }
        }
        let (mut whole, mut asked) = (open_stiff(scheme), open_stiff(scheme));
        for _ in 0..20 {
            asked.step(0.01, |t, u, du| by(&stiff(), t, u, du)).unwrap();
            whole.whole_step(0.01, &stiff()).unwrap();
            assert_eq!(bits(&whole), bits(&asked), "{scheme:?}");
        }
    }
}

#[test]
fn a_whole_step_is_accepted_whatever_its_norm() {
    for scheme in [Scheme::Exprb32, Scheme::Exprb43] {
        let (mut whole, mut asked) = (open_stiff(scheme), open_stiff(scheme));
        let done = asked.step(1.0, |t, u, du| by(&stiff(), t, u, du)).unwrap();
        assert!(done.error_norm > 1000.0, "{done:?}");
        assert_eq!(whole.whole_step(1.0, &stiff()), Ok(()));
        assert_eq!(bits(&whole), bits(&asked));
    }
}

#[test]
fn the_empty_table_stands_still() {
    for scheme in Scheme::ALL {
        let empty = Table::new();
        let mut s = Session::open_by_table(scheme, 0.0, &[1.0, -2.0], 1e-6, 1e-9, &empty).unwrap();
        s.whole_step(0.5, &empty).unwrap();
        assert_eq!(
            (s.time(), s.state(), s.derivative()),
            (0.5, &[1.0, -2.0][..], &[0.0, 0.0][..])
        );
    }
}

// Opening by this table and stepping by it are refused so, and the step leaves the session.
fn refused_table(table: &Table, refusal: Refusal) {
    let opened = Session::open_by_table(Scheme::Exprb43, 0.25, &[1.0, 2.0], 1e-6, 1e-9, table);
    assert_eq!(opened.map(drop), Err(refusal), "{table:?}");
    for scheme in [Scheme::LawsonEuler, Scheme::Etd2, Scheme::Exprb43] {
        let mut s = open_stiff(scheme);
        s.whole_step(0.01, &stiff()).unwrap();
        let (kept, saved) = (bits(&s), s.save());
        assert_eq!(s.whole_step(0.01, table), Err(refusal), "{table:?}");
        assert_eq!(bits(&s), kept);
        assert!(s.save() == saved);
    }
}

#[test]
fn each_rule_of_a_table() {
    let bytes = stiff().as_bytes().to_vec();
    for length in [1, 8, 15, 17, 31, 79] {
        refused_table(&Table::from_bytes(&bytes[..length]), Refusal::Table);
    }
    assert_eq!((Table::RECORD, Table::RECORDS), (16, 256));
    let many = |records: usize| Table::from_bytes(bytes[32..48].repeat(records));
    refused_table(&many(257), Refusal::Table);
    refused_table(&many(4096), Refusal::Table);
    let most = Session::open_by_table(Scheme::Exp4, 0.0, &[1.0, 2.0], 1e-6, 1e-9, &many(256));
    assert_eq!(most.unwrap().whole_step(0.01, &many(256)), Ok(()));
    // in the first record, in the last, and in the 256th
    let mut long = many(255).as_bytes().to_vec();
    long.extend(&bytes[64..]);
    for (bytes, last) in [(bytes, 64), (long, 255 * 16)] {
        let forged = |at: usize, with: &[u8]| {
            let mut bytes = bytes.clone();
            bytes[at..at + with.len()].copy_from_slice(with);
            Table::from_bytes(bytes)
        };
        for at in [0, last] {
            for component in [2, 3, 16, 255] {
                refused_table(&forged(at, &[component]), Refusal::Table);
                refused_table(&forged(at + 1, &[1, component]), Refusal::Table);
                refused_table(&forged(at + 1, &[2, component, 0]), Refusal::Table);
                refused_table(&forged(at + 1, &[2, 0, component]), Refusal::Table);
                refused_table(&forged(at + 1, &[3, component]), Refusal::Table);
            }
            for kind in [4, 5, 128, 255] {
                refused_table(&forged(at + 1, &[kind, 0, 0]), Refusal::Table);
            }
            // j or k where the kind does not use them
            for row in [[0, 1, 0], [0, 0, 1], [1, 0, 1], [3, 0, 1]] {
                refused_table(&forged(at + 1, &row), Refusal::Table);
            }
            for place in 4..8 {
                refused_table(&forged(at + place, &[1]), Refusal::Table);
            }
            for c in [f64::NAN, -f64::NAN, f64::INFINITY, f64::NEG_INFINITY] {
                refused_table(&forged(at + 8, &c.to_le_bytes()), Refusal::Table);
            }
        }
    }
}

#[test]
fn open_by_table_refuses_in_its_order() {
    let (good, bad, huge) = (
        stiff(),
        Table::from_bytes([1; 16]),
        Table::new().product(0, 1e200, 0, 0),
    );
    let open = |u: &[f64], relative: f64, absolute: &[f64], time: f64, table: &Table| {
        Session::open_by_table(Scheme::Exp4, time, u, relative, absolute, table).map(drop)
    };
    let ones = [1.0; 17];
    for table in [&good, &bad, &huge] {
        assert_eq!(open(&[], 1.0, &[], 0.0, table), Err(Refusal::Size));
        assert_eq!(open(&ones, 1.0, &ones, 0.0, table), Err(Refusal::Size));
        assert_eq!(open(&ones[..2], 0.0, &ones[..3], f64::NAN, table), Err(Refusal::Size));
        assert_eq!(
            open(&[f64::NAN; 2], 0.0, &ones[..2], 0.0, table),
            Err(Refusal::Tolerance)
        );
        assert_eq!(
            open(&[f64::NAN; 2], 1.0, &[1.0, -1.0], 0.0, table),
            Err(Refusal::Tolerance)
        );
        assert_eq!(
            open(&[1.0, f64::INFINITY], 1.0, &ones[..2], 0.0, table),
            Err(Refusal::NotFinite)
        );
        assert_eq!(
            open(&ones[..2], 1.0, &ones[..2], f64::NAN, table),
            Err(Refusal::NotFinite)
        );
    }
    // a wrong record behind one that overflows is 8 all the same
    let both = Table::from_bytes([huge.as_bytes(), bad.as_bytes()].concat());
    assert_eq!(open(&[1e200, 0.0], 1.0, &ones[..2], 0.0, &both), Err(Refusal::Table));
    assert_eq!(
        open(&[1e200, 0.0], 1.0, &ones[..2], 0.0, &huge),
        Err(Refusal::NotFinite)
    );
    assert_eq!(open(&[1.0, 0.0], 1.0, &ones[..2], 0.0, &huge), Ok(()));
}

#[test]
fn a_whole_step_refuses_in_its_order() {
    let bad = Table::from_bytes([1; 16]);
    let refused = |s: &mut Session, step: f64, table: &Table| {
        let kept = bits(s);
        let refusal = s.whole_step(step, table).unwrap_err();
        assert_eq!(bits(s), kept);
        refusal
    };
    let forged = |at: usize, with: &[u8]| {
        let mut bytes = open_stiff(Scheme::Exprb43).save();
        bytes[at..at + with.len()].copy_from_slice(with);
        Session::restore(&bytes).unwrap()
    };
    // the session before the table, in an attempt too
    let (nan, zero) = (f64::NAN.to_le_bytes(), 0f64.to_le_bytes());
    for (at, with, refusal) in [
        (1, &[17][..], Refusal::Size),
        (1, &[0], Refusal::Size),
        (1, &[255], Refusal::Size),
        (0, &[16], Refusal::Scheme),
        (29, &zero, Refusal::Tolerance),
        (5, &nan, Refusal::NotFinite),
        (157, &nan, Refusal::NotFinite),
    ] {
        for table in [&bad, &stiff()] {
            assert_eq!(refused(&mut forged(at, with), 0.0, table), refusal);
        }
    }
    let mut s = open_stiff(Scheme::Exprb43);
    s.begin(0.01, None).unwrap();
    assert_eq!(refused(&mut s, 0.0, &bad), Refusal::Phase);
    s.supply(0, &[0.0; 2]).unwrap();
    assert_eq!(refused(&mut s, 0.01, &stiff()), Refusal::Phase);
    s.drop_attempt().unwrap();
    // the table before the step, the step before any evaluation
    let huge = Table::new().product(0, 1e308, 0, 1).product(0, 1e308, 1, 1);
    for step in [0.0, -0.0, f64::NAN, f64::INFINITY] {
        assert_eq!(refused(&mut s, step, &bad), Refusal::Table);
        assert_eq!(refused(&mut s, step, &huge), Refusal::Step);
        assert_eq!(refused(&mut s, step, &stiff()), Refusal::Step);
    }
    // then as it comes
    assert_eq!(refused(&mut s, 0.01, &huge), Refusal::NotFinite);
    assert_eq!(
        refused(&mut s, 0.01, &Table::new().linear(0, 1e300, 0)),
        Refusal::Arithmetic
    );
    assert_eq!(refused(&mut s, 1e308, &stiff()), Refusal::Arithmetic);
    assert_eq!(s.whole_step(0.01, &stiff()), Ok(()));
}

#[test]
fn a_derivative_that_overflows_at_the_candidate_is_3() {
    // u0' = u1 t from t = 0: the differences are zero, and the derivative at the candidate is 1e300 times the step
    let table = Table::new().timed(0, 1.0, 1);
    let mut s = Session::open_by_table(Scheme::NorsettEuler, 0.0, &[0.0, 1e300], 1.0, 1.0, &table).unwrap();
    let kept = bits(&s);
    assert_eq!(s.whole_step(1e10, &table), Err(Refusal::NotFinite));
    assert_eq!(bits(&s), kept);
    assert_eq!(s.whole_step(1e8, &table), Ok(()));
    assert_eq!(s.derivative(), [1e308, 0.0]);
}
