//! The C header beside the crate: what either saves, the other restores; the counts go by the same names; tables have the same bytes, and the steps
//! by them the same bits.
use vunchrem::{exponential, Progress, Scheme, Session, Table};

extern "C" {
    fn restore_and_save(bytes: *const u8, length: usize, saved: *mut u8, saved_length: usize) -> u32;
    fn reach_of(size: u64, m: *const f64, m_len: usize, out: *mut f64, out_len: usize, reach: *mut u64);
    fn counts_of(bytes: *const u8, length: usize, n: usize, step: f64, jacobian: *const f64, counts: *mut u64) -> u64;
    fn record_of(record: *mut u8, target: usize, kind: usize, j: usize, k: usize, c: f64);
    fn whole_steps(
        scheme: u64,
        n: u64,
        absolute: *const f64,
        state: *const f64,
        table: *const u8,
        table_len: usize,
        step: f64,
        steps: usize,
        saved: *mut u8,
    ) -> u64;
}

const BYTES: usize = 5149;
const OLD_BYTES: usize = 5029;

// What the header restores from these bytes, saved again; and the code of restoring.
fn by_c(bytes: &[u8]) -> (u32, Vec<u8>) {
    let mut saved = vec![0; BYTES];
    // SAFETY: each pointer and length is that of a slice that is lent for the call; the two do not overlap.
    let code = unsafe { restore_and_save(bytes.as_ptr(), bytes.len(), saved.as_mut_ptr(), saved.len()) };
    (code, saved)
}

#[test]
fn a_session_has_the_same_bytes() {
    for scheme in Scheme::ALL {
        let mut s = Session::open(scheme, 0.0, &[1.0, 2.0], &[-1.0, 1.0], 1e-6, &[1e-9, 1e-3]).unwrap();
        s.step(0.1, |_, u, du| du.copy_from_slice(&[-u[0], u[0] - u[1]]))
            .unwrap();
        assert!(by_c(&s.save()) == (0, s.save()), "{scheme:?}");
        s.begin(0.1, None).unwrap();
        s.supply(0, &[0.5, 0.25]).unwrap();
        assert!(by_c(&s.save()) == (0, s.save()), "{scheme:?}");
    }
}

#[test]
fn forged_bytes_are_read_alike() {
    let mut x = 2026u64;
    let mut random = || {
        x = x.wrapping_mul(6364136223846793005).wrapping_add(1442695040888963407);
        (x >> 56) as u8
    };
    for length in [BYTES, OLD_BYTES] {
        for n in 0..=255 {
            let mut bytes: Vec<u8> = (0..length).map(|_| random()).collect();
            bytes[1] = n;
            // a NaN, of a sign and with bits of its own
            bytes[35] = 0xf1 | random();
            bytes[36] = 0x7f | random();
            assert!(
                by_c(&bytes) == (0, Session::restore(&bytes).unwrap().save()),
                "n is {n}, of {length} bytes"
            );
        }
    }
}

#[test]
fn another_length_is_an_error_to_both() {
    let blank = by_c(&[]);
    for length in [0, 1, OLD_BYTES - 1, OLD_BYTES + 1, BYTES - 1, BYTES + 1] {
        let bytes = vec![1; length];
        assert!(Session::restore(&bytes).is_err());
        assert!(by_c(&bytes) == blank, "{length} bytes");
    }
    assert_eq!(blank.0, 2);
    assert_eq!(blank.1[..5], [3, 3, 1, 2, 3]);
    assert!(blank.1[5..].chunks(8).all(|x| x == 3f64.to_le_bytes()));
}

#[test]
fn an_exponential_has_the_same_terms_and_squarings() {
    for (size, m) in [
        (1, &[0.0][..]),
        (1, &[-3.0]),
        (2, &[0.0, 1.0, 0.0, 0.0]),
        (2, &[-1e6, 2.0, -3.0, -1e5]),
    ] {
        let (mut out, mut by_c) = (vec![0.0; m.len()], [0; 2]);
        // SAFETY: each pointer is that of a slice that is lent for the call, with its length; reach has two places. No two overlap.
        unsafe {
            reach_of(
                size as u64,
                m.as_ptr(),
                m.len(),
                out.as_mut_ptr(),
                out.len(),
                by_c.as_mut_ptr(),
            )
        };
        let (e, reach) = exponential(size, m).unwrap();
        assert_eq!((out, by_c), (e, [u64::from(reach.terms), u64::from(reach.squarings)]));
    }
}

#[test]
fn a_step_has_the_same_counts() {
    let mut jacobian = [0.0; 256];
    jacobian[..4].copy_from_slice(&[-40.0, 1.0, 0.5, -3.0]);
    for scheme in Scheme::ALL {
        let mut s = Session::open(scheme, 0.0, &[1.0, 2.0], &[-1.0, 1.0], 1e-6, 1e-9).unwrap();
        let bytes = s.save();
        let mut by_c = [0; 3];
        // SAFETY: as above; jacobian has 256 places, counts three, and n is 2.
        let outcome = unsafe {
            counts_of(
                bytes.as_ptr(),
                bytes.len(),
                2,
                0.125,
                jacobian.as_ptr(),
                by_c.as_mut_ptr(),
            )
        };
        let mut progress = s.begin(0.125, Some(&jacobian[..4])).unwrap();
        let counts = loop {
            match progress {
                Progress::Ask(question) => progress = s.answer(question, &[0.0; 2]).unwrap(),
                Progress::Ready {
                    right_hand_sides,
                    jacobians,
                    products,
                    ..
                } => break [right_hand_sides, jacobians, products].map(u64::from),
            }
        };
        assert_eq!((outcome, by_c), (2, counts), "{scheme:?}");
    }
}

#[test]
fn a_record_has_the_same_bytes() {
    for (target, j, k) in [
        (0, 0, 0),
        (1, 2, 3),
        (15, 14, 13),
        (254, 255, 256),
        (257, usize::MAX, 1 << 32),
    ] {
        for c in [1.0, -0.1, -0.0, 1e308, f64::NAN, f64::INFINITY] {
            let tables = [
                Table::new().constant(target, c),
                Table::new().linear(target, c, j),
                Table::new().product(target, c, j, k),
                Table::new().timed(target, c, j),
            ];
            for (kind, table) in tables.into_iter().enumerate() {
                let mut record = [0xaa; Table::RECORD];
                let (j, k) = (if kind == 0 { 0 } else { j }, if kind == 2 { k } else { 0 });
                // SAFETY: record has the sixteen places that are written.
                unsafe { record_of(record.as_mut_ptr(), target, kind, j, k, c) };
                assert_eq!(record, table.as_bytes());
            }
        }
    }
}

#[test]
fn whole_steps_end_in_the_same_session() {
    let table = Table::new()
        .linear(0, -40.0, 0)
        .timed(0, 3.0, 1)
        .constant(1, 0.5)
        .product(1, -1.0, 0, 1);
    let huge = Table::new().product(0, 1e308, 0, 1).product(1, 2.0, 1, 1);
    let (mut absolute, mut state) = ([0.0; 16], [0.0; 16]);
    absolute[..2].copy_from_slice(&[1e-9, 1e-6]);
    state[..2].copy_from_slice(&[1.0, 1.5]);
    for scheme in Scheme::ALL {
        for (table, step) in [
            (&table, 0.01),
            (&table, 0.0),
            (&huge, 0.01),
            (&Table::from_bytes([9; 16]), 0.01),
        ] {
            let (records, mut saved) = (table.as_bytes(), vec![0; BYTES]);
            // SAFETY: absolute and state have sixteen places, the table its length, saved the bytes of a session. No two overlap.
            let refusal = unsafe {
                whole_steps(
                    scheme as u64,
                    2,
                    absolute.as_ptr(),
                    state.as_ptr(),
                    records.as_ptr(),
                    records.len(),
                    step,
                    5,
                    saved.as_mut_ptr(),
                )
            };
            match Session::open_by_table(scheme, 0.0, &state[..2], 1e-6, &absolute[..2], table) {
                Err(refused) => assert_eq!(refusal, u64::from(refused.number())),
                Ok(mut s) => {
                    let end = (0..5).try_for_each(|_| s.whole_step(step, table));
                    assert_eq!(refusal, end.map_or_else(|refused| u64::from(refused.number()), |()| 0));
                    assert!(s.save() == saved, "{scheme:?}");
                }
            }
        }
    }
}
