//! The sonde's own right-hand side: the rules of a table, and its derivative.

use oracle::bits::same;
use oracle::model::PLACES;
use oracle::random::Random;
use oracle::random_table::{broken, huge, well_formed};
use oracle::table::{Kind, RECORD, RECORDS, RULES, Record, Table, broken_rules, bytes_of};

/// The derivative in n components, the state's; the table is well-formed.
fn derivative(records: &[Record], time: f64, state: &[f64]) -> Vec<f64> {
    let table = Table::read(&bytes_of(records), state.len()).unwrap();
    let derivative = table.derivative(time, state);
    assert!(derivative[state.len()..].iter().all(|entry| entry.to_bits() == 0));
    derivative[..state.len()].to_vec()
}

fn refused(bytes: &[u8], n: u8) -> bool {
    Table::read(bytes, usize::from(n)).is_none()
}

#[test]
fn a_record_has_its_fields_in_their_order() {
    let record = Record { target: 1, kind: 2, j: 3, k: 4, reserved: [5, 6, 7, 8], c: -1.0 };
    let bytes = [1, 2, 3, 4, 5, 6, 7, 8, 0, 0, 0, 0, 0, 0, 0xf0, 0xbf];
    assert_eq!(bytes_of(&[record]), bytes);
    // The last component of each kind, by hand.
    let mut bytes = vec![0; 4 * RECORD];
    for (kind, record) in bytes.chunks_mut(RECORD).enumerate() {
        record[..2].copy_from_slice(&[kind as u8, kind as u8]);
        record[8..].copy_from_slice(&(10.0 + kind as f64).to_le_bytes());
    }
    bytes[RECORD + 2] = 3;
    bytes[2 * RECORD + 2] = 1;
    bytes[2 * RECORD + 3] = 2;
    bytes[3 * RECORD + 2] = 2;
    let table = Table::read(&bytes, 4).unwrap();
    assert_eq!(table.derivative(0.5, &[2.0, 3.0, 5.0, 7.0])[..4], [10.0, 77.0, 180.0, 32.5]);
}

/// Each rule by itself, in each place of three records, in every dimension.
#[test]
fn each_rule_is_broken_by_itself() {
    for n in 1..=16u8 {
        let kinds = [
            Record::constant(0, 1.0),
            Record::linear(0, 1.0, 0),
            Record::product(0, 1.0, 0, 0),
            Record::by_time(0, 1.0, 0),
        ];
        let [constant, linear, product, by_time] = kinds;
        let mut cases = vec![
            ("kind above 3", Record { kind: 4, ..constant }),
            ("kind above 3", Record { kind: 255, ..constant }),
            ("j not below n", Record { j: n, ..linear }),
            ("j not below n", Record { j: n, ..product }),
            ("j not below n", Record { j: n, ..by_time }),
            ("j not below n", Record { j: 255, ..linear }),
            ("k not below n", Record { k: n, ..product }),
            ("k not below n", Record { k: 255, ..product }),
            ("j not zero under a constant", Record { j: 1, ..constant }),
            ("k not zero under a constant", Record { k: 1, ..constant }),
            ("k not zero under c u_j", Record { k: 1, ..linear }),
            ("k not zero under (c u_j) time", Record { k: 1, ..by_time }),
        ];
        for record in kinds {
            cases.push(("target not below n", Record { target: n, ..record }));
            cases.push(("target not below n", Record { target: 255, ..record }));
            cases.push(("byte 4 not zero", Record { reserved: [1, 0, 0, 0], ..record }));
            cases.push(("byte 5 not zero", Record { reserved: [0, 128, 0, 0], ..record }));
            cases.push(("byte 6 not zero", Record { reserved: [0, 0, 255, 0], ..record }));
            cases.push(("byte 7 not zero", Record { reserved: [0, 0, 0, 1], ..record }));
            cases.push(("c infinite", Record { c: f64::INFINITY, ..record }));
            cases.push(("c -infinite", Record { c: f64::NEG_INFINITY, ..record }));
            cases.push(("c NaN", Record { c: f64::NAN, ..record }));
            cases.push(("c NaN", Record { c: f64::from_bits(0xfff0_0000_0000_0001), ..record }));
        }
        for (rule, bad) in cases {
            assert_eq!(bytes_of(&[bad]).len(), RECORD);
            for place in 0..3 {
                let mut records = vec![linear; 2];
                assert!(!refused(&bytes_of(&records), n));
                records.insert(place, bad);
                assert!(refused(&bytes_of(&records), n), "{rule} in {n}: {bad:?}");
                assert_eq!(broken_rules(&bytes_of(&records), n), [rule]);
            }
        }
        let last = n - 1;
        for good in [
            Record::constant(last, f64::MAX),
            Record::linear(last, -0.0, last),
            Record::product(last, 5e-324, last, last),
            Record::by_time(last, f64::MIN, last),
        ] {
            assert!(!refused(&bytes_of(&[good]), n));
        }
    }
}

#[test]
fn a_table_is_of_whole_records_and_at_most_256() {
    let bytes = bytes_of(&vec![Record::linear(0, 1.0, 0); 600]);
    for length in 0..=bytes.len() {
        let good = length % RECORD == 0 && length <= RECORD * RECORDS;
        assert_eq!(refused(&bytes[..length], 1), !good, "{length}");
        assert_eq!(broken_rules(&bytes[..length], 1).is_empty(), good, "{length}");
    }
    assert!(!refused(&[], 1) && refused(&bytes[..4112], 1) && !refused(&bytes[..4096], 1));
}

/// The rules are told in two ways, and they agree; a random table with one rule broken breaks that one.
#[test]
fn the_rules_are_the_same_told_twice() {
    let mut random = Random::new(80);
    for turn in 0..4000 {
        let n = 1 + random.below(PLACES);
        assert!(!refused(&bytes_of(&well_formed(n, &mut random)), n as u8));
        assert!(!refused(&bytes_of(&huge(n, &mut random)), n as u8));
        let rule = turn % RULES.len();
        let mut bytes = broken(rule, n, &mut random);
        assert_eq!(broken_rules(&bytes, n as u8), [RULES[rule]]);
        for _ in 0..3 {
            assert_eq!(refused(&bytes, n as u8), !broken_rules(&bytes, n as u8).is_empty());
            let place = random.below(bytes.len());
            bytes[place] = random.pick(&[0, 1, 2, 3, 4, 16, 255]);
        }
        let any: Vec<u8> = (0..RECORD).map(|_| random.pick(&[0, 0, 0, 0, 1, 2, 3, 0x7f, 0xf0])).collect();
        assert_eq!(refused(&any, n as u8), !broken_rules(&any, n as u8).is_empty());
    }
}

/// From left to right: with 0.1, 0.2 and 0.3 any other order of the two products has other bits.
#[test]
fn a_term_is_multiplied_from_left_to_right() {
    let [a, b, c] = [0.1, 0.2, 0.3];
    let left: f64 = (a * b) * c;
    assert!(left != a * (b * c) && left != (a * c) * b);
    assert_eq!(derivative(&[Record::product(0, a, 0, 1)], 0.0, &[b, c])[0], left);
    assert_eq!(derivative(&[Record::product(0, a, 1, 0)], 0.0, &[b, c])[0], (a * c) * b);
    assert_eq!(derivative(&[Record::by_time(0, a, 0)], c, &[b])[0], left);
    assert_eq!(derivative(&[Record::by_time(0, a, 0)], b, &[c])[0], (a * c) * b);
    // The other association would overflow.
    assert_eq!(derivative(&[Record::product(0, 1e-200, 0, 0)], 0.0, &[1e200])[0], 1e-200 * 1e200 * 1e200);
    assert_eq!(derivative(&[Record::by_time(0, 1e-200, 0)], 1e200, &[1e200])[0], 1e-200 * 1e200 * 1e200);
}

#[test]
fn a_component_is_summed_in_record_order() {
    let constants = |values: &[f64]| -> f64 {
        let records: Vec<Record> = values.iter().map(|c| Record::constant(0, *c)).collect();
        derivative(&records, 0.0, &[1.0])[0]
    };
    assert_eq!(constants(&[1e16, 1.0, -1e16]), 0.0);
    assert_eq!(constants(&[1e16, -1e16, 1.0]), 1.0);
    assert_eq!(constants(&[1.0, 1e16, -1e16]), 0.0);
    assert_eq!(constants(&[f64::MAX, f64::MAX, f64::MIN]), f64::INFINITY);
    assert_eq!(constants(&[f64::MAX, f64::MIN, f64::MAX]), f64::MAX);
    // Records of another target between them, and of another kind, change nothing of the order.
    let mixed = [
        Record::constant(0, 1e16),
        Record::linear(1, 3.0, 0),
        Record::linear(0, 0.5, 0),
        Record::by_time(1, 1.0, 1),
        Record::product(0, -1e16, 1, 1),
    ];
    assert_eq!(derivative(&mixed, 4.0, &[2.0, 1.0]), [0.0, 10.0]);
}

/// Each product and each sum is rounded by itself.
#[test]
fn a_product_is_rounded_before_it_is_added() {
    let x = 1.0 + f64::EPSILON;
    let square: f64 = x * x;
    assert!(x.mul_add(x, -square) != 0.0);
    let records = [Record::constant(0, -square), Record::linear(0, x, 0)];
    assert_eq!(derivative(&records, 0.0, &[x])[0], 0.0);
}

#[test]
fn a_sum_starts_from_plus_zero() {
    for records in [&[][..], &[Record::constant(0, -0.0)], &[Record::linear(0, 0.0, 0); 3]] {
        let derivative = derivative(records, 1.0, &[-1.0, 1.0]);
        assert!(derivative.iter().all(|entry| entry.to_bits() == 0), "{records:?}");
    }
}

#[test]
fn what_overflows_is_not_finite() {
    let at = |records: &[Record], time: f64, state: f64| derivative(records, time, &[state])[0];
    assert_eq!(at(&[Record::product(0, 1.0, 0, 0)], 0.0, 1e160), f64::INFINITY);
    assert_eq!(at(&[Record::linear(0, -1e300, 0)], 0.0, 1e160), f64::NEG_INFINITY);
    assert!(at(&[Record::by_time(0, 0.0, 0)], f64::INFINITY, 1.0).is_nan());
    let both = [Record::linear(0, 1e300, 0), Record::linear(0, -1e300, 0)];
    assert!(at(&both, 0.0, 1e160).is_nan());
    // A constant takes neither state nor time.
    assert_eq!(at(&[Record::constant(0, 2.0)], f64::INFINITY, f64::NAN), 2.0);
}

/// Flip signs in the state, and each coefficient by those of its target, of u_j and of u_k: the derivative is flipped, zeros
/// of either sign equal.
#[test]
fn flipped_coefficients_give_the_flipped_derivative() {
    let mut random = Random::new(81);
    for _ in 0..4000 {
        let n = 1 + random.below(PLACES);
        let records = if random.chance(3) { huge(n, &mut random) } else { well_formed(n, &mut random) };
        let mask: Vec<bool> = (0..n).map(|_| random.chance(2)).collect();
        let flip = |odd: bool, x: f64| if odd { -x } else { x };
        let at = |place: u8| mask[usize::from(place)];
        let flipped: Vec<Record> = records
            .iter()
            .map(|r| {
                let by_j = r.kind != Kind::Constant as u8 && at(r.j);
                let by_k = r.kind == Kind::Product as u8 && at(r.k);
                Record { c: flip(at(r.target) ^ by_j ^ by_k, r.c), ..*r }
            })
            .collect();
        let state: Vec<f64> = (0..n).map(|_| random.pick(&[1.0, 1e-3, 1e160, 0.0]) * random.unit()).collect();
        let mirrored: Vec<f64> = state.iter().zip(&mask).map(|(x, odd)| flip(*odd, *x)).collect();
        let plain_zeros = |values: Vec<f64>| -> Vec<f64> {
            values.into_iter().map(|x| if x == 0.0 { 0.0 } else { x }).collect()
        };
        let time = random.unit();
        let one = derivative(&records, time, &state);
        let one = one.iter().zip(&mask).map(|(x, odd)| flip(*odd, *x)).collect();
        let other = derivative(&flipped, time, &mirrored);
        assert!(same(&plain_zeros(one), &plain_zeros(other)));
    }
}
