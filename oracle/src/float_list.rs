//! The list for the float layer.
//!
//! A record is an op, x and y; its reply is a double, or 1 or 0 for a test.

use crate::bits::{above, power_of_two};
use crate::bytes::put_double;
use crate::exact::ExactPowi;
use crate::lists::List;
use crate::random::Random;

const SQUARE_ROOT: u8 = 0;
const IS_FINITE: u8 = 1;
const ABSOLUTE: u8 = 2;
const LARGER: u8 = 3;
const IS_PLUS_ZERO: u8 = 4;
const POWER_2: u8 = 5;
const POWER_3: u8 = 6;
const POWER_4: u8 = 7;

fn reply(op: u8, x: f64, y: f64) -> u64 {
    let double = match op {
        SQUARE_ROOT => x.sqrt(),
        IS_FINITE => return u64::from(x.is_finite()),
        ABSOLUTE => x.abs(),
        LARGER => x.max(y),
        IS_PLUS_ZERO => return u64::from(x.to_bits() == 0),
        POWER_2 => x.exact_powi(2),
        POWER_3 => x.exact_powi(3),
        POWER_4 => x.exact_powi(4),
        _ => panic!("no op {op}"),
    };
    crate::bits::pattern(double)
}

/// Zeros, ends of the ranges, infinities, NaN, and some numbers of everyday size.
fn special() -> Vec<f64> {
    let positive = [
        0.0,
        f64::from_bits(1),
        f64::from_bits(2),
        f64::from_bits(3),
        f64::MIN_POSITIVE.next_down(),
        f64::MIN_POSITIVE,
        f64::MIN_POSITIVE.next_up(),
        power_of_two(-538),
        power_of_two(-269),
        0.1,
        0.5,
        1.0_f64.next_down(),
        1.0,
        1.0_f64.next_up(),
        2.0,
        3.0,
        power_of_two(255),
        power_of_two(256),
        power_of_two(341),
        power_of_two(342),
        power_of_two(511),
        power_of_two(512),
        power_of_two(1023),
        f64::MAX.next_down(),
        f64::MAX,
        f64::INFINITY,
    ];
    let negative = positive.iter().map(|x| -x);
    positive
        .iter()
        .copied()
        .chain(negative)
        .chain([f64::NAN, f64::from_bits(0x7ff0_0000_0000_0001), f64::from_bits(u64::MAX)])
        .collect()
}

/// Doubles whose root lies as near to the middle of two doubles as a root can: round (m + 1/2)^2, m of 53 bits.
fn near_midpoints(random: &mut Random, count: usize) -> Vec<f64> {
    let mut found = Vec::new();
    for _ in 0..count {
        let m = (1u128 << 52) | (random.draw() >> 12) as u128;
        let square = (2 * m + 1) * (2 * m + 1);
        let root_exponent = 2 * (random.below(200) as i32 - 100);
        let mut x = square as f64;
        for _ in 0..root_exponent.abs() {
            x *= if root_exponent > 0 { 2.0 } else { 0.5 };
        }
        found.extend([x.next_down(), x, x.next_up()]);
    }
    found
}

fn arguments_of_the_root(random: &mut Random) -> Vec<f64> {
    let mut list = special();
    for exponent in -1074..=1023 {
        list.push(power_of_two(exponent));
    }
    for exponent in (-1070..=1020).step_by(17) {
        let x = power_of_two(exponent);
        list.extend([above(x, -1), above(x, 1)]);
    }
    for k in (1..=40).chain((1..=40).map(|k| k * k * 59 + 11)).chain([94_906_265]) {
        let square = (k * k) as f64;
        list.extend([square.next_down(), square, square.next_up()]);
        let small = square * power_of_two(-1074);
        list.extend([above(small, -1), small, above(small, 1)]);
    }
    list.extend(near_midpoints(random, 300));
    for _ in 0..600 {
        list.push(f64::from_bits(random.draw() >> (12 + random.below(52))));
    }
    for _ in 0..4000 {
        let x = random.any_pattern();
        list.push(if random.chance(16) { x } else { x.abs() });
    }
    list
}

pub fn list() -> List {
    let mut random = Random::new(20);
    let mut records: Vec<(u8, f64, f64)> = Vec::new();
    for x in arguments_of_the_root(&mut random) {
        records.push((SQUARE_ROOT, x, 0.0));
    }
    for op in [IS_FINITE, ABSOLUTE, IS_PLUS_ZERO, POWER_2, POWER_3, POWER_4] {
        for x in special() {
            records.push((op, x, 0.0));
        }
        for _ in 0..300 {
            let x = random.any_pattern();
            // The powers are of little use beyond their range: most of their arguments lie within it.
            let near = f64::from_bits(x.to_bits() >> 2 | 0x3000_0000_0000_0000);
            records.push((op, if op >= POWER_2 && !random.chance(4) { near } else { x }, 0.0));
        }
    }
    let special = special();
    for x in &special {
        for y in &special {
            // Either zero may be the larger of +0 and -0.
            if !(*x == 0.0 && *y == 0.0 && x.to_bits() != y.to_bits()) {
                records.push((LARGER, *x, *y));
            }
        }
    }
    let mut input = Vec::new();
    let mut output = Vec::new();
    for (op, x, y) in &records {
        input.push(*op);
        put_double(&mut input, *x);
        put_double(&mut input, *y);
        output.extend(reply(*op, *x, *y).to_le_bytes());
    }
    List { name: "float_run", input, output, summary: format!("{} records", records.len()) }
}
