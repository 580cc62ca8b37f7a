//! Tables for the random scripts and inputs: well-formed ones, ones with one rule broken, and ones that overflow on the way.

use crate::bits::power_of_two;
use crate::random::Random;
use crate::table::{Kind, RECORDS, RULES, Record, bytes_of};

/// A damped and coupled right-hand side in n components; now and then an empty table, or one of 256 records.
pub fn well_formed(n: usize, random: &mut Random) -> Vec<Record> {
    if random.chance(30) {
        return Vec::new();
    }
    let stiffness = random.pick(&[0.0, 1.0, 1.0, 30.0, 1e3, 1e5, 1e8, 1e12]);
    let mut records: Vec<Record> = (0..n as u8)
        .map(|i| Record::linear(i, -stiffness * (1.0 + 0.5 * random.unit()), i))
        .filter(|record| record.c != 0.0)
        .collect();
    let more = if random.chance(30) { RECORDS - records.len() } else { random.below(3 * n + 2) };
    records.extend((0..more).map(|_| {
        let kind = random.pick(&[Kind::Constant, Kind::Linear, Kind::Linear, Kind::Product, Kind::ByTime]);
        let c = random.unit() / n as f64;
        of_kind(kind, c, n, random)
    }));
    for last in (1..records.len()).rev() {
        records.swap(last, random.below(last + 1));
    }
    records
}

fn of_kind(kind: Kind, c: f64, n: usize, random: &mut Random) -> Record {
    let mut component = || random.below(n) as u8;
    let (target, j, k) = (component(), component(), component());
    match kind {
        Kind::Constant => Record::constant(target, c),
        Kind::Linear => Record::linear(target, c, j),
        Kind::Product => Record::product(target, c, j, k),
        Kind::ByTime => Record::by_time(target, c, j),
    }
}

/// Well-formed, with some coefficients of any magnitude.
pub fn huge(n: usize, random: &mut Random) -> Vec<Record> {
    let mut records = well_formed(n, random);
    for _ in 0..=random.below(3) {
        let c = match random.below(3) {
            0 => random.any_finite(),
            1 => random.pick(&[f64::MAX, f64::MIN, 1e300, -1e200]),
            _ => random.unit() * power_of_two(random.below(300) as i32 + 700),
        };
        let kind = random.pick(&Kind::ALL);
        records.push(of_kind(kind, c, n, random));
    }
    records.truncate(RECORDS);
    records
}

/// The bytes of a table with the rule of this place in [`RULES`] broken, and no other.
pub fn broken(rule: usize, n: usize, random: &mut Random) -> Vec<u8> {
    let mut records = well_formed(n, random);
    records.truncate(RECORDS - 1);
    let beyond = random.pick(&[n as u8, n as u8, n as u8 + 1, 128, 255]);
    let not_zero = random.pick(&[1, 2, 128, 255]);
    let mut any_of = |kinds: &[Kind]| {
        let kind = random.pick(kinds);
        of_kind(kind, 1.0, n, random)
    };
    let mut bad = match rule {
        0 => {
            let mut bytes = bytes_of(&records);
            bytes.extend((0..1 + random.below(15)).map(|_| random.draw() as u8));
            return bytes;
        }
        1 => {
            let count = random.pick(&[RECORDS + 1, RECORDS + 1, RECORDS + 2, 2 * RECORDS]);
            records.resize_with(count, || of_kind(Kind::Linear, 1.0, n, random));
            return bytes_of(&records);
        }
        2 => Record { target: beyond, ..any_of(&Kind::ALL) },
        3 => Record { kind: random.pick(&[4, 5, 128, 255]), ..Record::constant(0, 1.0) },
        4 => Record { j: beyond, ..any_of(&[Kind::Linear, Kind::Product, Kind::ByTime]) },
        5 => Record { k: beyond, ..any_of(&[Kind::Product]) },
        6 => Record { j: not_zero, ..any_of(&[Kind::Constant]) },
        7 => Record { k: not_zero, ..any_of(&[Kind::Constant]) },
        8 => Record { k: not_zero, ..any_of(&[Kind::Linear]) },
        9 => Record { k: not_zero, ..any_of(&[Kind::ByTime]) },
        10..=13 => any_of(&Kind::ALL),
        14 => Record { c: f64::INFINITY, ..any_of(&Kind::ALL) },
        15 => Record { c: f64::NEG_INFINITY, ..any_of(&Kind::ALL) },
        16 => Record { c: nan(random), ..Record::linear(0, 1.0, n as u8 - 1) },
        _ => panic!("there are {} rules", RULES.len()),
    };
    if (10..=13).contains(&rule) {
        bad.reserved[rule - 10] = not_zero;
    }
    records.insert(random.below(records.len() + 1), bad);
    bytes_of(&records)
}

/// A NaN of any pattern.
pub fn nan(random: &mut Random) -> f64 {
    let patterns = [0x7ff8_0000_0000_0000, 0xfff8_0000_0000_0000, 0x7ff0_0000_0000_0001, u64::MAX];
    f64::from_bits(random.pick(&patterns))
}

/// A step over which a column, the time, or the derivative at a stage or at the candidate overflows.
pub struct Overflow {
    pub time: f64,
    pub step: f64,
    pub state: Vec<f64>,
    pub records: Vec<Record>,
}

pub fn overflow(n: usize, random: &mut Random) -> Overflow {
    if random.chance(6) {
        // The first column is moved to infinity.
        let state = vec![random.pick(&[f64::MAX, f64::MIN]); n];
        return Overflow { time: 0.0, step: 0.5, state, records: Vec::new() };
    }
    let state = vec![1.0; n];
    let far = power_of_two(1023);
    let components = 0..n as u8;
    if random.chance(2) {
        // At an infinite time 0 times it is NaN, and the least double times it infinite.
        let c = random.pick(&[0.0, power_of_two(-1074)]);
        let taken = random.chance(2);
        let records = components.filter(|_| taken).map(|i| Record::by_time(i, c, i)).collect();
        return Overflow { time: far, step: random.pick(&[far, far, 1.5 * far]), state, records };
    }
    let records = components.flat_map(|i| [Record::constant(i, 1.0), Record::product(i, 1e-300, i, i)]);
    Overflow { time: 0.0, step: random.pick(&[1e308, -1e308, 1e200]), state, records: records.collect() }
}
