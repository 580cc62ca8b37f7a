//! Inputs for the program `sonde`: fixed ones for what must not be missed, then random ones, valid, wrong in one place, in
//! several, or cut.

use crate::bits::power_of_two;
use crate::random::Random;
use crate::random_table::{self, Overflow};
use crate::sonde::{Input, logging};
use crate::table::{RECORDS, RULES, Record, bytes_of};
use std::collections::VecDeque;

/// An input and what it is there for.
pub struct Case {
    pub kind: &'static str,
    pub bytes: Vec<u8>,
}

impl Case {
    fn of(kind: &'static str, input: &Input) -> Self {
        Self { kind, bytes: input.bytes() }
    }
}

/// The fixed ones, then as many random ones as are taken.
pub fn inputs(seed: u64) -> impl Iterator<Item = Case> {
    fixed().into_iter().chain(RandomInputs { random: Random::new(seed), waiting: VecDeque::new() })
}

/// n = 1, decaying from 1 by the scheme NorsettEuler, one step of 0.5.
pub fn decay() -> Input {
    Input {
        n: 1,
        scheme: 1,
        count: 1,
        time: 0.0,
        step: 0.5,
        relative: 1.0,
        absolute: vec![1.0],
        state: vec![1.0],
        table: bytes_of(&[Record::linear(0, -1.0, 0)]),
    }
}

/// The largest step count to its end: 1,048,560 bytes of output.
pub fn longest() -> Input {
    Input { count: u16::MAX, step: 0.001, ..decay() }
}

pub fn fixed() -> Vec<Case> {
    let mut list =
        vec![Case::of("the logging pass", &logging()), Case::of("the largest step count", &longest())];
    for scheme in 0..16 {
        list.push(Case::of("every scheme", &Input { scheme, ..logging() }));
    }
    // Everything wrong at once, then one thing less each time.
    let wrongs: [fn(&mut Input); 7] = [
        |i| {
            i.n = 0;
            i.absolute.clear();
            i.state.clear();
        },
        |i| i.scheme = 16,
        |i| i.relative = 0.0,
        |i| i.time = f64::NAN,
        |i| i.table.truncate(15),
        |i| i.state[0] = 1e200,
        |i| i.step = 0.0,
    ];
    for count in [0, 1] {
        for from in 0..=wrongs.len() {
            let squared = bytes_of(&[Record::product(0, 1.0, 0, 0)]);
            let mut input = Input { count, table: squared, ..decay() };
            for wrong in wrongs[from..].iter().rev() {
                wrong(&mut input);
            }
            list.push(Case::of("in the order of the refusals", &input));
        }
    }
    // Every end of an input, an empty one to begin with; and with seventeen components.
    let whole = decay().bytes();
    for end in 0..whole.len() {
        list.push(Case { kind: "cut at every byte", bytes: whole[..end].to_vec() });
    }
    for n in [17, 255] {
        let many = vec![1.0; usize::from(n)];
        let bytes = Input { n, absolute: many.clone(), state: many, ..decay() }.bytes();
        for end in [1, 4, 28, 100, bytes.len() - 17, bytes.len() - 16, bytes.len()] {
            list.push(Case { kind: "n not 1 to 16", bytes: bytes[..end].to_vec() });
        }
    }
    for rule in 0..RULES.len() {
        let table = random_table::broken(rule, 3, &mut Random::new(rule as u64));
        list.push(Case::of("one rule of the table broken", &Input { table, ..logging() }));
    }
    for records in [0, 1, RECORDS - 1, RECORDS, RECORDS + 1, 4095, 4096, 4097, 5000, 100_000] {
        let table = bytes_of(&vec![Record::linear(0, -0.001, 0); records]);
        list.push(Case::of("tables of every length", &Input { table: table.clone(), ..decay() }));
        let table = table[..table.len().saturating_sub(1)].to_vec();
        list.push(Case::of("tables of every length", &Input { table, ..decay() }));
    }
    // The time overflows on the way, taken by the table or not.
    for records in [vec![], vec![Record::by_time(0, 0.0, 0)]] {
        for step in [1.0, -1.0, 1.5] {
            let (count, step) = (u16::MAX, step * power_of_two(1021));
            let input = Input { count, step, table: bytes_of(&records), ..decay() };
            list.push(Case::of("a time that overflows on the way", &input));
        }
    }
    list
}

struct RandomInputs {
    random: Random,
    waiting: VecDeque<Case>,
}

impl Iterator for RandomInputs {
    type Item = Case;

    fn next(&mut self) -> Option<Case> {
        if self.waiting.is_empty() {
            self.draw();
        }
        self.waiting.pop_front()
    }
}

impl RandomInputs {
    fn push(&mut self, kind: &'static str, input: &Input) {
        self.waiting.push_back(Case::of(kind, input));
    }

    fn draw(&mut self) {
        let mut input = self.valid();
        let n = input.state.len();
        let random = &mut self.random;
        match random.below(40) {
            0..=11 => self.push("valid", &input),
            12..=15 => {
                input.table = random_table::broken(random.below(RULES.len()), n, random);
                self.push("one rule of the table broken", &input);
            }
            16..=18 => {
                let mut bytes = input.bytes();
                bytes.truncate(random.below(bytes.len()));
                self.waiting.push_back(Case { kind: "cut at a random byte", bytes });
            }
            19 if random.chance(4) => {
                input = Input { count: 3, table: bytes_of(&random_table::well_formed(1, random)), ..decay() };
                input.table.truncate(48);
                let bytes = input.bytes();
                for end in 0..=bytes.len() {
                    self.waiting.push_back(Case { kind: "cut at every byte", bytes: bytes[..end].to_vec() });
                }
            }
            19 | 20 => {
                input.n = random.pick(&[0, 17, 18, 128, 255]);
                let places = random.pick(&[0, n, usize::from(input.n)]);
                input.absolute.resize(places, 1.0);
                input.state.resize(places, 0.5);
                self.push("n not 1 to 16", &input);
            }
            21 => {
                input.scheme = random.pick(&[16, 17, 128, 255]);
                self.push("no scheme", &input);
            }
            22 | 23 => {
                let bad = [0.0, -0.0, -1e-6, not_finite(random), not_finite(random)];
                let bad = random.pick(&bad);
                match random.below(n + 1) {
                    0 => input.relative = bad,
                    place => input.absolute[place - 1] = bad,
                }
                self.push("a bad tolerance", &input);
            }
            24 | 25 => {
                let bad = not_finite(random);
                match random.below(n + 1) {
                    0 => input.time = bad,
                    place => input.state[place - 1] = bad,
                }
                self.push("a time or state not finite", &input);
            }
            26 => {
                let bad = [0.0, -0.0, not_finite(random), not_finite(random)];
                input.step = random.pick(&bad);
                self.push("a step zero or not finite", &input);
            }
            27..=29 => {
                input.table = bytes_of(&random_table::huge(n, random));
                if random.chance(4) {
                    input.count = 0;
                }
                self.push("huge coefficients", &input);
            }
            30 => {
                input.count = 0;
                self.push("no steps", &input);
            }
            31 | 32 => {
                let input = grows(input, random);
                self.push("65,535 steps, refused on the way", &input);
            }
            33 => {
                let records = random.pick(&[257, 300, 512, 1000, 4096, 4097, 5000]);
                input.table = bytes_of(&vec![Record::constant(0, 0.5); records]);
                let odd = random.pick(&[0, 0, 1, 15]);
                input.table.truncate(input.table.len() - odd);
                self.push("over 4,096 bytes of table", &input);
            }
            34 | 35 => {
                let Overflow { time, step, state, records } = random_table::overflow(n, random);
                input = Input { time, step, state, table: bytes_of(&records), ..input };
                self.push("overflows late", &input);
            }
            36 | 37 => {
                self.spoil(&mut input);
                self.spoil(&mut input);
                self.push("several things wrong", &input);
            }
            _ => {
                let mut bytes = input.bytes();
                for _ in 0..=random.below(4) {
                    // Not the step count, so that no run is long.
                    let later = 4 + random.below(bytes.len() - 4);
                    let place = random.pick(&[0, 1, later, later, later]);
                    bytes[place] ^= 1 << random.below(8);
                }
                self.waiting.push_back(Case { kind: "bits flipped", bytes });
            }
        }
    }

    /// Its arithmetic may still be refused on the way.
    fn valid(&mut self) -> Input {
        let random = &mut self.random;
        let n = if random.chance(4) { 1 + random.below(16) } else { random.pick(&[1, 1, 2, 2, 3]) };
        let size = random.pick(&[1.0, 1.0, 1.0, 1e-3, 1e3, 1e-308]);
        let count = if n < 3 && random.chance(12) {
            random.pick(&[255, 256, 257, 513])
        } else {
            1 + random.below(20) as u16
        };
        Input {
            n: n as u8,
            scheme: random.below(16) as u8,
            count,
            time: random.pick(&[0.0, 1.0, -3.5, 1e3]),
            step: random.pick(&[0.1, 0.01, 0.03125, 1e-4, -0.01]),
            relative: random.pick(&[1e-3, 1e-6, 1.0, 1e-320]),
            absolute: (0..n).map(|_| random.pick(&[1e-6, 1.0, 1e3, 5e-324, 1e300])).collect(),
            state: (0..n).map(|_| size * random.unit()).collect(),
            table: bytes_of(&random_table::well_formed(n, random)),
        }
    }

    /// One thing wrong, whatever else is.
    fn spoil(&mut self, input: &mut Input) {
        let n = input.state.len();
        let random = &mut self.random;
        match random.below(7) {
            0 => input.scheme = 16,
            1 => input.relative = -1.0,
            2 => input.absolute[random.below(n)] = 0.0,
            3 => input.time = not_finite(random),
            4 => input.state[random.below(n)] = not_finite(random),
            5 => input.table = random_table::broken(random.below(RULES.len()), n, random),
            _ => input.step = 0.0,
        }
    }
}

fn not_finite(random: &mut Random) -> f64 {
    let nan = random_table::nan(random);
    random.pick(&[nan, f64::INFINITY, f64::NEG_INFINITY])
}

/// The largest step count over a run that leaves the doubles long before: growth, a pole, or the clock.
fn grows(input: Input, random: &mut Random) -> Input {
    let n = 1 + random.below(2);
    let (records, step) = match random.below(4) {
        0 => (vec![Record::linear(0, 1.0, 0), Record::linear(n as u8 - 1, 0.5, 0)], random.pick(&[0.7, 8.0])),
        // LawsonEuler's run does not leave the doubles at the pole.
        1 if input.scheme != 0 => {
            (vec![Record::product(0, 1.0, 0, 0), Record::constant(n as u8 - 1, 1.0)], 0.0625)
        }
        _ => {
            let by_time = Record::by_time(0, random.pick(&[0.0, power_of_two(-1074)]), 0);
            let records = if random.chance(4) { vec![] } else { vec![by_time] };
            (records, power_of_two(1014 + random.below(9) as i32))
        }
    };
    Input {
        n: n as u8,
        count: u16::MAX,
        time: 0.0,
        step,
        absolute: vec![1.0; n],
        state: vec![1.0; n],
        table: bytes_of(&records),
        ..input
    }
}
