//! Random scripts: a host that steps along a field, and now and then errs, damages a frame, forges a session, calls out
//! of turn, or answers another question than the one that is open.

use crate::bits::power_of_two;
use crate::bytes::Reader;
use crate::console::{Call, SHOW, SUPPLY, WHOLE_STEP, read_call};
use crate::field::Field;
use crate::model::{ANSWERS, Answer, Attempt, Matrix, Opening, PLACES, Session, Vector};
use crate::old_session::OldSession;
use crate::pass::{ETD2, QUESTIONS};
use crate::random::Random;
use crate::random_table::{self, Overflow};
use crate::script::Script;
use crate::table::{RULES, Table, bytes_of};
use crate::tolerances::alike;

/// A script of about so many calls.
pub fn random_script(seed: u64, calls: usize) -> Script {
    extended(Script::default(), seed, calls)
}

/// The script with about so many random calls after its own.
pub fn extended(script: Script, seed: u64, calls: usize) -> Script {
    let before = script.tally.calls();
    let mut host = Host::new(script, seed);
    while host.script.tally.calls() < before + calls {
        host.turn();
    }
    host.script.call(&Call::Show);
    host.script
}

/// The script as a bad line would bring it: bits flipped, odd bytes at the head of a call, and an end out of place.
pub fn damaged(script: &[u8], seed: u64) -> Vec<u8> {
    let mut random = Random::new(seed ^ 0xda3a_6ed0);
    let mut reader = Reader::new(script);
    let mut heads = Vec::new();
    loop {
        let at = script.len() - reader.left();
        if read_call(&mut reader).is_none() {
            break;
        }
        heads.push(at);
    }
    let mut bytes = script.to_vec();
    for _ in 0..random.below(30) {
        let place = random.below(bytes.len());
        bytes[place] ^= 1 << random.below(8);
    }
    // After the op come a scheme, a dimension, a place, a size, an order, or what counts as 0 or 1.
    for _ in 0..random.below(30) {
        let place = random.pick(&heads) + 1 + random.below(5);
        if let Some(byte) = bytes.get_mut(place).filter(|_| !heads.contains(&place)) {
            *byte = random.pick(&[0, 1, 2, 3, 16, 17, 20, 21, 128, 255]);
        }
    }
    match random.below(4) {
        0 => bytes.truncate(random.below(bytes.len())),
        1 => bytes.extend([random.pick(&[WHOLE_STEP + 1, WHOLE_STEP + 2, 200, 255]), 4, 4, SHOW]),
        2 => bytes.extend([&[SUPPLY, 0][..], &[0; PLACES * 8], &[1, 2], &[SHOW]].concat()),
        _ => {
            let length = random.pick(&[8193, 8208, u16::MAX]);
            bytes.push(WHOLE_STEP);
            bytes.extend([0; 8]);
            bytes.extend(length.to_le_bytes());
            bytes.extend(vec![0; usize::from(length)]);
            bytes.push(SHOW);
        }
    }
    bytes
}

/// Numbers that a test may trip over, finite or not.
const ODD: [f64; 18] = [
    f64::NAN,
    f64::INFINITY,
    f64::NEG_INFINITY,
    0.0,
    -0.0,
    1.0,
    -1.0,
    f64::MAX,
    f64::MIN,
    f64::MIN_POSITIVE,
    5e-324,
    f64::EPSILON,
    1.1102230246251565e-16,
    2147483648.0,
    2147483648.5,
    1e20,
    -1e200,
    6.7e307,
];

struct Host {
    random: Random,
    script: Script,
    field: Field,
    /// The right-hand side in place of the field, and of its dimension.
    table: Option<Vec<u8>>,
    /// What was asked last, or the candidate with its time.
    shown: Option<(f64, Vec<f64>)>,
    /// The number by which the last call was refused, or 0.
    refused: u8,
}

impl Host {
    fn new(script: Script, seed: u64) -> Self {
        let mut random = Random::new(seed);
        let field = Field::new(1, 1.0, &mut random);
        Self { random, script, field, table: None, shown: None, refused: 0 }
    }

    fn session(&self) -> &Session {
        &self.script.console.session
    }

    /// The session's dimension, brought within the places if it is forged.
    fn n(&self) -> usize {
        usize::from(self.session().n).clamp(1, PLACES)
    }

    fn call(&mut self, call: Call) {
        let at = self.session().time;
        let told = self.script.call(&call);
        self.refused = 0;
        match told.answer {
            Some(Answer::Refused(number)) => self.refused = number,
            Some(Answer::Ask { time, .. }) => self.shown = Some((time, told.lent)),
            Some(Answer::Ready { .. }) => {
                let time = at + self.session().step;
                self.shown = Some((time, told.lent));
            }
            _ => {}
        }
    }

    fn turn(&mut self) {
        match self.random.below(100) {
            0..=4 => self.forge(),
            5..=8 => self.bare(),
            9..=10 => self.call(Call::Show),
            11..=13 => {
                let opening = self.damaged_opening();
                self.call(Call::Open(opening));
            }
            14..=16 => {
                let largest = self.largest();
                self.call(Call::FirstStep { largest });
            }
            17..=18 => self.call(Call::Drop),
            19..=27 => self.err(),
            28 => self.overflow(),
            _ => self.forward(),
        }
    }

    /// What a host would do next.
    fn forward(&mut self) {
        let session = self.session();
        let is_session =
            (1..=PLACES).contains(&usize::from(session.n)) && usize::from(session.scheme) < QUESTIONS.len();
        let attempt = session.attempt;
        // A host that was refused gives the attempt up, or the run; after a stray answer it goes on.
        let gives_up = ![0, 9].contains(&self.refused) && self.random.chance(2);
        if gives_up && self.refused == 6 && attempt != Attempt::None {
            self.call(Call::Drop);
            return;
        }
        if !is_session || gives_up || (attempt == Attempt::None && self.random.chance(8)) {
            let opening = self.opening();
            self.call(Call::Open(opening));
            return;
        }
        let columns = if attempt == Attempt::Differenced { self.n() } else { 0 };
        let questions = columns + QUESTIONS[usize::from(self.session().scheme)];
        let answered = usize::from(self.session().count);
        if attempt == Attempt::None {
            let own = self.table.clone().filter(|_| self.field.dimension() == self.n());
            let call = match own {
                Some(table) if !self.random.chance(6) => Call::WholeStep { step: self.step(), table },
                _ => self.begin(),
            };
            self.call(call);
        } else if answered < questions {
            self.supply();
        } else if self.random.chance(8) {
            self.call(Call::Drop);
        } else {
            let derivative = self.derivative();
            self.call(Call::Accept { derivative });
        }
    }

    /// Supplies the answer that is wanted; now and then with another place, or more than once.
    fn supply(&mut self) {
        let call = Call::Supply { place: self.place(20), answer: self.derivative(), lent: self.n() };
        self.call(call.clone());
        let refused = self.refused;
        while self.random.chance(20) {
            self.call(call.clone());
            self.refused = refused;
        }
    }

    /// The open question's place; one in so many times another: an earlier one, a later one, one that no question has, any.
    fn place(&mut self, strays: usize) -> u8 {
        let open = self.session().count;
        if !self.random.chance(strays) {
            return open;
        }
        match self.random.below(6) {
            0 => open.wrapping_sub(1),
            1 | 2 => self.random.below(usize::from(open).max(1)) as u8,
            3 => open.wrapping_add(1),
            4 => self.random.pick(&[16, 19, 20, 255, 255, 255]),
            _ => self.random.below(256) as u8,
        }
    }

    fn opening(&mut self) -> Opening {
        let random = &mut self.random;
        let n = if random.chance(4) { 1 + random.below(PLACES) } else { random.pick(&[1, 1, 2, 2, 3]) };
        let scheme = if random.chance(6) { ETD2 } else { random.below(16) };
        let stiffness = random.pick(&[0.0, 1.0, 1.0, 30.0, 1e3, 1e5, 1e8, 1e12]);
        self.field = Field::new(n, stiffness, random);
        self.table = random.chance(4).then(|| bytes_of(&random_table::well_formed(n, random)));
        let time = random.pick(&[0.0, 1.0, -3.5, 1e3]);
        let size = random.pick(&[1.0, 1.0, 1.0, 1.0, 1.0, 1e-3, 1e3, 1e3, 1e-308, 1e306]);
        let state = self.vector(n, size);
        let held = scheme == ETD2 && self.random.chance(2);
        let history = if held { self.vector(n, size) } else { [0.0; PLACES] };
        let derivative = self.right_hand_side(time, &state[..n]);
        Opening {
            scheme: scheme as u8,
            n: n as u8,
            history_held: held,
            time,
            relative: self.random.pick(&[1e-3, 1e-6, 1.0, 1e-320]),
            absolute: self.tolerances(n),
            state,
            derivative,
            history,
        }
    }

    /// By the table if there is one, otherwise by the field.
    fn right_hand_side(&self, time: f64, state: &[f64]) -> Vector {
        if let Some(table) = self.table.as_ref().and_then(|bytes| Table::read(bytes, state.len())) {
            return table.derivative(time, state);
        }
        let mut derivative = [0.0; PLACES];
        derivative[..state.len()].copy_from_slice(&self.field.at(time, state));
        derivative
    }

    /// All equal, or all but one, or each its own.
    fn tolerances(&mut self, n: usize) -> Vector {
        let mut absolute = alike(n, self.tolerance());
        match self.random.below(5) {
            0 | 1 => {}
            2 => absolute[self.random.below(n)] = self.tolerance(),
            _ => absolute[..n].fill_with(|| self.tolerance()),
        }
        absolute
    }

    fn tolerance(&mut self) -> f64 {
        let size = self.random.pick(&[1e-6, 1e-9, 1.0, 1.0, 1e3, 1e300, 5e-324]);
        if self.random.chance(2) { size } else { size * (1.0 + self.random.unit().abs()) }
    }

    /// Puts a number that is no tolerance, or an odd one, into one of the first n places; every third time past them.
    fn damage_tolerances(&mut self, n: usize, absolute: &mut Vector) {
        let n = n.min(PLACES);
        let past = n == 0 || n < PLACES && self.random.chance(3);
        let place = if past { n + self.random.below(PLACES - n) } else { self.random.below(n) };
        let bad = if past { &[-0.0, 1e-6][..] } else { &[f64::NAN, f64::INFINITY, 0.0, -0.0, -1e-6] };
        absolute[place] = if self.random.chance(2) { self.random.pick(bad) } else { self.odd() };
    }

    fn damaged_opening(&mut self) -> Opening {
        let mut opening = self.opening();
        for _ in 0..=self.random.below(2) {
            match self.random.below(10) {
                0 => opening.n = self.random.pick(&[0, 17, 200, 255, 1, 16]),
                1 => opening.scheme = self.random.pick(&[16, 17, 255, 13, 0]),
                2 => opening.history_held = !opening.history_held,
                3 => opening.time = self.odd(),
                4 => opening.relative = self.odd(),
                5 | 6 => self.damage_tolerances(usize::from(opening.n), &mut opening.absolute),
                7 => self.damage(&mut opening.state),
                8 => self.damage(&mut opening.derivative),
                _ => self.damage(&mut opening.history),
            }
        }
        opening
    }

    fn begin(&mut self) -> Call {
        let n = self.n();
        let mut jacobian: Matrix = [0.0; PLACES * PLACES];
        let supplied = !self.random.chance(3);
        if supplied {
            let state = self.session().state[..n].to_vec();
            let entries = match self.random.below(6) {
                0 => (0..n * n).map(|_| 3.0 * self.random.unit()).collect(),
                1 => {
                    // One damaged word.
                    let mut entries = self.field_jacobian(&state);
                    let place = self.random.below(n * n);
                    entries[place] = self.word();
                    entries
                }
                _ => self.field_jacobian(&state),
            };
            jacobian[..n * n].copy_from_slice(&entries);
        }
        Call::Begin { supplied, step: self.step(), jacobian: Box::new(jacobian), lent: n }
    }

    /// The field's, if the field is of the session's dimension.
    fn field_jacobian(&mut self, state: &[f64]) -> Vec<f64> {
        if self.field.dimension() == state.len() {
            self.field.jacobian(state)
        } else {
            vec![0.25; state.len() * state.len()]
        }
    }

    fn step(&mut self) -> f64 {
        match self.random.below(12) {
            0 => self.random.unit() * power_of_two(self.random.below(40) as i32 - 30),
            1 => -0.01,
            2 => 1e-160,
            3 => power_of_two(self.random.below(2000) as i32 - 1000),
            _ => self.random.pick(&[0.1, 0.01, 0.03125, 1.0, 1e-4]),
        }
    }

    /// The derivative at what was shown last; now and then a number that has nothing to do with it.
    fn derivative(&mut self) -> Vector {
        let n = self.n();
        let fits = |shown: &&(f64, Vec<f64>)| shown.1.len() == n;
        match self.shown.as_ref().filter(fits) {
            Some((time, state)) if self.field.dimension() == n && !self.random.chance(10) => {
                self.script.tally.note("answers of a smooth right-hand side");
                self.right_hand_side(*time, state)
            }
            _ => {
                self.script.tally.note("answers out of the air");
                let size = self.random.pick(&[1.0, 1e3, 1e10, 1e305]);
                self.vector(n, size)
            }
        }
    }

    fn vector(&mut self, n: usize, size: f64) -> Vector {
        let mut vector = [0.0; PLACES];
        for place in &mut vector[..n] {
            *place = size * self.random.unit();
        }
        vector
    }

    fn odd(&mut self) -> f64 {
        self.random.pick(&ODD)
    }

    /// A finite word of any size; every third time one that brings the Rust's squaring count to 1024, or near it.
    fn word(&mut self) -> f64 {
        if self.random.chance(3) {
            let exponent = self.random.pick(&[1020, 1021, 1022, 1022, 1022, 1023]);
            self.random.pick(&[1.0, -1.0]) * (1.0 + 0.5 * self.random.unit().abs()) * power_of_two(exponent)
        } else {
            self.random.any_finite()
        }
    }

    fn largest(&mut self) -> f64 {
        if self.random.chance(3) { self.odd() } else { self.random.pick(&[0.005, 1.0, f64::INFINITY, 1e-10]) }
    }

    /// Puts an odd number into a place, in use or not; every other time among the first n.
    fn damage(&mut self, places: &mut [f64]) {
        let reach = if self.random.chance(2) { self.n() } else { places.len() };
        let place = self.random.below(reach.min(places.len()));
        places[place] = self.odd();
    }

    /// Odd lengths, and mostly the right one.
    fn lent(&mut self, right: usize) -> usize {
        if self.random.chance(3) {
            let longer = (right + 1).min(512);
            self.random.pick(&[0, longer, right.saturating_sub(1), 16, 512])
        } else {
            right
        }
    }

    /// A call out of turn, or with something wrong in what it hands in.
    fn err(&mut self) {
        let n = self.n();
        let call = match self.random.below(5) {
            0 => {
                let Call::Begin { mut supplied, mut step, mut jacobian, .. } = self.begin() else {
                    unreachable!()
                };
                match self.random.below(4) {
                    0 => step = self.odd(),
                    1 => supplied = !supplied,
                    2 => self.damage(&mut jacobian[..]),
                    _ => {}
                }
                let lent = self.lent(n);
                Call::Begin { supplied, step, jacobian, lent }
            }
            1 | 2 => {
                let mut answer = self.derivative();
                if self.random.chance(2) {
                    self.damage(&mut answer);
                }
                Call::Supply { place: self.place(4), answer, lent: self.lent(n) }
            }
            3 => {
                let mut derivative = self.derivative();
                if self.random.chance(2) {
                    self.damage(&mut derivative);
                }
                Call::Accept { derivative }
            }
            _ => self.odd_whole_step(),
        };
        self.call(call);
    }

    /// A whole step out of turn, or with a rule of the table broken, huge coefficients or an odd step.
    fn odd_whole_step(&mut self) -> Call {
        let n = self.n();
        let broken = |random: &mut Random| random_table::broken(random.below(RULES.len()), n, random);
        let mut step = self.step();
        let table = match self.random.below(6) {
            0 | 1 => broken(&mut self.random),
            2 => {
                step = self.odd();
                broken(&mut self.random)
            }
            3 => {
                step = self.odd();
                bytes_of(&random_table::well_formed(n, &mut self.random))
            }
            4 => bytes_of(&random_table::huge(n, &mut self.random)),
            _ => bytes_of(&random_table::well_formed(n, &mut self.random)),
        };
        Call::WholeStep { step, table }
    }

    /// Whole steps on which something overflows late.
    fn overflow(&mut self) {
        let mut opening = self.opening();
        let n = usize::from(opening.n);
        let Overflow { time, step, state, records } = random_table::overflow(n, &mut self.random);
        let table = bytes_of(&records);
        self.table = Some(table.clone());
        opening.time = time;
        opening.state[..n].copy_from_slice(&state);
        opening.derivative = self.right_hand_side(time, &state);
        opening.history[..n].fill(0.0);
        self.call(Call::Open(opening));
        for _ in 0..=self.random.below(2) {
            self.call(Call::WholeStep { step, table: table.clone() });
            self.call(Call::Show);
        }
    }

    /// Loads a session that no call made, or brings an old one over, and makes a few calls with it.
    fn forge(&mut self) {
        let mut session = if self.random.chance(2) { self.consistent() } else { self.session().clone() };
        if !self.random.chance(3) {
            for _ in 0..=self.random.below(3) {
                self.tamper(&mut session);
            }
        }
        let call = if self.random.chance(3) {
            Call::BringOver(Box::new(self.old(&session)))
        } else {
            Call::Load(Box::new(session))
        };
        self.script.call(&call);
        for _ in 0..=self.random.below(3) {
            match self.random.below(10) {
                0 => self.call(Call::Drop),
                1 => {
                    let largest = self.largest();
                    self.call(Call::FirstStep { largest });
                }
                2 | 3 => self.err(),
                4 => {
                    let call = self.odd_whole_step();
                    self.call(call);
                }
                5 | 6 => {
                    let place = self.place(1);
                    let answer = self.derivative();
                    self.call(Call::Supply { place, answer, lent: self.n() });
                }
                _ => self.forward(),
            }
        }
        self.call(Call::Show);
    }

    /// A session in the middle of an attempt, its answers out of the air.
    fn consistent(&mut self) -> Session {
        let opening = self.opening();
        let (_, mut session) = Session::open(&opening);
        let n = usize::from(session.n);
        if n == 0 {
            return session;
        }
        session.step = self.step();
        let size = self.random.pick(&[0.01, 1.0, 1.0, 100.0, 1e12, 1e304]);
        let questions = QUESTIONS[usize::from(session.scheme)];
        let questions = if self.random.chance(2) {
            session.attempt = Attempt::Supplied;
            for place in &mut session.jacobian[..n * n] {
                *place = size * self.random.unit();
            }
            questions
        } else {
            session.attempt = Attempt::Differenced;
            questions + n
        };
        let count = if self.random.chance(2) { questions } else { self.random.below(questions + 1) };
        session.count = count as u8;
        for place in 0..count {
            let size = if self.random.chance(8) { size * 1e4 } else { 1.0 };
            session.answers[place] = self.vector(n, size);
        }
        session
    }

    /// The session as it would have been saved before each component had a tolerance of its own.
    fn old(&mut self, session: &Session) -> OldSession {
        let absolute = if self.random.chance(6) { self.odd() } else { self.tolerance() };
        let mut old = OldSession::of(session, absolute);
        if self.random.chance(10) {
            old.n = self.random.pick(&[0, 16, 17, 128, 255]);
        }
        old
    }

    fn tamper(&mut self, session: &mut Session) {
        match self.random.below(16) {
            0 => session.scheme = self.random.pick(&[16, 255, 13, 0, 5, 15]),
            1 => {
                session.n = self.random.pick(&[0, 17, 255, 1, 2, 16]);
                if self.random.chance(2) {
                    session.absolute = alike(usize::from(session.n), self.tolerance());
                }
            }
            2 => session.history_held = !session.history_held,
            3 => {
                let kinds = [Attempt::None, Attempt::Supplied, Attempt::Differenced];
                session.attempt = self.random.pick(&kinds);
            }
            4 => session.count = self.random.pick(&[0, 1, 2, 3, 4, 19, 20, 21, 255]),
            5 => session.time = self.odd(),
            6 => session.step = self.odd(),
            7 => session.relative = self.odd(),
            8..=10 => self.damage_tolerances(usize::from(session.n), &mut session.absolute),
            11 => self.damage(&mut session.state),
            12 => self.damage(&mut session.derivative),
            13 => self.damage(&mut session.history),
            14 => self.damage(&mut session.jacobian),
            _ => {
                let place = self.random.below(ANSWERS);
                self.damage(&mut session.answers[place]);
            }
        }
    }

    fn bare(&mut self) {
        let call = match self.random.below(3) {
            0 => self.bare_exponential(),
            1 => self.bare_phi_action(),
            _ => self.bare_error_norm(),
        };
        self.call(call);
    }

    fn entries(&mut self, count: usize) -> Vec<f64> {
        let size = self.random.pick(&[1e-3, 0.1, 1.0, 10.0, 300.0, 1e6, 1e9]);
        let mut entries: Vec<f64> = (0..count).map(|_| size * self.random.unit()).collect();
        if count > 0 && self.random.chance(5) {
            self.damage(&mut entries);
        }
        entries
    }

    fn bare_exponential(&mut self) -> Call {
        let size = if self.random.chance(6) {
            self.random.pick(&[0, 20, 21, 255])
        } else {
            1 + self.random.below(8)
        };
        if self.random.chance(5) {
            return self.at_a_power_of_two();
        }
        let places = (size * size).min(512);
        let given = if self.random.chance(8) { self.lent(places) } else { places };
        Call::Exponential {
            size: size as u8,
            entries: self.entries(given),
            lent: if self.random.chance(8) { self.lent(places) } else { places },
        }
    }

    /// A matrix whose row sum is a power of two or a neighbour of it, where the number of squarings changes.
    fn at_a_power_of_two(&mut self) -> Call {
        self.script.tally.note("row sums beside a power of two");
        let power = power_of_two(self.random.below(36) as i32 - 3);
        let norm = self.random.pick(&[power, power.next_up(), power.next_down(), power.next_up().next_up()]);
        let entry = self.random.pick(&[1.0, -1.0]) * norm;
        let other = self.random.unit();
        let entries = self.random.pick(&[[entry, 0.0, 0.0, other], [0.0, other, entry, -0.0]]);
        if self.random.chance(2) {
            Call::Exponential { size: 1, entries: vec![entry], lent: 1 }
        } else {
            Call::Exponential { size: 2, entries: entries.to_vec(), lent: 4 }
        }
    }

    fn bare_phi_action(&mut self) -> Call {
        let n =
            if self.random.chance(8) { self.random.pick(&[0, 16, 17, 22]) } else { 1 + self.random.below(6) };
        let order = if self.random.chance(8) {
            self.random.pick(&[0, 5, 255])
        } else {
            1 + self.random.below(4) as u8
        };
        if self.random.chance(6) {
            return self.growing_phi_action();
        }
        let given = if self.random.chance(8) { self.lent(n) } else { n };
        let scale_a = match self.random.below(8) {
            0 => self.odd(),
            _ => self.random.pick(&[1.0, 0.1, -0.5, 1e-3]),
        };
        Call::PhiAction {
            n: n as u8,
            order,
            scale_a,
            matrix: self.entries((given * given).min(512)),
            input: self.entries(n),
            lent: if self.random.chance(8) { self.lent(n) } else { n },
        }
    }

    /// One whose exponential grows beyond the doubles in one of its last squarings, or just does not.
    fn growing_phi_action(&mut self) -> Call {
        self.script.tally.note("phi actions near the largest double");
        let n = 1 + self.random.below(PLACES);
        let growth = self.random.pick(&[600.0, 720.0, 1400.0, 3000.0, 1e5, 1e8]);
        let mut matrix: Vec<f64> = (0..n * n).map(|_| self.random.unit()).collect();
        for i in 0..n {
            matrix[i * (n + 1)] = growth * (1.0 - 0.3 * self.random.unit().abs());
        }
        Call::PhiAction {
            n: n as u8,
            order: 1 + self.random.below(4) as u8,
            scale_a: self.random.pick(&[1.0, -1.0, 0.5]),
            matrix,
            input: (0..n).map(|_| self.random.unit()).collect(),
            lent: n,
        }
    }

    fn bare_error_norm(&mut self) -> Call {
        let n = 1 + self.random.below(PLACES);
        let size = self.random.pick(&[1.0, 1e-9, 1e200, 1e-300]);
        let mut error = self.vector(n, size);
        let mut state = self.vector(n, 1.0);
        let mut candidate = self.vector(n, 1.0);
        let mut relative = 1e-3;
        let mut absolute = self.tolerances(n);
        if self.random.chance(2) {
            match self.random.below(6) {
                0 => self.damage(&mut error),
                1 => self.damage(&mut state),
                2 => self.damage(&mut candidate),
                3 => relative = self.odd(),
                _ => self.damage_tolerances(n, &mut absolute),
            }
        }
        Call::ErrorNorm {
            n: if self.random.chance(10) { self.random.pick(&[0, 17, 255]) } else { n as u8 },
            relative,
            absolute,
            error,
            state,
            candidate,
        }
    }
}
