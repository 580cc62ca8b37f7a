//! The fixed script's places of questions: duplicates, late and early answers and places that no question has, in attempts of
//! every scheme; 9 among the other numbers; places that count from 0 again; and sessions that come with answers.

use crate::bits::power_of_two;
use crate::console::Call;
use crate::field::Field;
use crate::fixed_script::{
    accept, begin, difference, forged, in_attempt, matrix, opening, resting, supply,
};
use crate::model::{Answer, Attempt, Opening, Session, Vector, vector};
use crate::old_session::OldSession;
use crate::pass::QUESTIONS;
use crate::random::Random;
use crate::script::Script;
use crate::tolerances::alike;

pub fn places(script: &mut Script) {
    let mut random = Random::new(51);
    for (scheme, questions) in QUESTIONS.into_iter().enumerate() {
        for supplied in [true, false] {
            let run = Run::new(scheme, 1 + (scheme + questions) % 3, supplied, &mut random);
            run.with_and_without_strays(script);
        }
    }
    // Twenty questions, the most there are.
    Run::new(5, 16, false, &mut random).with_and_without_strays(script);
    for (scheme, n, supplied) in [(5, 1, true), (2, 2, false), (13, 3, false)] {
        Run::new(scheme, n, supplied, &mut random).begun_anew(script);
    }
    order(script);
    sessions_with_answers(script);
}

/// A supply that may be made once more.
#[derive(Clone, Copy)]
struct Supply {
    place: u8,
    answer: Vector,
    n: usize,
}

impl Supply {
    fn call(self) -> Call {
        Call::Supply { place: self.place, answer: self.answer, lent: self.n }
    }

    fn at(self, place: u8) -> Call {
        Self { place, ..self }.call()
    }
}

/// A run along a field.
struct Run {
    field: Field,
    opening: Opening,
    supplied: bool,
}

impl Run {
    fn new(scheme: usize, n: usize, supplied: bool, random: &mut Random) -> Self {
        let field = Field::new(n, 2.0, random);
        let state: Vec<f64> = (0..n).map(|_| random.unit()).collect();
        let opening = Opening {
            n: n as u8,
            absolute: alike(n, 1e-6),
            derivative: vector(&field.at(0.0, &state)),
            state: vector(&state),
            ..opening(scheme, 0.0, 0.0)
        };
        Self { field, opening, supplied }
    }

    fn n(&self) -> usize {
        self.field.dimension()
    }

    fn begin(&self, step: f64) -> Call {
        if !self.supplied {
            return difference(step, self.n());
        }
        let jacobian = matrix(&self.field.jacobian(&self.opening.state[..self.n()]));
        Call::Begin { supplied: true, step, jacobian, lent: self.n() }
    }

    /// The right answer to the question that is open, if one is.
    fn answer(&self, told: Option<Answer>, lent: &[f64]) -> Option<Supply> {
        let Some(Answer::Ask { place, time }) = told else { return None };
        Some(Supply { place, answer: vector(&self.field.at(time, lent)), n: self.n() })
    }

    /// Two steps, then the same with strays between the answers: both runs tell and end the same.
    fn with_and_without_strays(&self, script: &mut Script) {
        for strays in [false, true] {
            script.call(&Call::Open(self.opening.clone()));
            for step in [0.125, -0.03] {
                self.step(script, step, strays);
            }
            script.call(&Call::Show);
        }
    }

    fn step(&self, script: &mut Script, step: f64, strays: bool) {
        let mut told = script.call(&self.begin(step));
        let mut taken: Option<Supply> = None;
        while let Some(answer) = self.answer(told.answer, &told.lent) {
            if strays {
                self.strays(script, answer, taken);
            }
            told = script.call(&answer.call());
            taken = Some(answer);
        }
        let last = taken.unwrap_or(Supply { place: 0, answer: vector(&[]), n: self.n() });
        if strays {
            no_question(script, last);
        }
        let session = &script.console.session;
        let derivative = vector(&self.field.at(session.time + session.step, &told.lent));
        script.call(&Call::Accept { derivative });
        if strays {
            no_question(script, last);
        }
    }

    /// The answer taken last once more; the answer that is wanted at that place, at the first, at the next and at one that no
    /// question has.
    fn strays(&self, script: &mut Script, wanted: Supply, taken: Option<Supply>) {
        if let Some(taken) = taken {
            script.call(&taken.call());
            script.call(&wanted.at(taken.place));
            if taken.place > 0 {
                script.call(&wanted.at(0));
            }
        }
        script.call(&wanted.at(wanted.place + 1));
        script.call(&wanted.at(255));
        if wanted.place == 1 {
            script.call(&Call::Show);
        }
    }

    /// Dropped after two answers, and after one; each time the next attempt counts from 0, and an answer meant for the old one
    /// is none to it.
    fn begun_anew(&self, script: &mut Script) {
        script.call(&Call::Open(self.opening.clone()));
        for answers in [2, 1] {
            let mut told = script.call(&self.begin(0.125));
            for _ in 0..answers {
                let answer = self.answer(told.answer, &told.lent).expect("more is asked");
                told = script.call(&answer.call());
            }
            let late = self.answer(told.answer, &told.lent).expect("more is asked");
            script.call(&Call::Drop);
            script.call(&late.call());
            script.call(&late.at(0));
            let told = script.call(&self.begin(0.0625));
            script.call(&late.call());
            let first = self.answer(told.answer, &told.lent).expect("something is asked");
            script.call(&first.call());
            script.call(&first.call());
            script.call(&Call::Drop);
        }
        script.call(&Call::Show);
        self.step(script, 0.125, true);
        script.call(&Call::Show);
    }
}

/// Where nothing is asked: the answer taken last once more, and at other places.
fn no_question(script: &mut Script, last: Supply) {
    for place in [last.place, last.place + 1, 0, 255] {
        script.call(&last.at(place));
    }
}

/// One thing wrong beside the place, and then that alone: 1, 2 and 7 come before 9, all others behind it.
fn order(script: &mut Script) {
    let on_the_session: [fn(&mut Session); 12] = [
        |s| s.state[5] = -0.0,
        |s| s.n = 0,
        |s| s.n = 17,
        |s| s.answers[1][0] = 1.0,
        |s| s.history_held = true,
        |s| s.scheme = 16,
        |s| s.absolute[0] = 0.0,
        |s| s.relative = f64::NAN,
        |s| s.step = 0.0,
        |s| s.time = f64::INFINITY,
        |s| s.state[0] = f64::NAN,
        |s| s.jacobian[0] = f64::NEG_INFINITY,
    ];
    for wrong in on_the_session {
        let mut session = in_attempt(0);
        wrong(&mut session);
        script.call(&Call::Load(Box::new(session)));
        for place in [1, 255, 0] {
            script.call(&supply(place, 1.5));
        }
        script.call(&Call::Show);
    }
    // No question is open: at rest, with all answers in, and with more of them than are asked for, which is 2.
    for session in [resting(), in_attempt(1), in_attempt(2)] {
        script.call(&Call::Load(Box::new(session)));
        for place in [0, 1, 2, 3, 255] {
            script.call(&supply(place, 1.5));
        }
        script.call(&Call::Show);
    }
    let nan = f64::NAN;
    script.call(&Call::Load(Box::new(in_attempt(0))));
    for (values, lent) in [
        (&[nan, 1.0][..], 1),
        (&[1.0, -0.0], 1),
        (&[1.5], 0),
        (&[1.5], 2),
        (&[1.5], 512),
        (&[nan], 1),
        (&[f64::INFINITY], 1),
        (&[1e300], 1),
        (&[1.5], 1),
    ] {
        for place in [1, 255, 0] {
            script.call(&Call::Supply { place, answer: vector(values), lent });
        }
    }
    script.call(&Call::Show);
    // A column's answer that the Jacobian cannot be made of, and an exponential that is refused, by 6 behind 9.
    script.call(&Call::Open(opening(1, 0.0, 0.0)));
    script.call(&difference(1.0, 1));
    for place in [1, 0] {
        script.call(&supply(place, power_of_two(998)));
    }
    script.call(&Call::Load(Box::new(forged(3, 1.0, -power_of_two(32), &[1.0]))));
    for place in [0, 2, 1] {
        script.call(&supply(place, 1.0));
    }
    script.call(&Call::Show);
}

/// HochOst4 with so many answers, loaded or brought over: the open question's place is their number.
fn sessions_with_answers(script: &mut Script) {
    for supplied in [true, false] {
        let questions = QUESTIONS[5] + usize::from(!supplied);
        for count in 0..=questions {
            let mut session = forged(5, 1.0, -1.0, &vec![1.0; count]);
            if !supplied {
                session.attempt = Attempt::Differenced;
                session.jacobian[0] = 0.0;
            }
            for old in [false, true] {
                script.call(&if old {
                    Call::BringOver(Box::new(OldSession::of(&session, session.absolute[0])))
                } else {
                    Call::Load(Box::new(session.clone()))
                });
                for place in (0..=questions).filter(|place| *place != count) {
                    script.call(&supply(place, 1.0));
                }
                script.call(&supply(count, 1.0));
                script.call(&supply(count, 1.0));
            }
        }
        script.call(&accept(1.0));
        script.call(&Call::Show);
    }
    // Every byte but the place of the open question.
    script.call(&Call::Load(Box::new(forged(5, 1.0, -1.0, &[1.0; 2]))));
    for place in (0..=255).filter(|place| *place != 2) {
        script.call(&supply(place, 1.0));
    }
    script.call(&Call::Show);
    for place in [2, 2, 3] {
        script.call(&supply(place, 1.0));
    }
    script.call(&accept(1.0));
    script.call(&begin(0.5, -1.0));
    for place in [3, 0, 0] {
        script.call(&supply(place, 1.0));
    }
    script.call(&Call::Show);
}
