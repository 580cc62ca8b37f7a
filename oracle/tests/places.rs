//! The places of questions in the model: each Ask carries one, and supply hands it back.

use oracle::console::{BEFORE, image};
use oracle::field::Field;
use oracle::model::{Answer, Attempt, Opening, PLACES, Session, Vector, vector};
use oracle::pass::QUESTIONS;
use oracle::random::Random;
use oracle::tolerances::alike;

struct Run {
    field: Field,
    supplied: bool,
    session: Session,
    lent: Vec<f64>,
    answer: Answer,
    /// The places that were asked.
    places: Vec<u8>,
}

impl Run {
    fn new(scheme: usize, n: usize, supplied: bool, random: &mut Random) -> Self {
        let field = Field::new(n, 2.0, random);
        let state: Vec<f64> = (0..n).map(|_| random.unit()).collect();
        let (answer, session) = Session::open(&Opening {
            scheme: scheme as u8,
            n: n as u8,
            history_held: false,
            time: 0.5,
            relative: 1e-3,
            absolute: alike(n, 1e-6),
            state: vector(&state),
            derivative: vector(&field.at(0.5, &state)),
            history: vector(&[]),
        });
        assert_eq!(answer, Answer::Resting);
        Self { field, supplied, session, lent: vec![BEFORE; n], answer, places: Vec::new() }
    }

    fn took(&mut self, (answer, session): (Answer, Session)) {
        (self.answer, self.session) = (answer, session);
        if let Answer::Ask { place, .. } = answer {
            self.places.push(place);
        }
    }

    fn begin(&mut self, step: f64) {
        let n = self.lent.len();
        let mut jacobian = [0.0; PLACES * PLACES];
        if self.supplied {
            jacobian[..n * n].copy_from_slice(&self.field.jacobian(&self.session.state[..n]));
        }
        self.places.clear();
        let told = self.session.clone().begin(self.supplied, step, &jacobian, &mut self.lent);
        self.took(told);
    }

    /// The open question's place and the answer to it.
    fn wanted(&self) -> Option<(u8, Vector)> {
        let Answer::Ask { place, time } = self.answer else { return None };
        Some((place, vector(&self.field.at(time, &self.lent))))
    }

    fn supply(&mut self, place: u8, answer: &Vector) {
        let told = self.session.clone().supply(place, answer, &mut self.lent);
        self.took(told);
    }

    /// What a supply tells that must change nothing.
    fn refused(&self, place: u8, answer: &Vector) -> Answer {
        let mut lent = vec![BEFORE; self.lent.len()];
        let (told, after) = self.session.clone().supply(place, answer, &mut lent);
        assert!(image(&after) == image(&self.session));
        assert!(lent.iter().all(|place| *place == BEFORE));
        told
    }

    fn accept(&mut self) {
        let derivative = self.field.at(self.session.time + self.session.step, &self.lent);
        let told = self.session.clone().accept(&vector(&derivative));
        self.took(told);
        assert_eq!(self.answer, Answer::Resting);
    }
}

#[test]
fn the_places_of_an_attempt_count_from_0() {
    let mut random = Random::new(90);
    for (scheme, questions) in QUESTIONS.into_iter().enumerate() {
        for (n, supplied) in [(1, true), (1, false), (3, true), (3, false), (16, false)] {
            let mut run = Run::new(scheme, n, supplied, &mut random);
            let all: Vec<u8> =
                (0..questions + if supplied { 0 } else { n }).map(|place| place as u8).collect();
            // The first attempt is dropped halfway, the others are accepted.
            for turn in 0..3 {
                run.begin(0.0625);
                while let Some((place, answer)) = run.wanted() {
                    if turn == 0 && run.places.len() > all.len() / 2 {
                        break;
                    }
                    run.supply(place, &answer);
                }
                if turn == 0 && !all.is_empty() {
                    assert_eq!(run.places, all[..=all.len() / 2]);
                    let told = run.session.clone().drop_attempt();
                    run.took(told);
                } else {
                    assert_eq!(run.places, all, "scheme {scheme}, n {n}");
                    run.accept();
                }
            }
        }
    }
}

/// Every place but the open question's, and duplicates of every answer, are refused by 9; the run goes on to the same bits.
#[test]
fn an_answer_to_another_question_changes_nothing() {
    let mut nines = 0;
    for scheme in 0..16 {
        for supplied in [true, false] {
            let [mut plain, mut strayed] =
                [91, 91].map(|seed| Run::new(scheme, 3, supplied, &mut Random::new(seed)));
            for _ in 0..2 {
                plain.begin(0.0625);
                strayed.begin(0.0625);
                let mut taken: Vec<(u8, Vector)> = Vec::new();
                while let Some((place, answer)) = strayed.wanted() {
                    for (place, answer) in &taken {
                        assert_eq!(strayed.refused(*place, answer), Answer::Refused(9));
                    }
                    for other in (0..=255).filter(|other| *other != place) {
                        assert_eq!(strayed.refused(other, &answer), Answer::Refused(9));
                        nines += 1;
                    }
                    plain.supply(place, &answer);
                    strayed.supply(place, &answer);
                    taken.push((place, answer));
                    assert_eq!(plain.answer, strayed.answer);
                    assert!(image(&plain.session) == image(&strayed.session));
                }
                for other in 0..=255 {
                    assert_eq!(strayed.refused(other, &vector(&[1.0])), Answer::Refused(7));
                }
                plain.accept();
                strayed.accept();
                assert!(image(&plain.session) == image(&strayed.session));
                for other in 0..=255 {
                    assert_eq!(strayed.refused(other, &vector(&[1.0])), Answer::Refused(7));
                }
            }
        }
    }
    assert!(nines > 10_000, "{nines}");
}

/// On a session in an attempt the order is 1, 2, 7, 9, 4, 5, 3, then 1 and 3 of what is handed in, and 6.
#[test]
fn nine_is_tested_right_after_seven() {
    let mut session = Run::new(2, 1, true, &mut Random::new(92)).session;
    session.attempt = Attempt::Supplied;
    session.count = 1;
    session.history_held = true;
    session.absolute[0] = 0.0;
    session.step = f64::NAN;
    session.time = f64::NAN;
    session.state[1] = -0.0;
    let number = |session: &Session, place: u8, values: &[f64], lent: usize| {
        let mut lent = vec![BEFORE; lent];
        match session.clone().supply(place, &vector(values), &mut lent).0 {
            Answer::Refused(number) => number,
            _ => 0,
        }
    };
    let wrong = [f64::NAN, 1.0];
    let all = |session: &Session| number(session, 3, &wrong, 2);
    assert_eq!(all(&session), 1);
    session.state[1] = 0.0;
    assert_eq!(all(&session), 2);
    session.history_held = false;
    assert_eq!(all(&session), 7);
    session.count = 0;
    assert_eq!(all(&session), 9);
    assert_eq!(number(&session, 0, &wrong, 2), 4);
    session.absolute[0] = 1.0;
    assert_eq!(all(&session), 9);
    assert_eq!(number(&session, 0, &wrong, 2), 5);
    session.step = 0.5;
    assert_eq!(all(&session), 9);
    assert_eq!(number(&session, 0, &wrong, 2), 3);
    session.time = 0.0;
    for (expected, values, lent) in [
        (1, &wrong[..], 1),
        (1, &[1.0], 2),
        (1, &[1.0, -0.0], 1),
        (3, &wrong[..1], 1),
        (6, &[1e300], 1),
        (0, &[1.0], 1),
    ] {
        assert_eq!(number(&session, 1, values, lent), 9);
        assert_eq!(number(&session, 255, values, lent), 9);
        assert_eq!(number(&session, 0, values, lent), expected);
    }
}

/// The place is the number of answers that the session holds, however it came by them.
#[test]
fn the_place_of_a_forged_session_is_its_count() {
    let mut session = Run::new(5, 1, true, &mut Random::new(93)).session;
    session.attempt = Attempt::Supplied;
    session.step = 0.5;
    session.jacobian[0] = -1.0;
    for count in 0..4 {
        session.count = count;
        session.answers[..usize::from(count)].fill(vector(&[1.0]));
        for place in 0..=255 {
            let (answer, next) = session.clone().supply(place, &vector(&[1.0]), &mut [BEFORE]);
            match answer {
                Answer::Refused(9) => assert!(place != count && image(&next) == image(&session)),
                Answer::Ask { place: asked, .. } => assert!((place, asked) == (count, count + 1)),
                answer => assert!(matches!(answer, Answer::Ready { .. }) && (place, count) == (3, 3)),
            }
        }
    }
}
