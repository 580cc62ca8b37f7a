//! Questions and their places: answers that are late, early or given twice, from one thread and from two.
use super::{bits, restored, PLACES};
use crate::{Progress, Question, Refusal, Scheme, Session, Unanswered};
use std::error::Error;
use std::sync::mpsc::{channel, Receiver, Sender};
use std::thread;

const STEP: f64 = 0.01;

// A question with its answer.
type Answer = (Question, [f64; 3]);

// Three components, the first of them stiff.
fn three(t: f64, u: &[f64]) -> [f64; 3] {
    [
        -1000.0 * (u[0] - t.cos()),
        u[0] - u[1],
        0.5 * u[0] * u[1] - 3.0 * u[2] * t,
    ]
}

fn open(scheme: Scheme) -> Session {
    let u = [1.0, 0.25, -0.5];
    Session::open(scheme, 0.0, &u, &three(0.0, &u), 1e-6, 1e-9).unwrap()
}

fn step(s: &mut Session) -> u32 {
    s.step(STEP, |t, u, du| du.copy_from_slice(&three(t, u)))
        .unwrap()
        .right_hand_sides
}

fn asked(progress: Progress) -> Question {
    match progress {
        Progress::Ask(question) => question,
        Progress::Ready { .. } => panic!("nothing is asked"),
    }
}

fn answered(question: Question) -> Answer {
    let derivative = three(question.time(), question.state());
    (question, derivative)
}

// Answers as it should, and says how the attempt goes on.
fn answer(s: &mut Session, question: Question) -> Progress {
    let (question, derivative) = answered(question);
    s.answer(question, &derivative).unwrap()
}

// The refusal of an answer, which changes nothing.
fn refused(s: &mut Session, place: u64, derivative: &[f64]) -> Refusal {
    let kept = bits(s);
    let refusal = s.supply(place, derivative).unwrap_err();
    assert_eq!(bits(s), kept);
    refusal
}

#[test]
fn places_count_from_0_in_each_attempt() {
    for scheme in Scheme::ALL {
        for jacobian in [None, Some(&[0.5; 9][..])] {
            let mut s = open(scheme);
            for _ in 0..3 {
                let mut progress = s.begin(STEP, jacobian).unwrap();
                let mut places = Vec::new();
                while let Progress::Ask(question) = progress {
                    places.push(question.place());
                    progress = answer(&mut s, question);
                }
                let Progress::Ready { right_hand_sides, .. } = progress else {
                    unreachable!()
                };
                assert!(places.into_iter().eq(0..u64::from(right_hand_sides)), "{scheme:?}");
                s.drop_attempt().unwrap();
            }
        }
    }
}

#[test]
fn an_answer_to_another_place_is_refused_by_9() {
    for scheme in Scheme::ALL {
        let (mut s, mut alone) = (open(scheme), open(scheme));
        for _ in 0..2 {
            let mut progress = s.begin(STEP, None).unwrap();
            while let Progress::Ask(question) = progress {
                let (question, derivative) = answered(question);
                let place = question.place();
                let near = [place.wrapping_sub(1), place + 1, (1 << 32) + place, (1 << 63) + place];
                let others = (0..=20).chain(PLACES).chain(near);
                for other in others.filter(|other| *other != place) {
                    // before what is wrong with the answer
                    for answer in [&derivative[..], &[f64::NAN; 3], &[1.0], &[0.0; 17]] {
                        assert_eq!(refused(&mut s, other, answer), Refusal::Question, "{other} for {place}");
                    }
                }
                assert_eq!(refused(&mut s, place, &[f64::NAN; 3]), Refusal::NotFinite);
                assert_eq!(refused(&mut s, place, &[1.0]), Refusal::Size);
                progress = s.answer(question, &derivative).unwrap();
            }
            let Progress::Ready { candidate, .. } = progress else {
                unreachable!()
            };
            assert_eq!(s.accept(&three(s.time() + STEP, &candidate)), Ok(()));
            step(&mut alone);
            assert!(s.save() == alone.save(), "{scheme:?}");
        }
    }
}

#[test]
fn with_nothing_asked_every_place_is_refused_by_7() {
    let mut s = open(Scheme::Exprb32);
    let refused_by_7 = |s: &mut Session| {
        for place in (0..=20).chain(PLACES) {
            for answer in [&[0.0; 3][..], &[f64::NAN; 3], &[]] {
                assert_eq!(refused(s, place, answer), Refusal::Phase, "{place}");
            }
        }
    };
    refused_by_7(&mut s);
    let mut progress = s.begin(STEP, None).unwrap();
    while let Progress::Ask(question) = progress {
        progress = answer(&mut s, question);
    }
    refused_by_7(&mut s);
    s.drop_attempt().unwrap();
    refused_by_7(&mut s);
}

#[test]
fn an_answer_given_twice_is_taken_once() {
    let mut s = open(Scheme::Etdrk2);
    let mut progress = s.begin(STEP, None).unwrap();
    while let Progress::Ask(question) = progress {
        let twice = question.clone();
        progress = answer(&mut s, question);
        let last = matches!(progress, Progress::Ready { .. });
        let refusal = if last { Refusal::Phase } else { Refusal::Question };
        let kept = s.save();
        let (twice, derivative) = answered(twice);
        let back = s.answer(twice.clone(), &derivative);
        assert_eq!(
            back,
            Err(Unanswered {
                refusal,
                question: twice
            })
        );
        assert!(s.save() == kept);
    }
}

#[test]
fn a_question_outlives_saving_and_restoring() {
    let mut s = open(Scheme::Exprb43);
    let first = asked(s.begin(STEP, None).unwrap());
    let second = asked(answer(&mut s, first.clone()));
    let mut s = restored(&s);
    let (first, derivative) = answered(first);
    assert_eq!(s.answer(first, &derivative).unwrap_err().refusal, Refusal::Question);
    assert_eq!(asked(answer(&mut s, second)).place(), 2);
}

#[test]
fn places_do_not_tell_attempts_apart() {
    let mut s = open(Scheme::Exp4);
    let dropped = asked(s.begin(STEP, None).unwrap());
    s.drop_attempt().unwrap();
    let open = asked(s.begin(2.0 * STEP, None).unwrap());
    assert_eq!(
        open, dropped,
        "a differenced Jacobian's question does not depend on the step"
    );
    assert_eq!(asked(answer(&mut s, dropped)).place(), 1);
}

#[test]
fn a_refusal_comes_back_with_its_question() {
    fn late(s: &mut Session) -> Result<(), Refusal> {
        let mut progress = s.begin(STEP, None)?;
        while let Progress::Ask(question) = progress {
            let late = question.clone();
            progress = s.answer(question, &[0.0; 3])?;
            if let Progress::Ask(_) = progress {
                s.answer(late, &[0.0; 3])?;
            }
        }
        Ok(())
    }
    let mut s = open(Scheme::HochOst4);
    assert_eq!(late(&mut s), Err(Refusal::Question));
    let error: Box<dyn Error + Send + Sync> = s
        .answer(
            Question {
                place: 4,
                time: 0.0,
                state: vec![],
            },
            &[],
        )
        .unwrap_err()
        .into();
    let words = error.to_string();
    assert!(
        words.starts_with("the answer to question 4 was refused by 9: "),
        "{words}"
    );
}

#[test]
fn what_a_host_sends_to_a_thread() {
    fn sent<T: Clone + Send + Sync + 'static>() {}
    sent::<Question>();
    sent::<Progress>();
    sent::<Unanswered>();
    sent::<Session>();
}

// Answers each question as it comes.
fn prompt(asked: Receiver<Question>, given: Sender<Answer>) {
    for question in asked {
        given.send(answered(question)).unwrap();
    }
}

// Holds each answer back until it hears that the next question is open or, by None, that the candidate is there.
fn late(asked: Receiver<Option<Question>>, given: Sender<Answer>) {
    let mut held = None;
    for next in asked {
        if let Some(answer) = held.take() {
            given.send(answer).unwrap();
        }
        held = next.map(answered);
    }
}

#[test]
fn a_late_worker_changes_nothing() {
    const STEPS: usize = 5;
    for scheme in Scheme::ALL {
        let (given, answers) = channel();
        let (to_prompt, by_prompt) = channel();
        let (to_late, by_late) = channel();
        let workers = [
            thread::spawn({
                let given = given.clone();
                move || prompt(by_prompt, given)
            }),
            thread::spawn(move || late(by_late, given)),
        ];
        let (mut s, mut alone) = (open(scheme), open(scheme));
        let (mut by_9, mut by_7, mut questions) = (0, 0, 0);
        for _ in 0..STEPS {
            let mut progress = s.begin(STEP, None).unwrap();
            let mut before = None;
            loop {
                // The late worker hears of it first, so that the next answer to come is its own to the question before.
                let open = match &progress {
                    Progress::Ask(question) => Some(question.clone()),
                    Progress::Ready { .. } => None,
                };
                to_late.send(open.clone()).unwrap();
                if before.is_some() {
                    let (question, derivative) = answers.recv().unwrap();
                    let kept = s.save();
                    let back = s.answer(question, &derivative).unwrap_err();
                    assert_eq!(Some(back.question), before);
                    assert!(s.save() == kept);
                    match back.refusal {
                        Refusal::Question => by_9 += 1,
                        Refusal::Phase => by_7 += 1,
                        other => panic!("{other}"),
                    }
                }
                before = open;
                match progress {
                    Progress::Ask(question) => {
                        to_prompt.send(question).unwrap();
                        let (question, derivative) = answers.recv().unwrap();
                        progress = s.answer(question, &derivative).unwrap();
                    }
                    Progress::Ready { candidate, .. } => {
                        s.accept(&three(s.time() + STEP, &candidate)).unwrap();
                        break;
                    }
                }
            }
            questions += step(&mut alone) as usize;
            assert!(s.save() == alone.save(), "{scheme:?}");
        }
        assert_eq!((by_9, by_7), (questions - STEPS, STEPS), "{scheme:?}");
        if scheme == Scheme::HochOst4 {
            assert_eq!((by_9, by_7), (30, 5));
        }
        drop((to_prompt, to_late));
        workers.into_iter().for_each(|worker| worker.join().unwrap());
    }
}

#[test]
fn of_two_workers_the_first_answer_is_taken() {
    let (given, answers) = channel();
    let (workers, asks): (Vec<_>, Vec<_>) = (0..2)
        .map(|_| {
            let (ask, asked) = channel();
            let given = given.clone();
            (thread::spawn(move || prompt(asked, given)), ask)
        })
        .unzip();
    let (mut s, mut alone) = (open(Scheme::HochOst4), open(Scheme::HochOst4));
    let ask = |question: &Question| asks.iter().for_each(|to| to.send(question.clone()).unwrap());
    for _ in 0..50 {
        let mut open = s.begin(STEP, None).unwrap();
        ask(&asked(open.clone()));
        // both answers to each of the seven questions, in whatever order they come
        let mut taken = 0;
        for _ in 0..14 {
            let (question, derivative) = answers.recv().unwrap();
            let kept = s.save();
            match s.answer(question, &derivative) {
                Ok(next) => {
                    taken += 1;
                    if let Progress::Ask(question) = &next {
                        ask(question);
                    }
                    open = next;
                }
                Err(back) => {
                    let last = matches!(open, Progress::Ready { .. });
                    let refusal = if last { Refusal::Phase } else { Refusal::Question };
                    assert_eq!(back.refusal, refusal);
                    assert!(s.save() == kept);
                }
            }
        }
        let Progress::Ready { candidate, .. } = open else {
            panic!("{taken} answers were taken")
        };
        assert_eq!(taken, 7);
        s.accept(&three(s.time() + STEP, &candidate)).unwrap();
        step(&mut alone);
        assert!(s.save() == alone.save());
    }
    drop(asks);
    workers.into_iter().for_each(|worker| worker.join().unwrap());
}
