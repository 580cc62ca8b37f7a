//! A question as a value, its answer, and an answer that was refused.
use super::{Progress, Refusal, Session};
use std::error::Error;
use std::fmt;

/// A question of an attempt: the derivative at this time and state. [`Session::answer`] takes it back with its answer.
///
/// It borrows nothing, so it may go to another thread, and a clone of it to a second worker. The answer that comes first is taken; a duplicate or
/// late one is refused, by 9 or, once the last answer is in, by 7, and changes nothing.
///
/// Its place says which question of the attempt it is. Places count from 0 again in each attempt of each session: an answer that is left over
/// from an earlier attempt, accepted or dropped, or from another session is not recognised by its place, and is taken where the open question
/// has the same one. A host whose workers can be that late waits for them before it begins again, or sends a number of its own along.
///
/// ```
/// use std::sync::mpsc;
/// use vunchrem::{Progress, Question, Scheme, Session};
///
/// let (ask, asked) = mpsc::channel::<Question>();
/// let (give, given) = mpsc::channel();
/// std::thread::spawn(move || {
///     for question in asked {
///         let derivative = vec![-2.0 * question.state()[0] * question.time()];
///         if give.send((question, derivative)).is_err() {
///             break;
///         }
///     }
/// });
///
/// let mut session = Session::open(Scheme::Etdrk4, 0.0, &[1.0], &[0.0], 1e-6, 1e-9)?;
/// let mut progress = session.begin(0.1, None)?;
/// while let Progress::Ask(question) = progress {
///     ask.send(question).unwrap();
///     let (question, derivative) = given.recv().unwrap();
///     progress = session.answer(question, &derivative)?;
/// }
/// assert!(matches!(progress, Progress::Ready { right_hand_sides: 4, .. }));
/// # Ok::<(), vunchrem::Refusal>(())
/// ```
#[derive(Clone, Debug, PartialEq)]
pub struct Question {
    pub(super) place: u64,
    pub(super) time: f64,
    pub(super) state: Vec<f64>,
}

impl Question {
    /// Its place in the attempt, from 0.
    pub fn place(&self) -> u64 {
        self.place
    }

    /// The time at which the right-hand side is asked.
    pub fn time(&self) -> f64 {
        self.time
    }

    /// The state at which it is asked, n entries.
    pub fn state(&self) -> &[f64] {
        &self.state
    }
}

/// An answer that was refused, with the question that it was to. The question that was open still is.
///
/// By `?` it turns into its [`Refusal`].
#[derive(Clone, Debug, PartialEq)]
pub struct Unanswered {
    /// Why the answer was refused.
    pub refusal: Refusal,
    /// The question. By [`Refusal::Question`] it is not the open one; by [`Refusal::Phase`] none is open; where the answer was at fault it can be answered again.
    pub question: Question,
}

impl fmt::Display for Unanswered {
    fn fmt(&self, f: &mut fmt::Formatter<'_>) -> fmt::Result {
        write!(f, "the answer to question {} was {}", self.question.place, self.refusal)
    }
}

impl Error for Unanswered {}

impl From<Unanswered> for Refusal {
    fn from(unanswered: Unanswered) -> Refusal {
        unanswered.refusal
    }
}

impl Session {
    /// Answers a question with the derivative at its time and state. Where the answer is refused, the question comes back with the refusal.
    ///
    /// ```
    /// use vunchrem::{Progress, Refusal, Scheme, Session};
    ///
    /// let mut session = Session::open(Scheme::NorsettEuler, 0.0, &[1.0, 0.0], &[-1.0, 1.0], 1e-6, 1e-9)?;
    /// let Progress::Ask(first) = session.begin(0.01, None)? else { unreachable!("a differenced Jacobian asks") };
    ///
    /// // An answer that is no number is refused, and the question can be answered again.
    /// let back = session.answer(first, &[f64::NAN, 1.0]).unwrap_err();
    /// assert_eq!(back.refusal, Refusal::NotFinite);
    /// let (first, late) = (back.question.clone(), back.question);
    /// let Progress::Ask(second) = session.answer(first, &[-1.0, 1.0])? else { unreachable!("one for each component") };
    ///
    /// // A late answer to the first question is refused while the second is open, and changes nothing.
    /// let kept = session.save();
    /// let back = session.answer(late, &[-1.0, 1.0]).unwrap_err();
    /// assert_eq!((back.refusal, back.question.place()), (Refusal::Question, 0));
    /// assert_eq!(session.save(), kept);
    ///
    /// assert!(matches!(session.answer(second, &[-1.0, 1.0])?, Progress::Ready { .. }));
    /// # Ok::<(), Refusal>(())
    /// ```
    pub fn answer(&mut self, question: Question, derivative: &[f64]) -> Result<Progress, Unanswered> {
        self.supply(question.place, derivative)
            .map_err(|refusal| Unanswered { refusal, question })
    }
}
