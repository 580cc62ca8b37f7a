//! Steps for stiff equations by sixteen exponential schemes, over the proved core.
//!
//! A [`Session`] holds a run: scheme, time, state, derivative and tolerances. One step is [`Session::step`], which takes the
//! right-hand side as a closure `f(t, u, du)`. Where the right-hand side is answered elsewhere (another task, another machine), the same
//! step goes call by call: [`Session::begin`], [`Session::answer`] for each [`Question`], then [`Session::accept`] or
//! [`Session::drop_attempt`]. An answer to another question than the open one is refused.
//!
//! Where the right-hand side is a sum of terms such as c·u_j·u_k, a [`Table`] of them is enough, and the core steps without asking:
//! [`Session::open_by_table`], [`Session::whole_step`].
//!
//! The absolute tolerance is one for all components or one for each ([`Tolerance`]). A session is saved as bytes by [`Session::save`] and
//! brought back by [`Session::restore`].
//!
//! A step tells its matrix products ([`Stepped::products`]), an exponential its terms and squarings ([`Reach`]): in them stiffness shows.
//!
//! Every call ends, whatever numbers it got. A refused one gives a [`Refusal`] and leaves the session as it was, bit for bit.
//!
//! ```
//! use vunchrem::{Scheme, Session};
//!
//! // u' = -1000 (u - cos t): stiff. From u = 0 at t = 0, where u' = 1000.
//! let f = |t: f64, u: &[f64], du: &mut [f64]| du[0] = -1000.0 * (u[0] - t.cos());
//!
//! let mut session = Session::open(Scheme::Exprb32, 0.0, &[0.0], &[1000.0], 1e-6, 1e-9)?;
//! for _ in 0..10 {
//!     let done = session.step(0.01, f)?;
//!     assert_eq!(done.right_hand_sides, 2); // one to difference the Jacobian, one of the scheme
//! }
//! assert!((session.time() - 0.1).abs() < 1e-12);
//! assert!((session.state()[0] - 0.1f64.cos()).abs() < 1e-2);
//! # Ok::<(), vunchrem::Refusal>(())
//! ```
#![warn(missing_docs)]

use std::error::Error;
use std::fmt;

mod by_table;
mod layout;
mod question;
mod raw;
mod saving;
mod scheme;
mod table;
#[cfg(test)]
mod tests;

pub use question::{Question, Unanswered};
pub use saving::RestoreError;
pub use scheme::Scheme;
pub use table::Table;

/// The largest dimension of a session.
pub const MOST: usize = layout::VECTOR;

/// Why a call was refused. The session is as it was before the call, bit for bit.
#[derive(Clone, Copy, Debug, Eq, Hash, PartialEq)]
pub enum Refusal {
    /// 1: a dimension, size, order or length that does not fit.
    Size,
    /// 2: a scheme that is not there, or a history under another scheme than Etd2.
    Scheme,
    /// 3: a number that is infinite or NaN.
    NotFinite,
    /// 4: a tolerance that is not finite and positive.
    Tolerance,
    /// 5: a step that is zero or not finite, or a largest step that is NaN or below 2^-52.
    Step,
    /// 6: the step's own arithmetic leaves what can be trusted, as a matrix too large to exponentiate or a candidate that is not finite.
    Arithmetic,
    /// 7: the call does not fit the phase: begin while an attempt is under way, supply with nothing asked, accept before the candidate is there.
    Phase,
    /// 8: a table whose length is no multiple of 16 or that holds more than 256 records, or a record that breaks a rule, see [`Table`].
    Table,
    /// 9: an answer to another question than the open one, see [`Question`].
    Question,
}

impl Refusal {
    /// The number of the refusal, 1 to 9.
    pub const fn number(self) -> u8 {
        match self {
            Refusal::Size => 1,
            Refusal::Scheme => 2,
            Refusal::NotFinite => 3,
            Refusal::Tolerance => 4,
            Refusal::Step => 5,
            Refusal::Arithmetic => 6,
            Refusal::Phase => 7,
            Refusal::Table => 8,
            Refusal::Question => 9,
        }
    }

    fn of(number: u64) -> Refusal {
        match number {
            1 => Refusal::Size,
            2 => Refusal::Scheme,
            3 => Refusal::NotFinite,
            4 => Refusal::Tolerance,
            5 => Refusal::Step,
            6 => Refusal::Arithmetic,
            7 => Refusal::Phase,
            8 => Refusal::Table,
            9 => Refusal::Question,
            _ => unreachable!("the core gives the numbers 1 to 9"),
        }
    }
}

impl fmt::Display for Refusal {
    fn fmt(&self, f: &mut fmt::Formatter<'_>) -> fmt::Result {
        let words = match self {
            Refusal::Size => "a dimension, size, order or length does not fit",
            Refusal::Scheme => "no such scheme, or a history under another scheme than Etd2",
            Refusal::NotFinite => "a number is infinite or not a number",
            Refusal::Tolerance => "a tolerance is not finite and positive",
            Refusal::Step => "the step is zero or not finite, or the largest step is too small",
            Refusal::Arithmetic => "the step's arithmetic is too large to be trusted",
            Refusal::Phase => "the session is in another phase",
            Refusal::Table => "the table has a wrong length, or a record that breaks a rule",
            Refusal::Question => "the answer is to another question than the open one",
        };
        write!(f, "refused by {}: {words}", self.number())
    }
}

impl Error for Refusal {}

/// How far an attempt has come.
#[derive(Clone, Debug, PartialEq)]
pub enum Progress {
    /// A derivative is asked for: hand the question back with it to [`Session::answer`].
    Ask(Question),
    /// The candidate is there: hand the derivative at it, at time + step, to [`Session::accept`], or drop the attempt.
    Ready {
        /// The scaled error norm; 0 under schemes without an error estimate. It may be infinite, and is never NaN.
        error_norm: f64,
        /// Right-hand sides that the attempt asked for, those of a differenced Jacobian among them.
        right_hand_sides: u32,
        /// Jacobians that the attempt used: 1.
        jacobians: u32,
        /// Matrix products of the pass, see [`Stepped::products`].
        products: u32,
        /// The state at time + step, n entries.
        candidate: Vec<f64>,
    },
}

/// What a whole step came to.
///
/// ```
/// use vunchrem::{Refusal, Scheme, Session};
///
/// // u' = -rate u: a rate 1024 times as large takes ten squarings more.
/// let products = |rate: f64| -> Result<u32, Refusal> {
///     let mut session = Session::open(Scheme::LawsonEuler, 0.0, &[1.0], &[-rate], 1e-6, 1e-9)?;
///     let done = session.step_with_jacobian(1.0, &[-rate], |_, u, du| du[0] = -rate * u[0])?;
///     Ok(done.products)
/// };
/// assert_eq!(products(1.0)?, 16);
/// assert_eq!(products(1024.0)?, 26);
/// # Ok::<(), Refusal>(())
/// ```
#[derive(Clone, Copy, Debug, PartialEq)]
pub struct Stepped {
    /// The scaled error norm; 0 under schemes without an error estimate.
    pub error_norm: f64,
    /// Right-hand sides that the attempt asked for. The one at the candidate, with which it was accepted, is not among them.
    pub right_hand_sides: u32,
    /// Jacobians: 1.
    pub jacobians: u32,
    /// Matrix products of the pass: the terms and squarings of every exponential that the published module makes in it, repeats counted.
    /// At most 47 for each ([`Reach`]), so 1,598 in all: no scheme makes more than the 34 of [`Scheme::HochOst4`].
    pub products: u32,
}

/// How far an exponential went. Each term and each squaring is one matrix product.
#[derive(Clone, Copy, Debug, Eq, Hash, PartialEq)]
pub struct Reach {
    /// Terms of the series that were added to the identity: 1 to 15.
    pub terms: u32,
    /// Squarings of the sum, as many as the matrix was halved before: none where each row's magnitudes add up to at most 1/2, then one more for
    /// each doubling, up to 32. They grow with stiffness.
    pub squarings: u32,
}

/// The absolute tolerance: one for all components, or one for each.
///
/// A call that wants one takes whatever turns into it: `1e-9`, `&[1e-3, 1e-2]`, a slice, a `&Vec<f64>`.
#[derive(Clone, Copy, Debug, PartialEq)]
pub enum Tolerance<'a> {
    /// The same for every component.
    All(f64),
    /// Each component's own. Where they are not as many as the components, the call is refused by [`Refusal::Size`].
    Each(&'a [f64]),
}

impl Tolerance<'_> {
    // For n components, with zeros to 16 places; None where they are too many, or not n.
    fn places(self, n: usize) -> Option<[f64; MOST]> {
        match self {
            Tolerance::All(one) => {
                let mut all = [0.0; MOST];
                all.get_mut(..n)?.fill(one);
                Some(all)
            }
            Tolerance::Each(each) if each.len() == n => padded(each),
            Tolerance::Each(_) => None,
        }
    }
}

impl From<f64> for Tolerance<'_> {
    fn from(one: f64) -> Self {
        Tolerance::All(one)
    }
}

impl<'a> From<&'a [f64]> for Tolerance<'a> {
    fn from(each: &'a [f64]) -> Self {
        Tolerance::Each(each)
    }
}

impl<'a, const N: usize> From<&'a [f64; N]> for Tolerance<'a> {
    fn from(each: &'a [f64; N]) -> Self {
        Tolerance::Each(each)
    }
}

impl<'a> From<&'a Vec<f64>> for Tolerance<'a> {
    fn from(each: &'a Vec<f64>) -> Self {
        Tolerance::Each(each)
    }
}

/// A run of one scheme: its time, state, derivative, tolerances and, between begin and accept, its attempt.
#[derive(Clone, Debug)]
pub struct Session {
    numbers: [u64; layout::NUMBERS],
    figures: Box<[f64; layout::FIGURES]>,
}

// A Jacobian as the core takes it: whether one is given, and its places.
struct Given {
    wish: u64,
    places: [f64; layout::MATRIX],
}

// What a call tells, before it is sorted.
struct Told {
    words: [u64; layout::WORDS],
    told: [f64; 1],
}

impl Told {
    fn new() -> Told {
        Told {
            words: [0; layout::WORDS],
            told: [0.0],
        }
    }

    // Whether the call came to this outcome.
    fn is(&self, outcome: usize) -> bool {
        self.words[layout::OUTCOME_AT] == outcome as u64
    }

    // Of Ask the place, 0 and 0; of Ready the right-hand sides, the Jacobians and the products; of Filled the terms, the squarings and 0; otherwise
    // zeros.
    fn counts(&self) -> [u32; layout::COUNTS] {
        std::array::from_fn(|k| self.words[layout::COUNTS_AT + k] as u32)
    }

    fn place(&self) -> u64 {
        self.words[layout::COUNTS_AT]
    }

    fn reach(&self) -> Reach {
        let [terms, squarings, _] = self.counts();
        Reach { terms, squarings }
    }

    // The call's code is 0: every length here is the one that it wants.
    fn sorted(self, code: u32) -> Result<Told, Refusal> {
        assert_eq!(code, 0, "a length that the core does not want");
        if self.is(layout::REFUSED) {
            return Err(Refusal::of(self.words[layout::REFUSAL_AT]));
        }
        Ok(self)
    }
}

// x with zeros to 16 places; None where it is longer.
fn padded(x: &[f64]) -> Option<[f64; MOST]> {
    let mut all = [0.0; MOST];
    all.get_mut(..x.len())?.copy_from_slice(x);
    Some(all)
}

impl Session {
    // All numbers and figures zero: every call refuses it by 1.
    fn blank() -> Session {
        Session {
            numbers: [0; layout::NUMBERS],
            figures: Box::new([0.0; layout::FIGURES]),
        }
    }

    /// Opens a run at `time` with the dimension of `state`, which has 1 to 16 entries, and the derivative there.
    ///
    /// ```
    /// use vunchrem::{Scheme, Session};
    ///
    /// // Metres, degrees and metres per second, each with a tolerance of its own.
    /// let session = Session::open(Scheme::Exprb32, 0.0, &[1200.0, 3.0, 0.5], &[0.5, 0.0, 0.0], 1e-6, &[1e-3, 1e-2, 1e-4])?;
    /// assert_eq!(session.absolute(), [1e-3, 1e-2, 1e-4]);
    /// # Ok::<(), vunchrem::Refusal>(())
    /// ```
    pub fn open<'a>(
        scheme: Scheme,
        time: f64,
        state: &[f64],
        derivative: &[f64],
        relative: f64,
        absolute: impl Into<Tolerance<'a>>,
    ) -> Result<Session, Refusal> {
        Session::opened(scheme, time, state, derivative, relative, absolute.into(), None)
    }

    /// Opens a run under [`Scheme::Etd2`] that goes on from another: `history` is the nonlinear part f - J u that its last step kept.
    pub fn open_with_history<'a>(
        scheme: Scheme,
        time: f64,
        state: &[f64],
        derivative: &[f64],
        relative: f64,
        absolute: impl Into<Tolerance<'a>>,
        history: &[f64],
    ) -> Result<Session, Refusal> {
        Session::opened(
            scheme,
            time,
            state,
            derivative,
            relative,
            absolute.into(),
            Some(history),
        )
    }

    fn opened(
        scheme: Scheme,
        time: f64,
        state: &[f64],
        derivative: &[f64],
        relative: f64,
        absolute: Tolerance,
        history: Option<&[f64]>,
    ) -> Result<Session, Refusal> {
        let n = state.len();
        if derivative.len() != n || history.is_some_and(|h| h.len() != n) {
            return Err(Refusal::Size);
        }
        let (Some(a), Some(u), Some(f0), Some(g)) = (
            absolute.places(n),
            padded(state),
            padded(derivative),
            padded(history.unwrap_or(&[])),
        ) else {
            return Err(Refusal::Size);
        };
        let mut s = Session::blank();
        let mut t = Told::new();
        // SAFETY: each pointer and length is that of an array or slice that is lent for the call; no two of the lent ones overlap.
        let code = unsafe {
            raw::vunchrem_open(
                scheme as u64,
                n as u64,
                history.is_some() as u64,
                time,
                relative,
                a.as_ptr(),
                a.len(),
                u.as_ptr(),
                u.len(),
                f0.as_ptr(),
                f0.len(),
                g.as_ptr(),
                g.len(),
                s.numbers.as_mut_ptr(),
                s.numbers.len(),
                s.figures.as_mut_ptr(),
                s.figures.len(),
                t.words.as_mut_ptr(),
                t.words.len(),
                t.told.as_mut_ptr(),
                t.told.len(),
            )
        };
        t.sorted(code)?;
        Ok(s)
    }

    // n, or 16 where bytes that were restored say more; then every call is refused by 1.
    fn n(&self) -> usize {
        MOST.min(self.numbers[layout::N_AT] as usize)
    }

    // A Jacobian of another length than n * n is handed on with an output that does not fit, so that the core refuses it in its order.
    fn given(&self, jacobian: Option<&[f64]>) -> (Given, bool) {
        let mut given = Given {
            wish: 0,
            places: [0.0; layout::MATRIX],
        };
        let Some(j) = jacobian else {
            return (given, true);
        };
        given.wish = 1;
        let fits = j.len() == self.n() * self.n();
        if fits {
            given.places[..j.len()].copy_from_slice(j);
        }
        (given, fits)
    }

    fn call_begin(&mut self, step: f64, jacobian: Option<&[f64]>, out: &mut [f64; MOST]) -> Result<Told, Refusal> {
        let (given, fits) = self.given(jacobian);
        let lent = if fits { self.n() } else { 0 };
        let mut t = Told::new();
        // SAFETY: as in `opened`; lent is at most out's length.
        let code = unsafe {
            raw::vunchrem_begin(
                self.numbers.as_mut_ptr(),
                self.numbers.len(),
                self.figures.as_mut_ptr(),
                self.figures.len(),
                step,
                given.wish,
                given.places.as_ptr(),
                given.places.len(),
                out.as_mut_ptr(),
                lent,
                t.words.as_mut_ptr(),
                t.words.len(),
                t.told.as_mut_ptr(),
                t.told.len(),
            )
        };
        t.sorted(code)
    }

    fn call_supply(&mut self, place: u64, derivative: &[f64], out: &mut [f64; MOST]) -> Result<Told, Refusal> {
        let fits = derivative.len() == self.n();
        let answer = padded(if fits { derivative } else { &[] }).expect("n is at most 16");
        let lent = if fits { self.n() } else { 0 };
        let mut t = Told::new();
        // SAFETY: as in `opened`; lent is at most out's length.
        let code = unsafe {
            raw::vunchrem_supply(
                self.numbers.as_mut_ptr(),
                self.numbers.len(),
                self.figures.as_mut_ptr(),
                self.figures.len(),
                place,
                answer.as_ptr(),
                answer.len(),
                out.as_mut_ptr(),
                lent,
                t.words.as_mut_ptr(),
                t.words.len(),
                t.told.as_mut_ptr(),
                t.told.len(),
            )
        };
        t.sorted(code)
    }

    fn progress(&self, t: Told, out: &[f64; MOST]) -> Progress {
        let places = out[..self.n()].to_vec();
        if t.is(layout::ASK) {
            Progress::Ask(Question {
                place: t.place(),
                time: t.told[0],
                state: places,
            })
        } else {
            let [right_hand_sides, jacobians, products] = t.counts();
            Progress::Ready {
                error_norm: t.told[0],
                right_hand_sides,
                jacobians,
                products,
                candidate: places,
            }
        }
    }

    /// Begins an attempt with this step, which may be negative. With `None` the Jacobian is differenced, which asks n questions; a Jacobian
    /// that is given has n * n entries, row by row.
    pub fn begin(&mut self, step: f64, jacobian: Option<&[f64]>) -> Result<Progress, Refusal> {
        let mut out = [0.0; MOST];
        let t = self.call_begin(step, jacobian, &mut out)?;
        Ok(self.progress(t, &out))
    }

    /// Supplies the derivative that the question at this place of the attempt asked for: [`Session::answer`] by the place alone, for a host that
    /// sends its questions out of the program. Hand back the place that came with the question. Where the derivative is refused, the open question
    /// stays open.
    ///
    /// ```
    /// use vunchrem::{Progress, Refusal, Scheme, Session};
    ///
    /// let mut session = Session::open(Scheme::NorsettEuler, 0.0, &[1.0, 0.0], &[-1.0, 1.0], 1e-6, 1e-9)?;
    /// assert!(matches!(session.begin(0.01, None)?, Progress::Ask(_)));
    /// assert!(matches!(session.supply(0, &[-1.0, 1.0])?, Progress::Ask(_)));
    /// assert_eq!(session.supply(0, &[-1.0, 1.0]), Err(Refusal::Question)); // that was answered already
    /// assert!(matches!(session.supply(1, &[-1.0, 1.0])?, Progress::Ready { .. }));
    /// assert_eq!(session.supply(1, &[-1.0, 1.0]), Err(Refusal::Phase)); // nothing is asked any more
    /// # Ok::<(), Refusal>(())
    /// ```
    pub fn supply(&mut self, place: u64, derivative: &[f64]) -> Result<Progress, Refusal> {
        let mut out = [0.0; MOST];
        let t = self.call_supply(place, derivative, &mut out)?;
        Ok(self.progress(t, &out))
    }

    /// Accepts the candidate, with the derivative there: it becomes the state, and time moves on by the step.
    pub fn accept(&mut self, derivative: &[f64]) -> Result<(), Refusal> {
        if derivative.len() != self.n() {
            // the session is tested before what is handed in, the arithmetic after it
            return match self.clone().accept(&vec![0.0; self.n()]) {
                Ok(()) | Err(Refusal::Arithmetic) => Err(Refusal::Size),
                refused => refused,
            };
        }
        let d = padded(derivative).expect("n is at most 16");
        let mut t = Told::new();
        // SAFETY: as in `opened`.
        let code = unsafe {
            raw::vunchrem_accept(
                self.numbers.as_mut_ptr(),
                self.numbers.len(),
                self.figures.as_mut_ptr(),
                self.figures.len(),
                d.as_ptr(),
                d.len(),
                t.words.as_mut_ptr(),
                t.words.len(),
                t.told.as_mut_ptr(),
                t.told.len(),
            )
        };
        t.sorted(code).map(drop)
    }

    /// Drops the attempt, if there is one: the run is as the last accept, or open, left it. An answer to it that is still on its way may be taken
    /// for one to the next attempt, whose places count from 0 again, see [`Question`].
    pub fn drop_attempt(&mut self) -> Result<(), Refusal> {
        let mut t = Told::new();
        // SAFETY: as in `opened`.
        let code = unsafe {
            raw::vunchrem_drop(
                self.numbers.as_mut_ptr(),
                self.numbers.len(),
                self.figures.as_mut_ptr(),
                self.figures.len(),
                t.words.as_mut_ptr(),
                t.words.len(),
                t.told.as_mut_ptr(),
                t.told.len(),
            )
        };
        t.sorted(code).map(drop)
    }

    /// The first step that state, derivative and tolerances suggest, at most `largest`, which may be infinite.
    pub fn first_step(&self, largest: f64) -> Result<f64, Refusal> {
        let mut t = Told::new();
        // SAFETY: as in `opened`.
        let code = unsafe {
            raw::vunchrem_first_step(
                self.numbers.as_ptr(),
                self.numbers.len(),
                self.figures.as_ptr(),
                self.figures.len(),
                largest,
                t.words.as_mut_ptr(),
                t.words.len(),
                t.told.as_mut_ptr(),
                t.told.len(),
            )
        };
        t.sorted(code).map(|t| t.told[0])
    }

    /// The run's time.
    pub fn time(&self) -> f64 {
        self.figures[layout::TIME_AT]
    }

    /// The run's state, n entries.
    pub fn state(&self) -> &[f64] {
        &self.figures[layout::STATE_AT..][..self.n()]
    }

    /// The derivative at the run's time and state, n entries.
    pub fn derivative(&self) -> &[f64] {
        &self.figures[layout::DERIVATIVE_AT..][..self.n()]
    }

    /// The relative tolerance.
    pub fn relative(&self) -> f64 {
        self.figures[layout::RELATIVE_AT]
    }

    /// The absolute tolerance of each component, n entries.
    pub fn absolute(&self) -> &[f64] {
        &self.figures[layout::ABSOLUTE_AT..][..self.n()]
    }

    /// One whole step: begins with a differenced Jacobian, answers every question by `f`, and accepts the candidate with `f` there.
    ///
    /// `f(t, u, du)` writes the derivative at `t` and `u` into `du`, which holds zeros before. On a refusal the attempt is dropped and the
    /// session is as before; a step that finds an attempt under way is refused by [`Refusal::Phase`] and leaves that attempt alone.
    /// If `f` panics, the attempt stays under way: [`Session::drop_attempt`] ends it.
    ///
    /// ```
    /// use vunchrem::{Refusal, Scheme, Session};
    ///
    /// let mut session = Session::open(Scheme::NorsettEuler, 0.0, &[1.0], &[-1.0], 1e-6, 1e-9)?;
    /// session.step(0.5, |_, u, du| du[0] = -u[0])?;
    /// assert!((session.state()[0] - (-0.5f64).exp()).abs() < 1e-6);
    ///
    /// // A damaged word, huge but finite: the step is refused and the depth stays where it was.
    /// let kept = session.state().to_vec();
    /// let refused = session.step(0.5, |_, u, du| du[0] = -1e300 * u[0]);
    /// assert_eq!(refused, Err(Refusal::Arithmetic));
    /// assert_eq!(session.state(), kept);
    /// # Ok::<(), Refusal>(())
    /// ```
    pub fn step<F: FnMut(f64, &[f64], &mut [f64])>(&mut self, step: f64, f: F) -> Result<Stepped, Refusal> {
        self.stepped(step, None, f)
    }

    /// One whole step as by [`Session::step`], with a Jacobian of n * n entries, row by row, in place of a differenced one.
    pub fn step_with_jacobian<F: FnMut(f64, &[f64], &mut [f64])>(
        &mut self,
        step: f64,
        jacobian: &[f64],
        f: F,
    ) -> Result<Stepped, Refusal> {
        self.stepped(step, Some(jacobian), f)
    }

    fn stepped<F: FnMut(f64, &[f64], &mut [f64])>(
        &mut self,
        step: f64,
        jacobian: Option<&[f64]>,
        f: F,
    ) -> Result<Stepped, Refusal> {
        let mut places = [0.0; MOST];
        let t = self.call_begin(step, jacobian, &mut places)?;
        let end = self.finished(step, t, places, f);
        if end.is_err() {
            self.drop_attempt()?;
        }
        end
    }

    fn finished<F: FnMut(f64, &[f64], &mut [f64])>(
        &mut self,
        step: f64,
        mut t: Told,
        mut places: [f64; MOST],
        mut f: F,
    ) -> Result<Stepped, Refusal> {
        let n = self.n();
        while t.is(layout::ASK) {
            let mut du = [0.0; MOST];
            f(t.told[0], &places[..n], &mut du[..n]);
            t = self.call_supply(t.place(), &du[..n], &mut places)?;
        }
        let mut du = [0.0; MOST];
        f(self.time() + step, &places[..n], &mut du[..n]);
        self.accept(&du[..n])?;
        let [right_hand_sides, jacobians, products] = t.counts();
        Ok(Stepped {
            error_norm: t.told[0],
            right_hand_sides,
            jacobians,
            products,
        })
    }
}

/// The exponential of a matrix of `size` 1 to 20, `size` * `size` entries row by row, and how far it went.
///
/// ```
/// let (e, reach) = vunchrem::exponential(2, &[0.0, 1.0, 0.0, 0.0])?;
/// assert_eq!(e, [1.0, 1.0, 0.0, 1.0]);
/// assert_eq!((reach.terms, reach.squarings), (2, 1)); // the second term is zero, and the series stops
/// # Ok::<(), vunchrem::Refusal>(())
/// ```
pub fn exponential(size: usize, matrix: &[f64]) -> Result<(Vec<f64>, Reach), Refusal> {
    let mut out = vec![0.0; matrix.len()];
    let mut t = Told::new();
    // SAFETY: each pointer and length is that of an array or slice that is lent for the call; no two of the lent ones overlap.
    let code = unsafe {
        raw::vunchrem_exponential(
            size as u64,
            matrix.as_ptr(),
            matrix.len(),
            out.as_mut_ptr(),
            out.len(),
            t.words.as_mut_ptr(),
            t.words.len(),
            t.told.as_mut_ptr(),
            t.told.len(),
        )
    };
    let reach = t.sorted(code)?.reach();
    Ok((out, reach))
}

/// The phi function of `order` 1 to 4 of `scale` times a matrix, on `input`: n entries, 1 to 16; the matrix has n * n, row by row. Beside it, how
/// far its exponential went, which is that of a matrix of size n + `order` with the input in a column of its own.
///
/// ```
/// let (v, reach) = vunchrem::phi_action(1, 1.0, &[0.0], &[2.0])?;
/// assert_eq!(v, [2.0]);
/// assert_eq!((reach.terms, reach.squarings), (2, 2)); // of the matrix with the rows 0 2 and 0 0
/// # Ok::<(), vunchrem::Refusal>(())
/// ```
pub fn phi_action(order: usize, scale: f64, matrix: &[f64], input: &[f64]) -> Result<(Vec<f64>, Reach), Refusal> {
    let mut out = vec![0.0; input.len()];
    let mut t = Told::new();
    // SAFETY: as in `exponential`.
    let code = unsafe {
        raw::vunchrem_phi_action(
            input.len() as u64,
            order as u64,
            scale,
            matrix.as_ptr(),
            matrix.len(),
            input.as_ptr(),
            input.len(),
            out.as_mut_ptr(),
            out.len(),
            t.words.as_mut_ptr(),
            t.words.len(),
            t.told.as_mut_ptr(),
            t.told.len(),
        )
    };
    let reach = t.sorted(code)?.reach();
    Ok((out, reach))
}

/// The scaled error norm of an error vector at a state and a candidate, each of 1 to 16 entries. It may be infinite, and is never NaN.
///
/// ```
/// let norm = vunchrem::error_norm(1.0, 1.0, &[-3.0], &[0.0], &[0.0])?;
/// assert_eq!(norm, 3.0);
/// let norm = vunchrem::error_norm(1.0, &[1.0, 4.0], &[0.0, 8.0], &[0.0, 0.0], &[0.0, 0.0])?;
/// assert_eq!(norm, 2f64.sqrt());
/// # Ok::<(), vunchrem::Refusal>(())
/// ```
pub fn error_norm<'a>(
    relative: f64,
    absolute: impl Into<Tolerance<'a>>,
    error: &[f64],
    state: &[f64],
    candidate: &[f64],
) -> Result<f64, Refusal> {
    let n = error.len();
    if state.len() != n || candidate.len() != n {
        return Err(Refusal::Size);
    }
    let (Some(a), Some(e), Some(u), Some(v)) = (
        absolute.into().places(n),
        padded(error),
        padded(state),
        padded(candidate),
    ) else {
        return Err(Refusal::Size);
    };
    let mut t = Told::new();
    // SAFETY: as in `exponential`.
    let code = unsafe {
        raw::vunchrem_error_norm(
            n as u64,
            relative,
            a.as_ptr(),
            a.len(),
            e.as_ptr(),
            e.len(),
            u.as_ptr(),
            u.len(),
            v.as_ptr(),
            v.len(),
            t.words.as_mut_ptr(),
            t.words.len(),
            t.told.as_mut_ptr(),
            t.told.len(),
        )
    };
    t.sorted(code).map(|t| t.told[0])
}
