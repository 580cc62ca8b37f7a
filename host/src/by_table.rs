//! Steps by a table: no question leaves the core.
use super::{padded, raw, Refusal, Scheme, Session, Table, Told, Tolerance};

impl Session {
    /// Opens a run at `time` with the dimension of `state`, which has 1 to 16 entries, and the derivative that the table gives there.
    ///
    /// Refused as [`Session::open`] refuses with a derivative of zeros, then by [`Refusal::Table`], then by [`Refusal::NotFinite`] where the
    /// derivative overflows.
    ///
    /// ```
    /// use vunchrem::{Refusal, Scheme, Session, Table};
    ///
    /// let open = |c, j| Session::open_by_table(Scheme::Exp4, 0.0, &[3.0], 1e-6, 1e-9, &Table::new().linear(0, c, j));
    /// assert_eq!(open(-2.0, 0)?.derivative(), [-6.0]);
    /// assert_eq!(open(-2.0, 1).map(drop), Err(Refusal::Table)); // there is no u1
    /// assert_eq!(open(1e308, 0).map(drop), Err(Refusal::NotFinite));
    /// # Ok::<(), Refusal>(())
    /// ```
    pub fn open_by_table<'a>(
        scheme: Scheme,
        time: f64,
        state: &[f64],
        relative: f64,
        absolute: impl Into<Tolerance<'a>>,
        table: &Table,
    ) -> Result<Session, Refusal> {
        let n = state.len();
        let (Some(a), Some(u)) = (absolute.into().places(n), padded(state)) else {
            return Err(Refusal::Size);
        };
        let records = table.as_bytes();
        let mut s = Session::blank();
        let mut t = Told::new();
        // SAFETY: each pointer and length is that of an array or slice that is lent for the call; no two of the lent ones overlap.
        let code = unsafe {
            raw::vunchrem_open_by_table(
                scheme as u64,
                n as u64,
                time,
                relative,
                a.as_ptr(),
                a.len(),
                u.as_ptr(),
                u.len(),
                records.as_ptr(),
                records.len(),
                s.numbers.as_mut_ptr(),
                s.numbers.len(),
                s.figures.as_mut_ptr(),
                s.figures.len(),
                t.words.as_mut_ptr(),
                t.words.len(),
                t.told.as_mut_ptr(),
                t.told.len(),
            )
        };
        t.sorted(code)?;
        Ok(s)
    }

    /// One whole step with every question answered by the table: the Jacobian is differenced, and the candidate accepted whatever its error norm.
    /// It is [`Session::step`] with a closure that evaluates the table, bit for bit, in one call.
    ///
    /// Refused with the session as it came: first by what is wrong with the session, which is to be at rest; then by [`Refusal::Table`]; then
    /// by [`Refusal::Step`]; then as the step comes, a derivative that overflows by [`Refusal::NotFinite`].
    ///
    /// ```
    /// use vunchrem::{Refusal, Scheme, Session, Table};
    ///
    /// let table = Table::new().constant(0, 1.0).timed(0, -2.0, 0);    // u' = 1 - 2 u t
    /// let mut session = Session::open_by_table(Scheme::Etdrk4, 0.0, &[0.0], 1e-6, 1e-9, &table)?;
    /// for _ in 0..10 {
    ///     session.whole_step(0.1, &table)?;
    /// }
    /// assert!((session.state()[0] - 0.5380795069).abs() < 1e-4);    // Dawson's integral at 1
    ///
    /// let kept = session.save();
    /// assert_eq!(session.whole_step(0.1, &Table::from_bytes([0; 15])), Err(Refusal::Table));
    /// assert_eq!(session.save(), kept);
    /// # Ok::<(), Refusal>(())
    /// ```
    pub fn whole_step(&mut self, step: f64, table: &Table) -> Result<(), Refusal> {
        let records = table.as_bytes();
        let mut t = Told::new();
        // SAFETY: as in `open_by_table`.
        let code = unsafe {
            raw::vunchrem_whole_step(
                step,
                records.as_ptr(),
                records.len(),
                self.numbers.as_mut_ptr(),
                self.numbers.len(),
                self.figures.as_mut_ptr(),
                self.figures.len(),
                t.words.as_mut_ptr(),
                t.words.len(),
                t.told.as_mut_ptr(),
                t.told.len(),
            )
        };
        t.sorted(code).map(drop)
    }
}
