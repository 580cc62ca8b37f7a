//! The schemes by name and number. The tool of sonde_table/ reads this file too.

/// The sixteen schemes, in the order and with the numbers of the published module.
#[derive(Clone, Copy, Debug, Eq, Hash, PartialEq)]
#[repr(u8)]
pub enum Scheme {
    /// First-order Lawson exponential Euler method.
    LawsonEuler = 0,
    /// First-order Nørsett exponential Euler method.
    NorsettEuler = 1,
    /// Second-order exponential Runge-Kutta method.
    Etdrk2 = 2,
    /// Third-order exponential Runge-Kutta method.
    Etdrk3 = 3,
    /// Fourth-order exponential Runge-Kutta method.
    Etdrk4 = 4,
    /// Hochbruck and Ostermann's method of stiff order four.
    HochOst4 = 5,
    /// Hochbruck, Lubich and Selhofer's exp4.
    Exp4 = 6,
    /// Three-stage EPIRK method of stiff order four, A.
    Epirk4s3A = 7,
    /// Three-stage EPIRK method of stiff order four, B.
    Epirk4s3B = 8,
    /// Three-stage fifth-order horizontal EPIRK method.
    Epirk5s3 = 9,
    /// Three-stage fifth-order exponential Rosenbrock method.
    Exprb53s3 = 10,
    /// Fifth-order EPIRK method P1.
    Epirk5P1 = 11,
    /// Fifth-order EPIRK method P2.
    Epirk5P2 = 12,
    /// Second-order multistep exponential time differencing; the only one with a history.
    Etd2 = 13,
    /// Embedded exponential Rosenbrock 3(2) method; it has an error norm.
    Exprb32 = 14,
    /// Embedded exponential Rosenbrock 4(3) method; it has an error norm.
    Exprb43 = 15,
}

impl Scheme {
    /// All sixteen, in order.
    pub const ALL: [Scheme; 16] = [
        Scheme::LawsonEuler,
        Scheme::NorsettEuler,
        Scheme::Etdrk2,
        Scheme::Etdrk3,
        Scheme::Etdrk4,
        Scheme::HochOst4,
        Scheme::Exp4,
        Scheme::Epirk4s3A,
        Scheme::Epirk4s3B,
        Scheme::Epirk5s3,
        Scheme::Exprb53s3,
        Scheme::Epirk5P1,
        Scheme::Epirk5P2,
        Scheme::Etd2,
        Scheme::Exprb32,
        Scheme::Exprb43,
    ];

    /// The classical order of convergence.
    pub const fn order(self) -> usize {
        match self {
            Scheme::LawsonEuler | Scheme::NorsettEuler => 1,
            Scheme::Etdrk2 | Scheme::Etd2 => 2,
            Scheme::Etdrk3 | Scheme::Exprb32 => 3,
            Scheme::Etdrk4
            | Scheme::HochOst4
            | Scheme::Exp4
            | Scheme::Epirk4s3A
            | Scheme::Epirk4s3B
            | Scheme::Exprb43 => 4,
            Scheme::Epirk5s3 | Scheme::Exprb53s3 | Scheme::Epirk5P1 | Scheme::Epirk5P2 => 5,
        }
    }
}
