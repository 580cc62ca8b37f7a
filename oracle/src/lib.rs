//! The oracle: the published Rust beside the port, which is compared with it bit for bit.
//!
//! `published` is the Rust as it stands, `compared` the same with the figures that document 01 settles, `observed`
//! the same with an eye on how long it would take (oracle/build makes them and lists the substitutions).

mod stand_ins;

pub mod bits;
pub mod bytes;
pub mod compare;
pub mod console;
pub mod exact;
pub mod field;
pub mod fixed_script;
mod fixed_places;
mod fixed_steps;
mod float_list;
pub mod inputs;
pub mod lists;
mod matrix_list;
pub mod model;
pub mod old_session;
pub mod order;
pub mod pass;
mod pass_list;
pub mod random;
pub mod random_input;
pub mod random_script;
pub mod random_table;
pub mod refused;
pub mod script;
pub mod search;
pub mod sonde;
pub mod squaring_list;
pub mod table;
pub mod tolerances;
pub mod watch;

pub use stand_ins::{
    OdeAlgorithm, OdeFunction, OdeProblem, Solution, SolveError, SolveOptions, SolverStats,
    integrator,
};

#[path = "../../target/oracle/published"]
#[allow(dead_code, unused_imports)]
pub mod published {
    mod general;
    pub use general::door::*;
}

#[path = "../../target/oracle/compared"]
#[allow(dead_code, unused_imports)]
pub mod compared {
    mod general;
    pub use general::door::*;
}

#[path = "../../target/oracle/observed"]
#[allow(dead_code, unused_imports)]
pub mod observed {
    mod general;
    pub use general::door::*;
}
