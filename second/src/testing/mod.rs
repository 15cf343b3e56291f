//! What the two judges are tried with and compared by: inputs that are generated or listed, their container, a printing
//! of what was read, and the proved judge as it is linked.

pub mod cases;
pub mod container;
pub mod damaging;
pub mod describing;
pub mod generating;
pub mod line_end_traps;
pub mod line_ends;
pub mod plans;
#[cfg(plan_judge)]
pub mod proved;
pub mod random;
#[cfg(plan_judge)]
pub mod stack;
pub mod term_faults;
pub mod vectors;
