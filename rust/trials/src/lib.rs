//! The families library tried call by call against the reference: each call
//! gets guarded space, and its answer, every lent cell and every table are
//! compared with what the reference expects.

pub mod arguments;
pub mod calls;
pub mod guarded;
pub mod inserts;
pub mod lists;
pub mod sheets;
pub mod strengths;
pub mod told;
pub mod trials;

pub use trials::Trials;
