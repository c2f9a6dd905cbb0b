//! An independent implementation of the drill monitor.

pub mod drill;
pub mod faults;
pub mod generator;
pub mod history;
pub mod kinds;
#[cfg(feature = "timing")]
pub mod lent;
#[cfg(feature = "timing")]
pub mod lent_wire;
pub mod lost;
pub mod monitor;
pub mod nothing;
pub mod number;
pub mod wire;
pub mod words;
