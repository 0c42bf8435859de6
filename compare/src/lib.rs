//! The questions that both libraries are asked, and what follows from the crate's answers alone.

pub mod answers;
pub mod counters;
pub mod frames;
pub mod ids;
#[cfg(feature = "library")]
pub mod linked;
pub mod listing;
pub mod lists;
pub mod plains;
pub mod rng;
#[cfg(feature = "library")]
pub mod songs;
pub mod sources;
pub mod tags;
pub mod texts;
pub mod wire;
