//! In place of the crate's `connection/mod.rs`, which is the whole protocol.

pub(crate) mod pacing;
#[allow(dead_code)]
pub(crate) mod paths;

pub use paths::RttEstimator;
