//! What is recorded of each module. Only calls inside the limits at the head of each list.

pub mod bbr;
pub mod bw;
mod controllers;
pub mod cubic;
pub mod min_max;
pub mod new_reno;
pub mod pacer;
pub mod rtt;

use crate::random::Xorshift;
use crate::recorder::Recorder;

/// Records the calls of a list on a subject.
pub type List<S> = fn(&mut Recorder<S>, &mut Xorshift);

/// A millisecond in nanoseconds.
const MILLISECOND: u64 = 1_000_000;

/// The latest time of a list: the greatest number that a QUIC variable-length integer holds.
const LAST_TIME: u64 = (1 << 62) - 1;
