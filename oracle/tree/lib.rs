// The root of the module tree, in place of the crate's `lib.rs`. The build step adds
// `TIMER_GRANULARITY` below, cut out of that file.

// The controllers stand here whole, used or not.
#[allow(dead_code, unused_imports)]
mod congestion;
mod connection;

pub(crate) use std::time::{Duration, Instant};

