//! The imports of `RttEstimator`, which the build step adds below, cut out of the crate's
//! `connection/paths.rs`.

use std::cmp;

use crate::{Duration, TIMER_GRANULARITY};

