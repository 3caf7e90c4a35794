//! `RttEstimator`, driven and read from inside its module.

use super::RttEstimator;
use crate::subject::{Call, Malformed, Subject, line, read};

/// The RTT estimator.
#[derive(Clone)]
pub struct View(RttEstimator);

impl View {
    /// The least RTT so far, in nanoseconds.
    pub fn min(&self) -> u64 {
        self.0.min.as_nanos() as u64
    }

    /// Whether a sample was taken.
    pub fn has_sample(&self) -> bool {
        self.0.smoothed.is_some()
    }
}

impl Subject for View {
    fn make(args: &[&str]) -> Result<Self, Malformed> {
        match args {
            [initial_rtt] => Ok(Self(RttEstimator::new(read(initial_rtt)?))),
            _ => Err(Malformed),
        }
    }

    fn perform(&mut self, call: &Call) -> Result<Option<String>, Malformed> {
        let ("update", [ack_delay, rtt]) = call.parts() else {
            return Err(Malformed);
        };
        self.0.update(read(ack_delay)?, read(rtt)?);
        Ok(None)
    }

    fn state(&self) -> String {
        let estimator = &self.0;
        line(&[
            &estimator.latest,
            &estimator.smoothed,
            &estimator.var,
            &estimator.min,
            &estimator.get(),
            &estimator.conservative(),
            &estimator.pto_base(),
        ])
    }
}
