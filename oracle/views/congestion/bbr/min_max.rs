//! `MinMax`, driven and read from inside its module.

use super::MinMax;
use crate::subject::{Call, Malformed, Subject, line, read};

/// The windowed maximum filter.
#[derive(Clone)]
pub struct View(MinMax);

/// `window time0 value0 time1 value1 time2 value2`.
pub(in crate::congestion::bbr) fn fields(filter: &MinMax) -> String {
    let [first, second, third] = &filter.samples;
    line(&[
        &filter.window,
        &first.time,
        &first.value,
        &second.time,
        &second.value,
        &third.time,
        &third.value,
    ])
}

impl Subject for View {
    fn make(args: &[&str]) -> Result<Self, Malformed> {
        match args {
            [] => Ok(Self(MinMax::default())),
            _ => Err(Malformed),
        }
    }

    fn perform(&mut self, call: &Call) -> Result<Option<String>, Malformed> {
        match call.parts() {
            ("update_max", [round, value]) => self.0.update_max(read(round)?, read(value)?),
            ("reset", []) => self.0.reset(),
            _ => return Err(Malformed),
        }
        Ok(None)
    }

    fn state(&self) -> String {
        line(&[&fields(&self.0), &self.0.get()])
    }
}
