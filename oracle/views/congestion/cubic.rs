//! `Cubic`, read from inside its module.

use super::{Cubic, CubicConfig};
use crate::Instant;
use crate::congestion::oracle_view::Viewed;
use crate::subject::{Malformed, line};

impl Viewed for Cubic {
    fn start(window: u64, mtu: u16, now: Instant, rest: &[&str]) -> Result<Self, Malformed> {
        let [] = rest else {
            return Err(Malformed);
        };
        let mut config = CubicConfig::default();
        config.initial_window(window);
        Ok(Self::new(config.into(), now, mtu))
    }

    fn fields(&self) -> String {
        line(&[
            &self.config.initial_window,
            &self.window,
            &self.ssthresh,
            &self.recovery_start_time,
            &self.cubic_state.k,
            &self.cubic_state.w_max,
            &self.cubic_state.cwnd_inc,
            &self.current_mtu,
        ])
    }
}

impl Cubic {
    /// The time after a loss, in nanoseconds, at which the window is to be what it was before.
    pub fn plateau(&self) -> u64 {
        (self.cubic_state.k * 1e9) as u64
    }

    /// The bytes gathered for the next increase past slow start.
    pub fn gathered(&self) -> u64 {
        self.cubic_state.cwnd_inc
    }
}
