//! `NewReno`, read from inside its module.

use super::{NewReno, NewRenoConfig};
use crate::Instant;
use crate::congestion::oracle_view::Viewed;
use crate::subject::{Malformed, line, read};

impl Viewed for NewReno {
    fn start(window: u64, mtu: u16, now: Instant, rest: &[&str]) -> Result<Self, Malformed> {
        let [factor] = rest else {
            return Err(Malformed);
        };
        let mut config = NewRenoConfig::default();
        config
            .initial_window(window)
            .loss_reduction_factor(read(factor)?);
        Ok(Self::new(config.into(), now, mtu))
    }

    fn fields(&self) -> String {
        line(&[
            &self.config.initial_window,
            &self.config.loss_reduction_factor,
            &self.current_mtu,
            &self.window,
            &self.ssthresh,
            &self.recovery_start_time,
            &self.bytes_acked,
        ])
    }
}

impl NewReno {
    /// The bytes that are missing to the next change in the way that the window grows: to the end of
    /// slow start, or to the next datagram past it.
    pub fn missing_bytes(&self) -> u64 {
        if self.window < self.ssthresh {
            self.ssthresh - self.window
        } else {
            self.window.saturating_sub(self.bytes_acked)
        }
    }
}
