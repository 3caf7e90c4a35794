//! `Pacer`, driven and read from inside its module.

use super::Pacer;
use crate::subject::{Call, Field, Malformed, Subject, line, read};

/// The pacer.
pub struct View(Pacer);

impl View {
    /// The bytes that may be sent at once.
    pub fn tokens(&self) -> u64 {
        self.0.tokens
    }
}

// The crate's pacer is not `Clone`.
impl Clone for View {
    fn clone(&self) -> Self {
        let Pacer {
            capacity,
            last_window,
            last_mtu,
            tokens,
            prev,
        } = self.0;
        Self(Pacer {
            capacity,
            last_window,
            last_mtu,
            tokens,
            prev,
        })
    }
}

impl Subject for View {
    fn make(args: &[&str]) -> Result<Self, Malformed> {
        let [rtt, window, mtu, now] = args else {
            return Err(Malformed);
        };
        let pacer = Pacer::new(read(rtt)?, read(window)?, read(mtu)?, read(now)?);
        Ok(Self(pacer))
    }

    fn perform(&mut self, call: &Call) -> Result<Option<String>, Malformed> {
        match call.parts() {
            ("on_transmit", [length]) => {
                self.0.on_transmit(read(length)?);
                Ok(None)
            }
            ("delay", [rtt, bytes, mtu, window, now]) => {
                let (rtt, now) = (read(rtt)?, read(now)?);
                let answer = self
                    .0
                    .delay(rtt, read(bytes)?, read(mtu)?, read(window)?, now);
                Ok(Some(answer.text()))
            }
            _ => Err(Malformed),
        }
    }

    fn state(&self) -> String {
        let pacer = &self.0;
        line(&[
            &pacer.capacity,
            &pacer.last_window,
            &pacer.last_mtu,
            &pacer.tokens,
            &pacer.prev,
        ])
    }
}
