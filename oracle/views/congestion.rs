//! The controllers, driven by one set of calls, and the way to the views of the modules that
//! `congestion` keeps private.

pub use super::bbr::oracle_view as bbr;

use super::Controller;
use crate::connection::RttEstimator;
use crate::subject::{Call, Malformed, Subject, line, read};
use crate::{Duration, Instant};

/// The crate's default for the initial RTT.
const INITIAL_RTT: Duration = Duration::from_millis(333);

/// A controller that is read from inside its module.
pub trait Viewed: Controller + Clone {
    /// A new controller; `rest` is what its `new` takes behind window, MTU and time.
    fn start(window: u64, mtu: u16, now: Instant, rest: &[&str]) -> Result<Self, Malformed>;

    /// Every field.
    fn fields(&self) -> String;
}

/// A controller, and the RTT estimator that it is shown with each ack.
#[derive(Clone)]
pub struct View<C> {
    /// The controller.
    pub controller: C,
    rtt: RttEstimator,
}

impl<C: Viewed> Subject for View<C> {
    fn make(args: &[&str]) -> Result<Self, Malformed> {
        let [window, mtu, now, rest @ ..] = args else {
            return Err(Malformed);
        };
        Ok(Self {
            controller: C::start(read(window)?, read(mtu)?, read(now)?, rest)?,
            rtt: RttEstimator::new(INITIAL_RTT),
        })
    }

    fn perform(&mut self, call: &Call) -> Result<Option<String>, Malformed> {
        let Self { controller, rtt } = self;
        match call.parts() {
            ("rtt_new", [initial]) => *rtt = RttEstimator::new(read(initial)?),
            ("rtt_update", [ack_delay, sample]) => rtt.update(read(ack_delay)?, read(sample)?),
            ("on_sent", [now, bytes, number]) => {
                controller.on_sent(read(now)?, read(bytes)?, read(number)?);
            }
            ("on_ack", [now, sent, bytes, app_limited]) => {
                let (now, sent) = (read(now)?, read(sent)?);
                controller.on_ack(now, sent, read(bytes)?, read(app_limited)?, rtt);
            }
            ("on_end_acks", [now, in_flight, app_limited, largest]) => {
                let (now, in_flight) = (read(now)?, read(in_flight)?);
                controller.on_end_acks(now, in_flight, read(app_limited)?, read(largest)?);
            }
            ("on_congestion_event", [now, sent, persistent, lost]) => {
                let (now, sent) = (read(now)?, read(sent)?);
                controller.on_congestion_event(now, sent, read(persistent)?, read(lost)?);
            }
            ("on_mtu_update", [mtu]) => controller.on_mtu_update(read(mtu)?),
            _ => return Err(Malformed),
        }
        Ok(None)
    }

    fn state(&self) -> String {
        let metrics = self.controller.metrics();
        line(&[
            &self.controller.fields(),
            &self.controller.window(),
            &metrics.congestion_window,
            &metrics.ssthresh,
            &metrics.pacing_rate,
            &self.controller.initial_window(),
        ])
    }
}
