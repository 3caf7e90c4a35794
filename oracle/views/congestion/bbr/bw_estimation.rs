//! `BandwidthEstimation`, driven and read from inside its module.

use super::BandwidthEstimation;
use crate::congestion::bbr::min_max::oracle_view as min_max;
use crate::subject::{Call, Field, Malformed, Subject, line, read};

/// The estimate of the delivery rate.
#[derive(Clone)]
pub struct View(BandwidthEstimation);

/// Totals and times acked, totals and times sent, the filter, the total at the last end.
pub(in crate::congestion::bbr) fn fields(estimation: &BandwidthEstimation) -> String {
    line(&[
        &estimation.total_acked,
        &estimation.prev_total_acked,
        &estimation.acked_time,
        &estimation.prev_acked_time,
        &estimation.total_sent,
        &estimation.prev_total_sent,
        &estimation.sent_time,
        &estimation.prev_sent_time,
        &min_max::fields(&estimation.max_filter),
        &estimation.acked_at_last_window,
    ])
}

impl Subject for View {
    fn make(args: &[&str]) -> Result<Self, Malformed> {
        match args {
            [] => Ok(Self(BandwidthEstimation::default())),
            _ => Err(Malformed),
        }
    }

    fn perform(&mut self, call: &Call) -> Result<Option<String>, Malformed> {
        match call.parts() {
            ("on_sent", [now, bytes]) => self.0.on_sent(read(now)?, read(bytes)?),
            ("on_ack", [now, sent, bytes, round, app_limited]) => {
                let (now, sent) = (read(now)?, read(sent)?);
                let (bytes, round) = (read(bytes)?, read(round)?);
                self.0.on_ack(now, sent, bytes, round, read(app_limited)?)
            }
            ("end_acks", [round, app_limited]) => self.0.end_acks(read(round)?, read(app_limited)?),
            ("bw_from_delta", [bytes, delta]) => {
                let answer = BandwidthEstimation::bw_from_delta(read(bytes)?, read(delta)?);
                return Ok(Some(answer.text()));
            }
            _ => return Err(Malformed),
        }
        Ok(None)
    }

    fn state(&self) -> String {
        line(&[
            &fields(&self.0),
            &self.0.bytes_acked_this_window(),
            &self.0.get_estimate(),
        ])
    }
}
