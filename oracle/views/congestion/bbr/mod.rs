//! `Bbr`, read from inside its module, and the way to the views of the modules that `bbr` keeps
//! private.

pub use super::{bw_estimation::oracle_view as bw_estimation, min_max::oracle_view as min_max};

use rand::RngExt;
use rand_pcg::Pcg32;

use super::{AckAggregationState, Bbr, BbrConfig, Mode, RecoveryState};
use crate::{Duration, Instant, clock};
use crate::congestion::oracle_view::Viewed;
use crate::subject::{Field, Malformed, line, read};

impl Field for Mode {
    fn text(&self) -> String {
        format!("{self:?}")
    }
}

impl Field for RecoveryState {
    fn text(&self) -> String {
        format!("{self:?}")
    }
}

impl Field for AckAggregationState {
    fn text(&self) -> String {
        line(&[
            &min_max::fields(&self.max_ack_height),
            &self.aggregation_epoch_start_time,
            &self.aggregation_epoch_bytes,
        ])
    }
}

// The next draw: all that can be seen of a source of draws.
impl Field for Pcg32 {
    fn text(&self) -> String {
        self.clone().random_range(0..7).text()
    }
}

/// The draws named by the last arguments of `new`.
fn draws(words: &[&str]) -> Result<Pcg32, Malformed> {
    match words {
        ["recorded", list @ ..] => {
            let list: Vec<u8> = list.iter().copied().map(read).collect::<Result<_, _>>()?;
            let draws = list.try_into().map_err(|_| Malformed)?;
            Ok(Pcg32::recorded(draws))
        }
        ["xorshift", seed] => Ok(Pcg32::xorshift(read(seed)?)),
        _ => Err(Malformed),
    }
}

impl Viewed for Bbr {
    fn start(window: u64, mtu: u16, _: Instant, rest: &[&str]) -> Result<Self, Malformed> {
        let mut config = BbrConfig::default();
        config.initial_window(window);
        Ok(Self {
            random_number_generator: draws(rest)?,
            ..Self::new(config.into(), mtu)
        })
    }

    fn fields(&self) -> String {
        line(&[
            &self.config.initial_window,
            &self.current_mtu,
            &bw_estimation::fields(&self.max_bandwidth),
            &self.acked_bytes,
            &self.mode,
            &self.loss_state.lost_bytes,
            &self.recovery_state,
            &self.recovery_window,
            &self.is_at_full_bandwidth,
            &self.pacing_gain,
            &self.high_gain,
            &self.drain_gain,
            &self.cwnd_gain,
            &self.high_cwnd_gain,
            &self.last_cycle_start,
            &self.current_cycle_offset,
            &self.init_cwnd,
            &self.min_cwnd,
            &self.prev_in_flight_count,
            &self.exit_probe_rtt_at,
            &self.probe_rtt_last_started_at,
            &self.min_rtt,
            &self.exiting_quiescence,
            &self.pacing_rate,
            &self.max_acked_packet_number,
            &self.max_sent_packet_number,
            &self.end_recovery_at_packet_number,
            &self.cwnd,
            &self.current_round_trip_end_packet_number,
            &self.round_count,
            &self.bw_at_last_round,
            &self.round_wo_bw_gain,
            &self.ack_aggregation,
            &self.random_number_generator,
        ])
    }
}

/// Where the next end is decided one way or the other.
pub struct Edges {
    /// Times, in nanoseconds.
    pub times: Vec<u64>,
    /// Bytes in flight.
    pub in_flight: Vec<u64>,
    /// Numbers of datagrams.
    pub numbers: Vec<u64>,
    /// Bytes lost.
    pub lost: Vec<u64>,
}

impl Bbr {
    /// What the next end turns on.
    pub fn edges(&self) -> Edges {
        let times = [
            self.last_cycle_start.map(|start| start + self.min_rtt),
            self.exit_probe_rtt_at,
            self.probe_rtt_last_started_at
                .map(|start| start + Duration::from_secs(10)),
            self.aggregation_end(),
        ];
        Edges {
            times: times
                .into_iter()
                .flatten()
                .filter_map(|time| clock::nanos(time).try_into().ok())
                .collect(),
            in_flight: vec![
                self.get_target_cwnd(1.0),
                self.get_target_cwnd(self.pacing_gain),
                self.get_probe_rtt_cwnd() + self.current_mtu,
            ],
            numbers: vec![
                self.current_round_trip_end_packet_number,
                self.end_recovery_at_packet_number,
            ],
            lost: vec![self.recovery_window],
        }
    }

    /// When the acks of the present aggregation come to the bandwidth.
    fn aggregation_end(&self) -> Option<Instant> {
        let bytes = self.ack_aggregation.aggregation_epoch_bytes * 1_000_000;
        let micros = bytes.checked_div(self.max_bandwidth.get_estimate())?;
        let start = self.ack_aggregation.aggregation_epoch_start_time?;
        Some(start + Duration::from_micros(micros))
    }
}
