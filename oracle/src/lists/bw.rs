//! The list of `BandwidthEstimation`: `new`, `on_sent NOW BYTES`,
//! `on_ack NOW SENT BYTES ROUND APP_LIMITED`, `end_acks ROUND APP_LIMITED` and
//! `bw_from_delta BYTES NANOS`. Times in nanoseconds, flags 0 or 1. Times and rounds may go back.

use std::ops::RangeInclusive;

pub use crate::congestion::oracle_view::bbr::bw_estimation::View;

use super::{LAST_TIME, MILLISECOND};
use crate::random::Xorshift;
use crate::recorder::Recorder;

/// The greatest number of bytes whose product with 10^9 fits 64 bits. From the next one on the crate
/// panics.
const MOST_BYTES: u64 = u64::MAX / 1_000_000_000;

const TIMES: RangeInclusive<u64> = 0..=LAST_TIME;

/// Records the list.
pub fn list(recorder: &mut Recorder<View>, random: &mut Xorshift) {
    worked_figures(recorder);
    rates(recorder, random);
    orders_of_calls(recorder);
    small_values(recorder);
    around_edges(recorder, random);
    flows(recorder, random);
}

/// Datagrams of 1,200 bytes sent and acked a millisecond apart: 1,200,000 bytes a second.
fn worked_figures(recorder: &mut Recorder<View>) {
    recorder.call("new", &[]);
    for now in [0, MILLISECOND] {
        recorder.call("on_sent", &[now, 1_200]);
    }
    for sent in [0, MILLISECOND] {
        recorder.call("on_ack", &[sent + 50 * MILLISECOND, sent, 1_200, 0, 0]);
    }
    recorder.call("end_acks", &[0, 0]);
}

/// The question that needs no estimation.
fn rates(recorder: &mut Recorder<View>, random: &mut Xorshift) {
    const SECOND: u64 = 1_000_000_000;
    recorder.call("new", &[]);
    for bytes in [0, 1, 1_200, MOST_BYTES] {
        for delta in [0, 1, SECOND - 1, SECOND, SECOND + 1, u64::MAX] {
            recorder.call("bw_from_delta", &[bytes, delta]);
        }
    }
    for _ in 0..80 {
        let bytes = random.of_any_size(1..=MOST_BYTES);
        let delta = random.of_any_size(1..=u64::MAX);
        recorder.call("bw_from_delta", &[bytes, delta]);
    }
}

/// Every order of three calls, each at a time of its own.
fn orders_of_calls(recorder: &mut Recorder<View>) {
    let perform = |recorder: &mut Recorder<View>, kind: u64, now: u64| match kind {
        0 => recorder.call("on_sent", &[now, 1_000]),
        1 => recorder.call("on_ack", &[now, 0, 1_000, now, 0]),
        _ => recorder.call("end_acks", &[now, 0]),
    };
    for order in 0..27 {
        recorder.call("new", &[]);
        for (kind, now) in [order / 9, order / 3 % 3, order % 3].into_iter().zip(1..) {
            perform(recorder, kind, now);
        }
    }
}

/// Two sends and two acks: equal times, the slower of the two rates, the flag.
fn small_values(recorder: &mut Recorder<View>) {
    for send_gap in [0, 1, 3] {
        for sent in [0, 1, 7] {
            for ack_gap in [0, 1, 3] {
                for acked in [0, 1, 7] {
                    for app_limited in [0, 1] {
                        recorder.call("new", &[]);
                        recorder.call("on_sent", &[5, 9]);
                        recorder.call("on_sent", &[5 + send_gap, sent]);
                        recorder.call("on_ack", &[10, 5, 9, 0, 0]);
                        recorder.call("on_ack", &[10 + ack_gap, 5, acked, 1, app_limited]);
                    }
                }
            }
        }
    }
}

/// Times and bytes at their limits, times and rounds that go back, sums up to the greatest number.
fn around_edges(recorder: &mut Recorder<View>, random: &mut Xorshift) {
    for _ in 0..60 {
        recorder.call("new", &[]);
        let time_edge = random.pick(&[0, 1_000, LAST_TIME]);
        let byte_edge = random.pick(&[0, 1_200, MOST_BYTES, u64::MAX]);
        for _ in 0..10 {
            let now = random.near(time_edge, 5, TIMES);
            let bytes = random.near(byte_edge, 2, 0..=u64::MAX);
            let round = random.within(0..=3);
            match random.within(0..=6) {
                0..=2 => recorder.call("on_sent", &[now, bytes]),
                3..=5 => {
                    let app_limited = u64::from(random.once_in(4));
                    recorder.call("on_ack", &[now, now, bytes, round, app_limited])
                }
                _ => recorder.call("end_acks", &[round, 0]),
            };
        }
    }
}

/// Rounds of datagrams, sent at a rate of their own and acked an RTT later, with acks that bunch.
fn flows(recorder: &mut Recorder<View>, random: &mut Xorshift) {
    for _ in 0..10 {
        recorder.call("new", &[]);
        let rtt = random.of_any_size(MILLISECOND..=200 * MILLISECOND);
        for round in 0..5 {
            let start = round * 2 * rtt;
            let gap = random.of_any_size(1_000..=2 * MILLISECOND);
            let app_limited = u64::from(random.once_in(5));
            let sent: Vec<u64> = (0..5).map(|number| start + number * gap).collect();
            for &now in &sent {
                recorder.call("on_sent", &[now, random.within(40..=1_500)]);
            }
            let mut now = start + rtt;
            for &sent in &sent {
                now += random.pick(&[0, gap / 2, gap, 2 * gap]);
                let bytes = random.within(40..=1_500);
                recorder.call("on_ack", &[now, sent, bytes, round, app_limited]);
            }
            recorder.call("end_acks", &[round, app_limited]);
        }
    }
}
