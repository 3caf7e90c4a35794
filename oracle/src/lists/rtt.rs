//! The list of `RttEstimator`: `new RTT` and `update ACK_DELAY RTT`, in nanoseconds.

use std::ops::RangeInclusive;

pub use crate::connection::paths::oracle_view::View;

use super::MILLISECOND;
use crate::random::Xorshift;
use crate::recorder::Recorder;

/// The initial RTT and every sample lie in here; an ack delay may be anything.
const RTT: RangeInclusive<u64> = 1_000..=10_000_000_000;

/// Where the rules change: the limits, and the samples at which four times the variance meets the
/// timer granularity of one millisecond.
const EDGES: &[u64] = &[
    1_000,
    500_000,
    MILLISECOND,
    333 * MILLISECOND,
    10_000_000_000,
];

/// Records the list.
pub fn list(recorder: &mut Recorder<View>, random: &mut Xorshift) {
    worked_figures(recorder);
    small_values(recorder);
    around_edges(recorder, random);
    samples_of_any_size(recorder, random);
    connections(recorder, random);
}

/// A delay of up to 40 ms is taken off a sample of 90 ms where the least RTT is 50 ms.
fn worked_figures(recorder: &mut Recorder<View>) {
    for ack_delay in [10, 40, 41] {
        recorder.call("new", &[333 * MILLISECOND]);
        recorder.call("update", &[0, 50 * MILLISECOND]);
        recorder.call("update", &[ack_delay * MILLISECOND, 90 * MILLISECOND]);
    }
}

/// The fractions that the divisions by 2, 4 and 8 cut.
fn small_values(recorder: &mut Recorder<View>) {
    for first in [1_000, 1_001, 1_003] {
        for second in 1_000..=1_008 {
            for ack_delay in [0, 1, 3] {
                recorder.call("new", &[1_000]);
                recorder.call("update", &[0, first]);
                recorder.call("update", &[ack_delay, second]);
            }
        }
    }
}

fn around_edges(recorder: &mut Recorder<View>, random: &mut Xorshift) {
    let sample = |random: &mut Xorshift| {
        let edge = random.pick(EDGES);
        random.near(edge, 3, RTT)
    };
    for _ in 0..90 {
        recorder.call("new", &[sample(random)]);
        for _ in 0..8 {
            let rtt = sample(random);
            let ack_delay = delay_around_limit(recorder.subject(), random, rtt);
            recorder.call("update", &[ack_delay, rtt]);
        }
    }
}

fn samples_of_any_size(recorder: &mut Recorder<View>, random: &mut Xorshift) {
    for _ in 0..60 {
        recorder.call("new", &[random.of_any_size(RTT)]);
        for _ in 0..8 {
            let rtt = random.of_any_size(RTT);
            let ack_delay = if random.once_in(2) {
                random.of_any_size(1..=u64::MAX)
            } else {
                delay_around_limit(recorder.subject(), random, rtt)
            };
            recorder.call("update", &[ack_delay, rtt]);
        }
    }
}

/// A delay near the longest that is taken off this sample, or at an end of the range.
fn delay_around_limit(estimator: &View, random: &mut Xorshift, rtt: u64) -> u64 {
    let least = if estimator.has_sample() {
        estimator.min().min(rtt)
    } else {
        rtt
    };
    let longest = rtt - least;
    random.pick(&[
        0,
        1,
        longest.saturating_sub(1),
        longest,
        longest + 1,
        u64::MAX,
    ])
}

/// Samples that waver above the RTT of a route, with a queue that grows at times and with routes
/// that change.
fn connections(recorder: &mut Recorder<View>, random: &mut Xorshift) {
    for _ in 0..18 {
        recorder.call("new", &[333 * MILLISECOND]);
        let mut route = random.of_any_size(100_000..=300 * MILLISECOND);
        for _ in 0..40 {
            if random.once_in(25) {
                route = random.of_any_size(100_000..=300 * MILLISECOND);
            }
            let queue = if random.once_in(8) { 4 * route } else { 0 };
            let ack_delay = random.within(0..=25 * MILLISECOND);
            let host = if random.once_in(3) { 0 } else { ack_delay };
            let rtt = route + random.within(0..=route / 4) + queue + host;
            recorder.call("update", &[ack_delay, rtt]);
        }
    }
}
