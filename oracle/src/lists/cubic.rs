//! The list of `Cubic`: the calls of a controller, nothing behind the time of `new`.

use std::ops::RangeInclusive;

use super::controllers::{
    Calls, Connection, INITIAL_WINDOW, MTU, Manner, RTT, around_edges, orders_of_calls,
};
use super::{LAST_TIME, MILLISECOND};
use crate::congestion::oracle_view::View;
use crate::congestion::{Controller, Cubic};
use crate::random::Xorshift;
use crate::recorder::Recorder;

/// Records the list.
pub fn list(recorder: &mut Recorder<View<Cubic>>, random: &mut Xorshift) {
    let calls = &mut Calls::new(recorder);
    worked_figures(calls);
    orders_of_calls(calls, "");
    reductions(calls, random);
    growth(calls, random);
    increments(calls, random);
    whole_values(calls);
    after_persistent_congestion(calls, random);
    for _ in 0..25 {
        around_edges(calls, random, "", missing_bytes);
    }
    connections(calls, random);
}

/// The bytes that are missing to the end of slow start, or a datagram past it.
fn missing_bytes(cubic: &Cubic) -> u64 {
    let threshold = cubic.metrics().ssthresh.unwrap_or_default();
    match threshold.saturating_sub(cubic.window()) {
        0 => 1_200,
        missing => missing,
    }
}

/// Losses: 12,000 becomes 8,400, and 90,000 becomes 62,999 in floats. Persistent congestion.
fn worked_figures(calls: &mut Calls<Cubic>) {
    for (window, persistent) in [(12_000, false), (90_000, false), (12_000, true)] {
        calls.start(window, 1_200, 0, "");
        calls.rtt_update(0, 50 * MILLISECOND);
        calls.lose(60 * MILLISECOND, 52 * MILLISECOND, persistent, 1_200);
        calls.ack(120 * MILLISECOND, 70 * MILLISECOND, 1_200, false);
    }
}

/// Losses that follow each other: at a window below the one before the last loss, equal to it and
/// above it; the root of windows of any size.
fn reductions(calls: &mut Calls<Cubic>, random: &mut Xorshift) {
    for _ in 0..70 {
        let window = random.of_any_size(INITIAL_WINDOW);
        calls.start(window, random.within(MTU), 0, "");
        calls.lose(2, 1, false, 1_200);
        calls.lose(4, 3, random.once_in(6), 1_200);
    }
    // Two datagrams are the least window: there a loss leaves the window as it was.
    for mtu in [1_200, 1_500] {
        calls.start(6_000, mtu, 0, "");
        for now in 1..=5 {
            calls.lose(2 * now, 2 * now - 1, now == 4, 1_200);
        }
    }
}

/// A loss at a window of any size, with an RTT of any size that may have been smoothed.
fn lost(calls: &mut Calls<Cubic>, random: &mut Xorshift, now: u64, windows: RangeInclusive<u64>) {
    let window = random.of_any_size(windows);
    calls.start(window, random.within(MTU), now, "");
    calls.rtt_new(random.of_any_size(RTT));
    if random.once_in(3) {
        calls.rtt_update(0, random.of_any_size(RTT));
        calls.rtt_update(0, random.of_any_size(RTT));
    }
    calls.lose(now, now, false, 1_200);
}

/// Acks at any time after a loss.
fn growth(calls: &mut Calls<Cubic>, random: &mut Xorshift) {
    for _ in 0..55 {
        let start = random.of_any_size(1..=LAST_TIME / 2);
        lost(calls, random, start, INITIAL_WINDOW);
        let mut now = start;
        for _ in 0..5 {
            let elapsed = random.of_any_size(MILLISECOND..=40_000 * MILLISECOND);
            now = start + elapsed;
            calls.ack(now, now, 1_200, false);
        }
        if random.once_in(4) {
            now += random.of_any_size(1..=LAST_TIME / 2 - 40_000 * MILLISECOND);
            calls.ack(now, now, 1_200, false);
        }
    }
}

/// The first time at which an ack gathers so many bytes, or raises the window, or the nanosecond
/// before it; then a loss. Seven tenths of these bytes are cut one lower in floats than in whole
/// numbers.
fn increments(calls: &mut Calls<Cubic>, random: &mut Xorshift) {
    for bytes in [90, 170, 350, 700, 1_300, u64::MAX]
        .into_iter()
        .cycle()
        .take(48)
    {
        let start = random.within(1..=1_000 * MILLISECOND);
        lost(calls, random, start, 6_000..=300_000);
        let window = calls.controller().window();
        let reaches = |now| {
            let after = calls.after_ack(now, now, 1_200);
            after.window() > window || after.gathered() >= bytes
        };
        let (mut before, mut first) = (start, start + 100_000 * MILLISECOND);
        while first - before > 1 {
            let middle = before.midpoint(first);
            if reaches(middle) {
                first = middle;
            } else {
                before = middle;
            }
        }
        let now = random.pick(&[before, first, first]);
        calls.ack(now, now, 1_200, false);
        calls.lose(now + 1, now + 1, false, 1_200);
    }
}

/// Values that are whole numbers but for the rounding of floats, which then decides about a byte.
fn whole_values(calls: &mut Calls<Cubic>) {
    const SECOND: u64 = 1_000 * MILLISECOND;
    // Three quarters of the window, in datagrams, are the cube of a half or of a whole number.
    for (half_datagrams, mtu) in [
        (9, 1_500),
        (72, 1_200),
        (576, 1_300),
        (1_944, 1_400),
        (9_000, 1_500),
    ] {
        calls.start(half_datagrams * mtu / 2, mtu, 0, "");
        calls.lose(2, 1, false, 1_200);
    }
    // At the plateau the cubic window is the one before the loss.
    for (window, mtu) in [(9_990, 1_204), (20_000, 1_400), (123_450, 1_498)] {
        calls.start(window, mtu, 0, "");
        calls.rtt_new(SECOND);
        calls.lose(SECOND, SECOND, false, 1_200);
        let now = calls.controller().plateau();
        calls.ack(now, 2 * SECOND, 1_200, false);
    }
    // So it is with a window that has grown by a datagram in between.
    for (window, mtu) in [(6_104, 1_424), (7_084, 1_206), (6_758, 1_265)] {
        calls.start(window, mtu, 0, "");
        calls.rtt_new(MILLISECOND);
        calls.lose(0, 0, false, 1_200);
        calls.ack(50 * MILLISECOND, 1, 1_200, false);
        calls.rtt_new(calls.controller().plateau() - 60 * MILLISECOND);
        calls.ack(60 * MILLISECOND, 1, 1_200, false);
    }
    // After 17 RTTs the TCP-friendly window has grown by nine datagrams.
    for (window, rtt) in [
        (6_170, 1_599_946),
        (6_170, 4_699_667),
        (100_000, 10 * MILLISECOND),
    ] {
        calls.start(window, 1_200, 0, "");
        calls.rtt_new(rtt);
        calls.lose(0, 0, false, 1_200);
        for before in [1, 1, 1, 1, 1, 1, 1, 1, 0] {
            calls.ack(17 * rtt - before, 1, 1_200, false);
        }
    }
    // The cubic and the TCP-friendly window are equal to the last bit: the cubic one counts.
    for (window, mtu, rtt, elapsed) in [
        (65_784, 1_441, 91_686_632, 2_333_380_211),
        (190_218, 1_358, 22_365_587, 683_583_424),
    ] {
        calls.start(window, mtu, 0, "");
        calls.rtt_new(rtt);
        calls.lose(0, 0, false, 1_200);
        calls.ack(elapsed, 1, 1_200, false);
    }
}

/// Slow start up to the threshold, and past it with no loss to count the time from.
fn after_persistent_congestion(calls: &mut Calls<Cubic>, random: &mut Xorshift) {
    for _ in 0..20 {
        let window = random.of_any_size(8_000..=40_000);
        calls.start(window, random.within(MTU), 0, "");
        calls.rtt_new(random.of_any_size(MILLISECOND..=200 * MILLISECOND));
        calls.lose(2, 1, true, 1_200);
        let mut now = 2;
        while missing_bytes(calls.controller()) > 1_200 {
            let bytes = missing_bytes(calls.controller()).min(20_000);
            now += random.within(0..=40 * MILLISECOND);
            calls.ack(now, now, bytes, false);
        }
        for _ in 0..4 {
            calls.ack(now, now, 1_200, false);
            now += random.of_any_size(MILLISECOND..=4_000 * MILLISECOND);
        }
        calls.lose(now, now, false, 1_200);
    }
}

/// Slow start, losses and congestion avoidance.
fn connections(calls: &mut Calls<Cubic>, random: &mut Xorshift) {
    let manner = Manner {
        told: 12,
        sampled: 6,
        lost: 40,
        persistent: 5,
        idle: 8,
    };
    for window in [6_000, 12_000, 14_720] {
        let mut connection = Connection::open(calls, random, manner, window, "");
        for _ in 0..24 {
            connection.round();
        }
    }
}
