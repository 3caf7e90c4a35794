//! The list of `NewReno`: the calls of a controller, `new` with the loss factor behind the time.

use super::MILLISECOND;
use super::controllers::{
    BYTES, Calls, Connection, INITIAL_WINDOW, MTU, Manner, around_edges, orders_of_calls,
};
use crate::congestion::NewReno;
use crate::congestion::oracle_view::View;
use crate::random::Xorshift;
use crate::recorder::Recorder;
use crate::subject::Field;

/// From here on not every whole number is an `f32`.
const WHOLE: u64 = 1 << 24;

/// Loss factors at the limits, and on both sides of a half.
const FACTORS: &[f32] = &[
    0.0,
    f32::from_bits(1),
    0.25,
    0.5_f32.next_down(),
    0.5,
    0.5_f32.next_up(),
    0.7,
    1.0_f32.next_down(),
    1.0,
];

/// Records the list.
pub fn list(recorder: &mut Recorder<View<NewReno>>, random: &mut Xorshift) {
    let calls = &mut Calls::new(recorder);
    worked_figures(calls);
    orders_of_calls(calls, &0.5_f32.text());
    slow_start_exits(calls);
    factors(calls, random);
    edges(calls, random);
    connections(calls, random);
}

/// A sequence with the default factor, a half.
fn start(calls: &mut Calls<NewReno>, initial_window: u64, now: u64) {
    calls.start(initial_window, 1_200, now, &0.5_f32.text());
}

/// One datagram acked and one lost: 12,000, 13,200, 6,600. Then a half below two datagrams.
fn worked_figures(calls: &mut Calls<NewReno>) {
    start(calls, 12_000, 0);
    calls.sent(MILLISECOND, 1_200, 0);
    calls.rtt_update(0, 50 * MILLISECOND);
    calls.ack(51 * MILLISECOND, MILLISECOND, 1_200, false);
    calls.end(51 * MILLISECOND, 0, false, Some(0));
    calls.sent(52 * MILLISECOND, 1_200, 1);
    calls.lose(60 * MILLISECOND, 52 * MILLISECOND, false, 1_200);
    start(calls, 8_000, 0);
    calls.lose(2, 1, false, 1_200);
    calls.lose(4, 3, false, 1_200);
}

/// Slow start that ends a byte below the threshold, at it, and above it, with bytes that were acked
/// before the persistent congestion.
fn slow_start_exits(calls: &mut Calls<NewReno>) {
    for bytes in 3_599..=3_601 {
        start(calls, 24_000, 0);
        calls.lose(2, 1, false, 1_200);
        calls.ack(4, 3, 5_000, false);
        calls.lose(6, 5, true, 1_200);
        calls.ack(8, 7, bytes, false);
        calls.ack(8, 7, 1_000, false);
    }
}

/// Losses at windows that are no `f32`, for factors of any size.
fn factors(calls: &mut Calls<NewReno>, random: &mut Xorshift) {
    for bytes in 1..=8 {
        for factor in [0.5, 1.0] {
            calls.start(WHOLE, 1_200, 0, &f32::text(&factor));
            calls.ack(2, 1, bytes, false);
            calls.lose(4, 3, false, bytes);
        }
    }
    for _ in 0..110 {
        let factor = match random.within(0..=3) {
            0 => random.pick(FACTORS),
            1 => f32::from_bits(random.within(0..=1.0_f32.to_bits().into()) as u32),
            _ => f32::from_bits(
                random.within(0.25_f32.to_bits().into()..=1.0_f32.to_bits().into()) as u32,
            ),
        };
        let window = random.of_any_size(INITIAL_WINDOW);
        calls.start(window, random.within(MTU), 0, &factor.text());
        if random.once_in(2) {
            calls.ack(2, 1, random.within(BYTES), false);
        }
        calls.lose(4, 3, random.once_in(8), 1_200);
        calls.lose(6, 5, false, 1_200);
    }
}

/// The limits of all numbers, for each of the factors.
fn edges(calls: &mut Calls<NewReno>, random: &mut Xorshift) {
    for _ in 0..7 {
        for factor in FACTORS {
            around_edges(calls, random, &factor.text(), NewReno::missing_bytes);
        }
    }
}

/// Slow start, losses and congestion avoidance.
fn connections(calls: &mut Calls<NewReno>, random: &mut Xorshift) {
    let manner = Manner {
        told: 12,
        sampled: 6,
        lost: 40,
        persistent: 5,
        idle: 8,
    };
    for factor in [0.5, 0.5, 0.7, 0.85] {
        let window = random.pick(&[6_000, 12_000, 14_720]);
        let mut connection = Connection::open(calls, random, manner, window, &f32::text(&factor));
        for _ in 0..36 {
            connection.round();
        }
    }
}
