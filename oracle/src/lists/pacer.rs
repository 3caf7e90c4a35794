//! The list of `Pacer`: `new RTT WINDOW MTU NOW`, `on_transmit LENGTH` and
//! `delay RTT BYTES MTU WINDOW NOW`. Times in nanoseconds; a time may go back.

use std::ops::RangeInclusive;

pub use crate::connection::pacing::oracle_view::View;

use super::{LAST_TIME, MILLISECOND};
use crate::random::Xorshift;
use crate::recorder::Recorder;

/// Up to the greatest window whose capacity at an RTT of 1 ns fits 64 bits.
const WINDOW: RangeInclusive<u64> = 1..=(1 << 43) - 1;

/// The greatest window that is paced.
const PACED: u64 = u32::MAX as u64;

const RTT: RangeInclusive<u64> = 0..=10_000_000_000;
const MTU: RangeInclusive<u64> = 1_200..=1_500;
const BYTES: RangeInclusive<u64> = 0..=65_535;
const TIME: RangeInclusive<u64> = 0..=LAST_TIME;

/// What a call of `delay` is told about the path.
#[derive(Clone, Copy)]
struct Conditions {
    rtt: u64,
    window: u64,
    mtu: u64,
}

impl Conditions {
    /// Makes a pacer.
    fn start(self, recorder: &mut Recorder<View>, now: u64) {
        recorder.call("new", &[self.rtt, self.window, self.mtu, now]);
    }

    /// Asks for the delay of a datagram; the time that the pacer names.
    fn delay(self, recorder: &mut Recorder<View>, bytes: u64, now: u64) -> Option<u64> {
        let args = [self.rtt, bytes, self.mtu, self.window, now];
        recorder.call("delay", &args)?.parse().ok()
    }
}

/// Transmits until no tokens are left.
fn drain(recorder: &mut Recorder<View>) {
    while recorder.subject().tokens() > 0 {
        recorder.call("on_transmit", &[*BYTES.end()]);
    }
}

/// Records the list.
pub fn list(recorder: &mut Recorder<View>, random: &mut Xorshift) {
    worked_figures(recorder);
    fractions_of_tokens(recorder);
    corners(recorder);
    capacities(recorder, random);
    around_edges(recorder, random);
    refills(recorder, random);
    whole_tokens(recorder, random);
    flows(recorder, random);
}

const WORKED: Conditions = Conditions {
    rtt: 100 * MILLISECOND,
    window: 240_000,
    mtu: 1_200,
};

/// Ten datagrams pass at time 0; the eleventh is told 4 ms.
fn worked_figures(recorder: &mut Recorder<View>) {
    WORKED.start(recorder, 0);
    for _ in 0..10 {
        WORKED.delay(recorder, 1_200, 0);
        recorder.call("on_transmit", &[1_200]);
    }
    WORKED.delay(recorder, 1_200, 0);
}

/// Each refused call cuts the fraction of a token: who asks often gets fewer, or none at all.
fn fractions_of_tokens(recorder: &mut Recorder<View>) {
    for gap in [100, 333, 334, 500, 667, 1_000] {
        WORKED.start(recorder, 0);
        drain(recorder);
        for number in 1..=8 {
            WORKED.delay(recorder, 1_200, number * gap);
        }
    }
}

/// The ends of the ranges, all with all.
fn corners(recorder: &mut Recorder<View>) {
    for rtt in [0, 1, MILLISECOND, *RTT.end()] {
        for window in [1, 1_200, PACED, PACED + 1, *WINDOW.end()] {
            for mtu in [*MTU.start(), *MTU.end()] {
                let path = Conditions { rtt, window, mtu };
                path.start(recorder, 0);
                path.delay(recorder, *BYTES.end(), 0);
                drain(recorder);
                path.delay(recorder, mtu, 1);
                path.delay(recorder, mtu, LAST_TIME);
            }
        }
    }
}

/// Windows and RTTs at which the capacity leaves its lower or its upper limit.
fn capacities(recorder: &mut Recorder<View>, random: &mut Xorshift) {
    for _ in 0..80 {
        let mtu = random.within(MTU);
        let limit = random.pick(&[10, 256]) * mtu;
        let rtt = random.of_any_size(MILLISECOND..=*RTT.end());
        // The window whose capacity, 2 ms of sending, is the limit.
        let window = limit * rtt / (2 * MILLISECOND);
        let window = random.near(window, 1 + rtt / MILLISECOND, WINDOW);
        let path = Conditions { rtt, window, mtu };
        path.start(recorder, 0);
        drain(recorder);
        path.delay(recorder, mtu, random.within(0..=MILLISECOND));
    }
}

/// Datagrams as long as the tokens or a byte more, paths that change, times that stand or go back.
fn around_edges(recorder: &mut Recorder<View>, random: &mut Xorshift) {
    for _ in 0..80 {
        let centre = random.pick(&[5, MILLISECOND, LAST_TIME]);
        let mut path = changed(random, WORKED);
        path.start(recorder, random.near(centre, 5, TIME));
        for _ in 0..8 {
            if random.once_in(3) {
                path = changed(random, path);
            }
            let tokens = recorder.subject().tokens();
            let bytes = random.near(tokens, 1, BYTES);
            if random.once_in(2) {
                recorder.call("on_transmit", &[bytes]);
            } else {
                path.delay(recorder, bytes, random.near(centre, 5, TIME));
            }
        }
    }
}

/// The path with one of its conditions new.
fn changed(random: &mut Xorshift, path: Conditions) -> Conditions {
    match random.within(0..=2) {
        0 => Conditions {
            rtt: random.pick(&[0, 1, 2, MILLISECOND, *RTT.end()]),
            ..path
        },
        1 => {
            let edge = random.pick(&[1, 12_000, PACED, *WINDOW.end()]);
            let window = random.near(edge, 2, WINDOW);
            Conditions { window, ..path }
        }
        _ => Conditions {
            mtu: random.within(MTU),
            ..path
        },
    }
}

/// Tokens that come in after any time, for windows and RTTs of any size.
fn refills(recorder: &mut Recorder<View>, random: &mut Xorshift) {
    for _ in 0..90 {
        let path = Conditions {
            rtt: random.of_any_size(1..=*RTT.end()),
            window: random.of_any_size(1..=PACED),
            mtu: random.within(MTU),
        };
        let start = random.of_any_size(1..=LAST_TIME / 2);
        path.start(recorder, start);
        drain(recorder);
        let tokens = random.of_any_size(1..=100 * path.mtu);
        let elapsed = u128::from(path.rtt) * u128::from(tokens) / u128::from(path.window);
        let now = start + elapsed.min(u128::from(LAST_TIME / 2)) as u64;
        path.delay(recorder, *BYTES.end(), now);
        let later = now + random.within(0..=path.rtt / 64);
        path.delay(recorder, *BYTES.end(), later);
    }
}

/// Times in which, without rounding, a whole number of tokens comes in: there the last bit of the
/// crate's floats decides about a token.
fn whole_tokens(recorder: &mut Recorder<View>, random: &mut Xorshift) {
    for _ in 0..100 {
        // 5/4 of the window times the elapsed part of the RTT: 5 × tokens × factor / (5 × factor).
        let tokens = random.within(1..=12_000);
        let factor = random.of_any_size(1..=PACED / (4 * tokens));
        let elapsed = random.of_any_size(1..=*RTT.end() / (5 * factor));
        let path = Conditions {
            rtt: 5 * factor * elapsed,
            window: 4 * tokens * factor,
            mtu: 1_200,
        };
        path.start(recorder, 0);
        drain(recorder);
        path.delay(recorder, *BYTES.end(), elapsed);
    }
}

/// A sender that waits as it is told, or less, while its window grows and its path changes.
fn flows(recorder: &mut Recorder<View>, random: &mut Xorshift) {
    for _ in 0..12 {
        let mut path = Conditions {
            rtt: random.of_any_size(MILLISECOND..=300 * MILLISECOND),
            window: random.of_any_size(12_000..=10_000_000),
            mtu: 1_200,
        };
        let mut now = random.within(0..=MILLISECOND);
        path.start(recorder, now);
        for _ in 0..50 {
            match path.delay(recorder, path.mtu, now) {
                None => {
                    recorder.call("on_transmit", &[random.within(40..=path.mtu)]);
                }
                Some(told) if random.once_in(2) => now = told,
                Some(told) => now += random.within(0..=told - now),
            }
            if random.once_in(6) {
                path.window += random.within(0..=path.mtu);
            }
            if random.once_in(12) {
                path.rtt = path.rtt / 8 * random.within(6..=10);
            }
            if random.once_in(40) {
                path.mtu = random.within(MTU);
            }
        }
    }
}
