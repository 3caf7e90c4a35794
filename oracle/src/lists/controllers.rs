//! What the lists of the three controllers share: their calls, their limits, and connections that
//! make the calls in a plausible order.

use std::collections::VecDeque;
use std::ops::RangeInclusive;

use super::{LAST_TIME, MILLISECOND};
use crate::congestion::oracle_view::{View, Viewed};
use crate::random::Xorshift;
use crate::recorder::Recorder;

pub const INITIAL_WINDOW: RangeInclusive<u64> = 6_000..=16_777_216;
pub const MTU: RangeInclusive<u64> = 1_200..=1_500;
pub const RTT: RangeInclusive<u64> = 1_000..=10_000_000_000;
pub const BYTES: RangeInclusive<u64> = 1..=65_535;
pub const TIME: RangeInclusive<u64> = 0..=LAST_TIME;

/// Makes the calls of a controller and records them. Times are in nanoseconds.
pub struct Calls<'a, C> {
    recorder: &'a mut Recorder<View<C>>,
}

impl<'a, C: Viewed> Calls<'a, C> {
    /// The calls that go to this recorder.
    pub fn new(recorder: &'a mut Recorder<View<C>>) -> Self {
        Self { recorder }
    }

    /// The controller as it stands.
    pub fn controller(&self) -> &C {
        &self.recorder.subject().controller
    }

    /// `new`; `rest` stands behind the arguments that all controllers take.
    pub fn start(&mut self, initial_window: u64, mtu: u64, now: u64, rest: &str) {
        let line = format!("new {initial_window} {mtu} {now} {rest}");
        self.recorder.perform(line.trim_end());
    }

    /// A new RTT estimator.
    pub fn rtt_new(&mut self, initial: u64) {
        self.recorder.call("rtt_new", &[initial]);
    }

    /// A sample for the RTT estimator.
    pub fn rtt_update(&mut self, ack_delay: u64, sample: u64) {
        self.recorder.call("rtt_update", &[ack_delay, sample]);
    }

    /// `on_sent`.
    pub fn sent(&mut self, now: u64, bytes: u64, number: u64) {
        self.recorder.call("on_sent", &[now, bytes, number]);
    }

    /// `on_ack`.
    pub fn ack(&mut self, now: u64, sent: u64, bytes: u64, app_limited: bool) {
        self.recorder
            .perform(&on_ack(now, sent, bytes, app_limited));
    }

    /// The controller as it would be after `on_ack`, which is not recorded.
    pub fn after_ack(&self, now: u64, sent: u64, bytes: u64) -> C {
        let after = self.recorder.after(&on_ack(now, sent, bytes, false));
        after.controller
    }

    /// `on_end_acks`.
    pub fn end(&mut self, now: u64, in_flight: u64, app_limited: bool, largest: Option<u64>) {
        let largest = largest.map_or("none".to_owned(), |number| number.to_string());
        let line = format!(
            "on_end_acks {now} {in_flight} {} {largest}",
            u8::from(app_limited)
        );
        self.recorder.perform(&line);
    }

    /// `on_congestion_event`.
    pub fn lose(&mut self, now: u64, sent: u64, persistent: bool, bytes: u64) {
        let args = [now, sent, persistent.into(), bytes];
        self.recorder.call("on_congestion_event", &args);
    }

    /// `on_mtu_update`.
    pub fn mtu(&mut self, mtu: u64) {
        self.recorder.call("on_mtu_update", &[mtu]);
    }
}

fn on_ack(now: u64, sent: u64, bytes: u64, app_limited: bool) -> String {
    format!("on_ack {now} {sent} {bytes} {}", u8::from(app_limited))
}

/// Every order of three calls out of five, half a second apart, and an ack behind them.
pub fn orders_of_calls<C: Viewed>(calls: &mut Calls<C>, rest: &str) {
    const STEP: u64 = 500 * MILLISECOND;
    let perform = |calls: &mut Calls<C>, kind: u64, now: u64| match kind {
        0 => calls.ack(now, now - 1, 3_000, false),
        1 => calls.ack(now, now - STEP, 1_200, false),
        2 => calls.lose(now, now - 1, false, 1_200),
        3 => calls.lose(now, now - 1, true, 1_200),
        _ => calls.mtu(1_500),
    };
    for order in 0..125 {
        calls.start(6_000, 1_200, STEP, rest);
        for (kind, step) in [order / 25, order / 5 % 5, order % 5].into_iter().zip(2..) {
            perform(calls, kind, step * STEP);
        }
        calls.ack(5 * STEP, 5 * STEP - 1, 6_000, false);
    }
}

/// Acks that meet the next change of the window or miss it by a byte; datagrams sent at the start of
/// recovery or a nanosecond to the side; times at both ends. `missing` is the number of bytes up to
/// the next change of the window.
pub fn around_edges<C: Viewed>(
    calls: &mut Calls<C>,
    random: &mut Xorshift,
    rest: &str,
    missing: fn(&C) -> u64,
) {
    let time_edge = random.pick(&[0, 1_000, 1 << 61, *TIME.end()]);
    let window_edge = random.pick(&[6_000, 8_000, 24_000, *INITIAL_WINDOW.end()]);
    let mut recovery = random.near(time_edge, 40, TIME);
    let window = random.near(window_edge, 3, INITIAL_WINDOW);
    calls.start(window, random.within(MTU), recovery, rest);
    for _ in 0..12 {
        let sent = random.near(recovery, 1, TIME);
        let later = random.pick(&[0, 1, 2, 1 << 30, 1 << 61]);
        let now = (sent + later).min(LAST_TIME);
        match random.within(0..=9) {
            0..=6 => {
                let bytes = random.near(missing(calls.controller()), 1, BYTES);
                calls.ack(now, sent, bytes, random.once_in(10));
            }
            7 | 8 => {
                let persistent = random.once_in(2);
                calls.lose(now, sent, persistent, random.pick(&[0, 1, 1_200]));
                recovery = if sent > recovery { now } else { recovery };
            }
            _ => calls.mtu(random.pick(&[1_200, 1_201, 1_499, 1_500])),
        }
    }
}

/// A datagram on its way.
struct Datagram {
    number: u64,
    sent: u64,
    bytes: u64,
}

/// What happens on a connection, each once in so many chances.
#[derive(Clone, Copy)]
pub struct Manner {
    /// A send or an end is told: few to a controller that does not listen.
    pub told: u64,
    /// An ack brings an RTT sample.
    pub sampled: u64,
    /// A datagram is lost.
    pub lost: u64,
    /// A loss is persistent congestion.
    pub persistent: u64,
    /// The sender pauses before a round.
    pub idle: u64,
}

/// A sender that keeps to the window of its controller, on a route whose RTT wavers.
pub struct Connection<'a, 'b, C> {
    calls: &'b mut Calls<'a, C>,
    random: &'b mut Xorshift,
    manner: Manner,
    now: u64,
    mtu: u64,
    route: u64,
    app_limited: bool,
    next: u64,
    largest: Option<u64>,
    in_flight: VecDeque<Datagram>,
}

impl<'a, 'b, C: Viewed> Connection<'a, 'b, C> {
    /// A connection with a controller of this initial window; `rest` is as for `Calls::start`.
    pub fn open(
        calls: &'b mut Calls<'a, C>,
        random: &'b mut Xorshift,
        manner: Manner,
        initial_window: u64,
        rest: &str,
    ) -> Self {
        let mtu = random.pick(&[1_200, 1_200, 1_452, 1_500]);
        let now = random.within(0..=MILLISECOND);
        let route = random.of_any_size(MILLISECOND..=200 * MILLISECOND);
        calls.start(initial_window, mtu, now, rest);
        calls.rtt_new(route);
        Self {
            calls,
            random,
            manner,
            now,
            mtu,
            route,
            app_limited: false,
            next: 0,
            largest: None,
            in_flight: VecDeque::new(),
        }
    }

    /// Sends a burst and takes up what comes back of it.
    pub fn round(&mut self) {
        self.change();
        let burst = self.random.within(1..=8);
        for _ in 0..burst {
            self.send();
        }
        if let Some(oldest) = self.in_flight.front() {
            let back = oldest.sent + self.route + self.random.within(0..=self.route / 8);
            self.now = self.now.max(back);
        }
        while !self.in_flight.is_empty() && !self.random.once_in(6) {
            self.receive();
        }
    }

    /// Pauses, changes of the route, and an application that has nothing to send.
    fn change(&mut self) {
        if self.random.once_in(self.manner.idle) {
            self.now += self.random.of_any_size(MILLISECOND..=20_000 * MILLISECOND);
        }
        if self.random.once_in(8) {
            self.app_limited = !self.app_limited;
        }
        if self.random.once_in(16) {
            self.mtu = self.random.within(MTU);
            self.calls.mtu(self.mtu);
        }
        if self.random.once_in(16) {
            self.route = self.random.of_any_size(100_000..=400 * MILLISECOND);
        }
    }

    fn send(&mut self) {
        let bytes = match self.random.within(0..=31) {
            0 => self.random.within(BYTES),
            1..=6 => self.random.within(1..=self.mtu),
            _ => self.mtu,
        };
        if self.bytes_in_flight() + bytes > self.calls.controller().window() {
            return;
        }
        if self.random.once_in(self.manner.told) {
            self.calls.sent(self.now, bytes, self.next);
        }
        self.in_flight.push_back(Datagram {
            number: self.next,
            sent: self.now,
            bytes,
        });
        self.next += 1;
        let gap = self.route / 16;
        self.now += self.random.pick(&[0, gap / 2, gap]);
    }

    /// Some of the datagrams, acked or lost at the same time, and the end of these acks.
    fn receive(&mut self) {
        let batch = self.random.within(1..=4).min(self.in_flight.len() as u64);
        for datagram in self.in_flight.drain(..batch as usize).collect::<Vec<_>>() {
            if self.random.once_in(self.manner.lost) {
                let persistent = self.random.once_in(self.manner.persistent);
                self.calls
                    .lose(self.now, datagram.sent, persistent, datagram.bytes);
            } else {
                self.acked(&datagram);
            }
        }
        if self.random.once_in(self.manner.told) {
            let in_flight = self.bytes_in_flight();
            self.calls
                .end(self.now, in_flight, self.app_limited, self.largest);
        }
        self.now += self.random.within(0..=self.route / 8);
    }

    fn acked(&mut self, datagram: &Datagram) {
        self.largest = self.largest.max(Some(datagram.number));
        if self.random.once_in(self.manner.sampled) {
            let ack_delay = self.random.within(0..=25 * MILLISECOND);
            let sample = self.now.saturating_sub(datagram.sent);
            let sample = sample.clamp(*RTT.start(), *RTT.end());
            self.calls.rtt_update(ack_delay, sample);
        }
        self.calls
            .ack(self.now, datagram.sent, datagram.bytes, self.app_limited);
    }

    fn bytes_in_flight(&self) -> u64 {
        self.in_flight.iter().map(|datagram| datagram.bytes).sum()
    }
}
