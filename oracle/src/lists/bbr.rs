//! The lists of `Bbr`: the calls of a controller, `new` with the source of draws behind the time:
//! `recorded` and eight draws, or `xorshift` and a seed. Four lists, since a state is long.

use super::controllers::{BYTES, Calls, Connection, INITIAL_WINDOW, MTU, Manner, RTT};
use super::{LAST_TIME, MILLISECOND};
use crate::congestion::Bbr;
use crate::congestion::oracle_view::View;
use crate::congestion::oracle_view::bbr::Edges;
use crate::random::Xorshift;
use crate::recorder::Recorder;

/// Draws that give the offsets 0, 2 and 7 first, then draws above 6.
const RECORDED: &str = "recorded 0 1 6 7 9 13 5 255";

/// Longer than the ten seconds for which a minimum RTT holds.
const EXPIRY: u64 = 10_000 * MILLISECOND + 1;

/// How long the controller stays in `ProbeRtt`, at least.
const PROBE: u64 = 200 * MILLISECOND;

/// Records the worked figures, and each rule of an end by itself.
pub fn list(recorder: &mut Recorder<View<Bbr>>, random: &mut Xorshift) {
    let calls = &mut Calls::new(recorder);
    first_ends(calls);
    targets(calls);
    cycle_offsets(calls);
    outlived_recovery_window(calls);
    gain_cycles(calls);
    startup_growth(calls);
    slowest_bandwidth(calls);
    large_products(calls, random);
}

/// Records recoveries, and ends of every kind in each of the modes.
pub fn modes_list(recorder: &mut Recorder<View<Bbr>>, random: &mut Xorshift) {
    let calls = &mut Calls::new(recorder);
    recovery_windows(calls);
    ends_in_each_mode(calls, random);
}

/// Records walks around the limits.
pub fn edges_list(recorder: &mut Recorder<View<Bbr>>, random: &mut Xorshift) {
    let calls = &mut Calls::new(recorder);
    for seed in 0..12 {
        let edge = random.pick(&[6_000, 24_000, 240_000, *INITIAL_WINDOW.end()]);
        let window = random.near(edge, 3, INITIAL_WINDOW);
        let mtu = random.pick(&[1_200, 1_201, 1_499, 1_500]);
        let now = random.pick(&[
            0,
            MILLISECOND,
            1 << 61,
            LAST_TIME - 100 * EXPIRY,
            LAST_TIME - EXPIRY,
        ]);
        calls.start(window, mtu, now, &format!("xorshift {seed}"));
        calls.rtt_new(random.of_any_size(RTT));
        let number = random.pick(&[0, 1 << 30, (1 << 48) - 1_000]);
        Walk::new(calls, random, now, number).turns(18);
    }
}

/// Records plausible connections.
pub fn connections_list(recorder: &mut Recorder<View<Bbr>>, random: &mut Xorshift) {
    let calls = &mut Calls::new(recorder);
    let manner = Manner {
        told: 1,
        sampled: 3,
        lost: 25,
        persistent: 4,
        idle: 8,
    };
    for (window, draws) in [
        (240_000, RECORDED),
        (12_000, "xorshift 1"),
        (6_000, "xorshift 4294967295"),
    ] {
        let mut connection = Connection::open(calls, random, manner, window, draws);
        for _ in 0..21 {
            connection.round();
        }
    }
}

/// How acks come in.
#[derive(Clone, Copy)]
struct Pace {
    /// The bytes of an ack.
    bytes: u64,
    /// The time between two acks.
    gap: u64,
}

/// 1,200,000 bytes a second.
const USUAL: Pace = Pace {
    bytes: 1_200,
    gap: MILLISECOND,
};

/// A sender of equal datagrams whose acks come in at an even pace.
struct Steady<'a, 'b> {
    calls: &'b mut Calls<'a, Bbr>,
    pace: Pace,
    now: u64,
    number: u64,
}

impl<'a, 'b> Steady<'a, 'b> {
    /// A sender that has seen an RTT of this length.
    fn start(calls: &'b mut Calls<'a, Bbr>, window: u64, rtt: u64, pace: Pace) -> Self {
        Self::start_with(calls, window, rtt, pace, RECORDED)
    }

    /// A sender that has seen an RTT of this length, with a source of draws.
    fn start_with(
        calls: &'b mut Calls<'a, Bbr>,
        window: u64,
        rtt: u64,
        pace: Pace,
        draws: &str,
    ) -> Self {
        calls.start(window, 1_200, 0, draws);
        calls.rtt_update(0, rtt);
        calls.sent(MILLISECOND, pace.bytes, 1);
        calls.sent(MILLISECOND, pace.bytes, 2);
        let now = 50 * MILLISECOND;
        calls.ack(now, MILLISECOND, pace.bytes, false);
        Self {
            calls,
            pace,
            now,
            number: 2,
        }
    }

    /// An ack and the end of a round.
    fn round(&mut self, in_flight: u64) {
        let Pace { bytes, gap } = self.pace;
        self.number += 1;
        self.calls.ack(self.now + gap, self.now, bytes, false);
        self.now += gap;
        self.calls
            .end(self.now, in_flight, false, Some(self.number));
    }

    /// An end without an ack, so much later.
    fn end(&mut self, wait: u64, in_flight: u64) {
        self.now += wait;
        self.calls.end(self.now, in_flight, false, None);
    }

    /// Rounds until the controller has left its first `ProbeRtt`, for `Startup`.
    fn enter_startup(&mut self) {
        self.round(0);
        self.now += PROBE;
        self.round(0);
    }

    /// Rounds until the bandwidth no longer grows: the controller is in `Drain` or, with so few bytes
    /// in flight, in `ProbeBw`.
    fn reach_full_bandwidth(&mut self, in_flight: u64) {
        self.enter_startup();
        self.round(0);
        self.round(in_flight);
    }

    /// An end at which the minimum RTT is too old: into `ProbeRtt`.
    fn enter_probe_rtt(&mut self) {
        self.end(EXPIRY, 0);
    }
}

/// The first end enters `ProbeRtt`, unless it is app-limited.
fn first_ends(calls: &mut Calls<Bbr>) {
    for app_limited in [false, true] {
        calls.start(12_000, 1_200, 0, RECORDED);
        calls.end(MILLISECOND, 0, app_limited, None);
        calls.end(2 * MILLISECOND, 0, false, None);
    }
}

/// A product of bandwidth and RTT below a byte gives the initial window, one below four datagrams
/// gives these. With a byte more in flight the controller stays in `Drain`. A larger MTU raises the
/// window to four datagrams.
fn targets(calls: &mut Calls<Bbr>) {
    const SLOW: Pace = Pace {
        bytes: 1_200,
        gap: 12 * MILLISECOND,
    };
    for (rtt, pace, target) in [
        (1_000, SLOW, 240_000),
        (1_000, USUAL, 4_800),
        (50 * MILLISECOND, USUAL, 60_000),
    ] {
        for in_flight in [target, target + 1] {
            let mut sender = Steady::start(calls, 240_000, rtt, pace);
            sender.reach_full_bandwidth(in_flight);
            sender.calls.mtu(1_500);
        }
    }
}

/// The draws 0, 1 and 6 give the offsets 0, 2 and 7.
fn cycle_offsets(calls: &mut Calls<Bbr>) {
    for (draws, times) in [
        (RECORDED, 9),
        ("xorshift 0", 2),
        ("xorshift 1", 2),
        ("xorshift 4294967295", 4),
    ] {
        let mut sender = Steady::start_with(calls, 12_000, 10 * MILLISECOND, USUAL, draws);
        sender.reach_full_bandwidth(0);
        for _ in 1..times {
            sender.enter_probe_rtt();
            sender.now += PROBE;
            sender.round(0);
        }
    }
}

/// In `ProbeBw` with an RTT of 50 ms and a target of 60,000: the high gain lasts until 75,000 bytes
/// were in flight or some were lost, the low gain until at most 60,000 are.
fn gain_cycles(calls: &mut Calls<Bbr>) {
    const RTT: u64 = 50 * MILLISECOND;
    const LATER: u64 = RTT + 1;
    let high_gain = |calls: &mut Calls<Bbr>, ends: &[(u64, u64)], lost: bool| {
        let mut sender = Steady::start(calls, 240_000, RTT, USUAL);
        sender.reach_full_bandwidth(0);
        for (wait, in_flight) in ends {
            if lost {
                sender.calls.lose(sender.now, sender.now, false, 1_200);
            }
            sender.end(*wait, *in_flight);
        }
    };
    for in_flight in [74_999, 75_000] {
        high_gain(calls, &[(1, in_flight), (RTT - 1, 0), (1, 0)], false);
    }
    high_gain(calls, &[(LATER, 0), (LATER, 0)], true);
    for (wait, in_flight) in [
        (1, 60_000),
        (1, 60_001),
        (RTT, 60_001),
        (LATER, 60_000),
        (LATER, 60_001),
    ] {
        let low_gain = [(1, 75_000), (LATER, 75_000), (wait, in_flight)];
        high_gain(calls, &low_gain, false);
    }
}

/// A round in which the bandwidth grows by exactly a quarter is a round of growth.
fn startup_growth(calls: &mut Calls<Bbr>) {
    for gap in [1, 3, 7, 11, 13, 17, 19, 23, MILLISECOND] {
        let slow = Pace { bytes: 1_200, gap };
        let mut sender = Steady::start(calls, 12_000, 50 * MILLISECOND, slow);
        sender.round(0);
        for bytes in [1_500, 1_874] {
            sender.pace.bytes = bytes;
            sender.round(0);
        }
    }
}

/// Acks of a single byte: a bandwidth of one byte a second, a quarter of which is no byte, so that
/// every round is a round of growth.
fn slowest_bandwidth(calls: &mut Calls<Bbr>) {
    let slowest = Pace {
        bytes: 1,
        gap: 600 * MILLISECOND,
    };
    let mut sender = Steady::start(calls, 12_000, 100 * MILLISECOND, slowest);
    sender.reach_full_bandwidth(1 << 20);
    sender.round(0);
}

/// Bandwidths and RTTs whose product is no `f64`; at first such that the order of the product with
/// the gain and of the division decides about a byte.
fn large_products(calls: &mut Calls<Bbr>, random: &mut Xorshift) {
    let decided = [(1_200, 7, 2_333_352_000), (1_500, 1, 4_099_277_000)];
    let drawn: Vec<_> = (0..24)
        .map(|_| {
            let rtt = random.of_any_size(1_000 * MILLISECOND..=*RTT.end());
            (random.within(1_200..=1_500), random.within(1..=9), rtt)
        })
        .collect();
    for (bytes, gap, rtt) in decided.into_iter().chain(drawn) {
        Steady::start(calls, 12_000, rtt, Pace { bytes, gap }).round(0);
    }
}

/// In `ProbeBw`, a recovery window of 4,800 outlives a rise of the MTU.
fn outlived_recovery_window(calls: &mut Calls<Bbr>) {
    let mut sender = Steady::start(calls, 240_000, 50 * MILLISECOND, USUAL);
    sender.reach_full_bandwidth(0);
    sender.calls.lose(sender.now, sender.now, false, 1_200);
    sender.round(3_600);
    sender.calls.mtu(1_500);
}

/// The recovery window through conservation and growth, with losses below it, equal to it and above
/// it.
fn recovery_windows(calls: &mut Calls<Bbr>) {
    for lost in [1_200, 4_799, 4_800, 4_801, 6_000] {
        let mut sender = Steady::start(calls, 240_000, 50 * MILLISECOND, USUAL);
        sender.reach_full_bandwidth(0);
        let first = sender.number;
        sender.calls.sent(sender.now, 1_200, first + 1);
        sender.calls.lose(sender.now, sender.now, false, 1_200);
        sender.round(3_600);
        sender.calls.sent(sender.now, 1_200, first + 4);
        for part in [700, 500] {
            sender.calls.lose(sender.now, sender.now, false, part);
        }
        sender.round(0);
        sender.calls.lose(sender.now, sender.now, false, lost);
        sender.calls.ack(sender.now, sender.now, 4_800, false);
        sender.round(0);
        sender.calls.mtu(1_500);
        sender.round(1_200);
        sender.round(1_200);
    }
}

/// Ends of every kind from each of the modes on.
fn ends_in_each_mode(calls: &mut Calls<Bbr>, random: &mut Xorshift) {
    let modes: [fn(&mut Steady); 4] = [
        |sender| sender.enter_startup(),
        |sender| sender.reach_full_bandwidth(1 << 20),
        |sender| sender.reach_full_bandwidth(0),
        |sender| {
            sender.reach_full_bandwidth(0);
            sender.enter_probe_rtt();
        },
    ];
    for enter in modes.into_iter().cycle().take(8) {
        let rtt = random.of_any_size(MILLISECOND..=100 * MILLISECOND);
        let window = random.of_any_size(6_000..=100_000);
        let mut sender = Steady::start(calls, window, rtt, USUAL);
        enter(&mut sender);
        let Steady { now, number, .. } = sender;
        Walk::new(calls, random, now, number).turns(22);
    }
}

/// Calls whose times and sizes lie where the controller decides.
struct Walk<'a, 'b> {
    calls: &'b mut Calls<'a, Bbr>,
    random: &'b mut Xorshift,
    now: u64,
    number: u64,
    app_limited: bool,
}

impl<'a, 'b> Walk<'a, 'b> {
    /// A walk from a time on, with datagrams behind this number.
    fn new(calls: &'b mut Calls<'a, Bbr>, random: &'b mut Xorshift, now: u64, number: u64) -> Self {
        Self {
            calls,
            random,
            now,
            number,
            app_limited: false,
        }
    }

    fn turns(&mut self, count: u32) {
        for _ in 0..count {
            self.turn();
        }
    }

    /// Some sends, acks and losses, and the end of these acks.
    fn turn(&mut self) {
        if self.random.once_in(2) {
            self.number += self.random.within(1..=3);
            let bytes = self.bytes();
            self.calls.sent(self.now, bytes, self.number);
        }
        if self.random.once_in(8) {
            let sample = self.random.of_any_size(MILLISECOND..=100 * MILLISECOND);
            self.calls.rtt_update(0, sample);
        }
        self.app_limited = self.random.once_in(8);
        for _ in 0..self.random.pick(&[0, 1, 1, 1, 2]) {
            let gap = self.random.pick(&[0, 800_000, MILLISECOND, MILLISECOND]);
            self.now = (self.now + gap).min(LAST_TIME);
            let bytes = self.bytes();
            self.calls.ack(self.now, self.now, bytes, self.app_limited);
        }
        if self.random.once_in(4) {
            let lost = if self.random.once_in(3) {
                let edges = self.calls.controller().edges();
                self.beside(&edges.lost).min(*BYTES.end())
            } else {
                self.bytes()
            };
            self.calls
                .lose(self.now, self.now, self.random.once_in(4), lost);
        }
        if self.random.once_in(20) {
            self.calls.mtu(self.random.within(MTU));
        }
        self.end();
    }

    /// One of the numbers, or a number next to it.
    fn beside(&mut self, edges: &[u64]) -> u64 {
        let edge = self.random.pick(edges);
        self.random.near(edge, 1, 0..=u64::MAX)
    }

    fn bytes(&mut self) -> u64 {
        match self.random.within(0..=9) {
            0 => self.random.within(BYTES),
            1 => 1_500,
            2 => 6_000,
            _ => 1_200,
        }
    }

    /// An end at a time, with bytes in flight and a largest number that lie on an edge, as a rule.
    fn end(&mut self) {
        let Edges {
            times,
            in_flight,
            numbers,
            ..
        } = self.calls.controller().edges();
        let ahead: Vec<u64> = times
            .into_iter()
            .filter(|time| (self.now..=LAST_TIME).contains(time))
            .collect();
        self.now = if ahead.is_empty() || self.random.once_in(2) {
            (self.now + self.random.pick(&[0, 1, MILLISECOND])).min(LAST_TIME)
        } else {
            let edge = self.random.pick(&ahead);
            self.random.near(edge, 1, self.now..=LAST_TIME)
        };
        let in_flight = match self.random.within(0..=3) {
            0 => self.random.within(0..=4_800),
            _ => self.beside(&in_flight),
        };
        let largest = match self.random.within(0..=7) {
            0 => None,
            1..=3 => Some(self.beside(&numbers)),
            _ => Some(self.number),
        };
        self.calls
            .end(self.now, in_flight, self.app_limited, largest);
    }
}
