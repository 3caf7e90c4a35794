//! The list of `MinMax`: `new`, `update_max ROUND VALUE` and `reset`. Rounds never go back: there
//! the crate panics.

pub use crate::congestion::oracle_view::bbr::min_max::View;

use crate::random::Xorshift;
use crate::recorder::Recorder;

/// Numbers of rounds on both sides of a quarter of the window of 10, of half of it and of the whole.
const STEPS: &[u64] = &[0, 1, 2, 3, 5, 6, 10, 11];

/// Records the list.
pub fn list(recorder: &mut Recorder<View>, random: &mut Xorshift) {
    worked_figures(recorder);
    small_values(recorder);
    three_levels(recorder);
    around_edges(recorder, random);
    falling_bandwidths(recorder, random);
}

/// A best value of round 1 stands in round 11 and is gone in round 12.
fn worked_figures(recorder: &mut Recorder<View>) {
    for round in [11, 12] {
        recorder.call("new", &[]);
        recorder.call("update_max", &[1, 5]);
        recorder.call("update_max", &[round, 3]);
    }
}

/// Every way for two values to follow a first one of 4, across the bounds of the window.
fn small_values(recorder: &mut Recorder<View>) {
    for second_step in [0, 3, 6, 11] {
        for second in [0, 3, 4, 5] {
            for third_step in [0, 3, 5, 8, 11] {
                for third in [0, 2, 3, 4] {
                    recorder.call("new", &[]);
                    recorder.call("update_max", &[1, 4]);
                    recorder.call("update_max", &[1 + second_step, second]);
                    recorder.call("update_max", &[1 + second_step + third_step, third]);
                }
            }
        }
    }
}

/// What one more value does to three samples of different values and rounds.
fn three_levels(recorder: &mut Recorder<View>) {
    for step in [0, 1, 3, 4, 5, 7, 8, 10, 11] {
        for value in [0, 4, 5, 6, 7, 8, 9] {
            recorder.call("new", &[]);
            recorder.call("update_max", &[1, 9]);
            recorder.call("update_max", &[4, 7]);
            recorder.call("update_max", &[7, 5]);
            recorder.call("update_max", &[7 + step, value]);
        }
    }
}

/// Values at both ends of the range, rounds from both ends of theirs, steps across the window.
fn around_edges(recorder: &mut Recorder<View>, random: &mut Xorshift) {
    for _ in 0..80 {
        recorder.call("new", &[]);
        let mut round = random.pick(&[0, 1, 1 << 32, u64::MAX - 100]);
        let centre = random.pick(&[0, 4, 1_200_000, u64::MAX]);
        for _ in 0..12 {
            round += random.pick(STEPS).min(u64::MAX - round);
            if random.once_in(20) {
                recorder.call("reset", &[]);
            } else {
                let value = random.near(centre, 4, 0..=u64::MAX);
                recorder.call("update_max", &[round, value]);
            }
        }
    }
}

/// Bandwidths that fall while rounds pass, so that a third best and then a second best become best.
fn falling_bandwidths(recorder: &mut Recorder<View>, random: &mut Xorshift) {
    for _ in 0..12 {
        recorder.call("new", &[]);
        let mut round = 0;
        let mut bandwidth = random.of_any_size(100_000..=1_000_000_000);
        for _ in 0..60 {
            round += random.pick(&[0, 0, 1, 1, 2, 4]);
            let fall = random.within(0..=bandwidth / 16);
            let noise = random.within(0..=bandwidth / 16);
            recorder.call("update_max", &[round, bandwidth + noise]);
            bandwidth = if random.once_in(30) {
                bandwidth * 2
            } else {
                bandwidth - fall
            };
        }
    }
}
