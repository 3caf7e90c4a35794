//! Times as nanoseconds since a fixed point. The crate gets `std`'s own `Instant`.

use std::sync::LazyLock;

use crate::{Duration, Instant};

/// Time 0.
static START: LazyLock<Instant> = LazyLock::new(Instant::now);

/// The time so many nanoseconds after time 0.
pub fn at(nanos: u64) -> Instant {
    *START + Duration::from_nanos(nanos)
}

/// How many nanoseconds a time lies after time 0.
pub fn nanos(time: Instant) -> u128 {
    time.duration_since(*START).as_nanos()
}
