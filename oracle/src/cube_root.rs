//! The cube root that the crate gets in place of the C library's, whose last bits differ between
//! systems.
//!
//! The root of `a` below 2^21 is n / 2^14 with n^3 <= a * 2^42 < (n + 1)^3. It is 128 from 2^21 on,
//! and 0 for NaN and for negatives.

use std::hint::black_box;

/// The binary places of a root.
const PLACES: u32 = 14;

/// From here on every root is the root of this.
const LIMIT: f64 = 2_097_152.0;

/// What `f64::cbrt` calls: this definition of the C symbol comes before the C library's.
#[unsafe(no_mangle)]
pub extern "C" fn cbrt(a: f64) -> f64 {
    if a >= LIMIT {
        128.0
    } else if a > 0.0 {
        let n = whole_root(scaled(a));
        n as f64 / f64::from(1_u32 << PLACES)
    } else {
        0.0
    }
}

/// The whole part of `a * 2^42`, for a positive `a` below the limit.
fn scaled(a: f64) -> u128 {
    let bits = a.to_bits();
    let exponent = (bits >> 52) as i32;
    let fraction = u128::from(bits & ((1 << 52) - 1));
    // A subnormal number has no hidden bit, and the exponent of the least normal one.
    let (significand, exponent) = match exponent {
        0 => (fraction, 1),
        _ => (fraction | 1 << 52, exponent),
    };
    let shift = exponent - 1_075 + 3 * PLACES as i32;
    if shift >= 0 {
        significand << shift
    } else {
        significand.checked_shr(shift.unsigned_abs()).unwrap_or(0)
    }
}

/// The greatest whole number whose cube is at most `cube`, for a cube below 2^63.
fn whole_root(cube: u128) -> u128 {
    let (mut root, mut above) = (0_u128, 1 << 21);
    while above - root > 1 {
        let middle = (root + above) / 2;
        if middle.pow(3) <= cube {
            root = middle;
        } else {
            above = middle;
        }
    }
    root
}

/// Makes sure that `f64::cbrt` is the root above.
///
/// # Panics
/// Where it is not: the program would then record other answers.
pub fn assert_in_place() {
    // The C library's root of 2 has 38 more binary places.
    assert_eq!(black_box(2.0_f64).cbrt(), 20_642.0 / 16_384.0);
    assert_eq!(black_box(8.0_f64).cbrt(), 2.0);
    assert_eq!(black_box(0.0_f64).cbrt(), 0.0);
    assert_eq!(black_box(LIMIT).cbrt(), 128.0);
}

#[cfg(test)]
mod tests {
    use super::{LIMIT, cbrt};

    /// Up to here a cube is an `f64` to the last bit.
    const EXACT: u64 = 208_063;

    /// At `n^3 / 2^42` the root steps from `(n - 1) / 2^14` to `n / 2^14`.
    #[test]
    fn steps_at_cubes() {
        for n in (1..=EXACT).step_by(61).chain([EXACT]) {
            let cube = n.pow(3) as f64 / 2_f64.powi(42);
            assert_eq!(cbrt(cube), n as f64 / 16_384.0);
            assert_eq!(cbrt(cube.next_down()), (n - 1) as f64 / 16_384.0);
        }
    }

    #[test]
    fn ends_of_the_range() {
        for none in [
            0.0,
            -0.0,
            -1.0,
            f64::NEG_INFINITY,
            f64::NAN,
            f64::from_bits(1),
        ] {
            assert_eq!(cbrt(none).to_bits(), 0);
        }
        for most in [LIMIT, LIMIT.next_up(), f64::MAX, f64::INFINITY] {
            assert_eq!(cbrt(most), 128.0);
        }
        assert_eq!(cbrt(LIMIT.next_down()), 2_097_151.0 / 16_384.0);
    }
}
