//! Records calls of the casts, `seconds`, `cube` and `cube_root` with the answers that Rust gives:
//! `as`, `Duration::as_secs_f64`, `*`, and for the cube root its definition over whole numbers.
//! Nothing here comes from the proved code, which `recorded_numbers` runs on the same calls.
//!
//! Run, in the repository's folder:
//!
//!     rustc -O oracle/numbers.rs -o /tmp/oracle_numbers
//!     /tmp/oracle_numbers crates/recorded_numbers
//!
//! It writes the files `stdin`, a call on each line, and `stdout`, the answers, into the folder that
//! it is given. They are the same on each run. A float is written by its bits, and a NaN that is
//! an answer as 0x7ff8000000000000, since no rule says which NaN it is.

use std::fmt::Write;
use std::time::Duration;

/// Marsaglia's xorshift with 64 bits, from a fixed seed.
struct Random(u64);

impl Random {
    fn next(&mut self) -> u64 {
        self.0 ^= self.0 << 13;
        self.0 ^= self.0 >> 7;
        self.0 ^= self.0 << 17;
        self.0
    }

    /// A number with a random count of digits.
    fn any_length(&mut self) -> u64 {
        let shift = self.next() % 64;
        self.next() >> shift
    }
}

#[derive(Default)]
struct Record {
    calls: String,
    answers: String,
}

fn canonical(x: f64) -> u64 {
    if x.is_nan() { 0x7ff8_0000_0000_0000 } else { x.to_bits() }
}

/// The cube root by its rule: n / 2^14 with n^3 <= a * 2^42 < (n + 1)^3.
fn cube_root(a: f64) -> f64 {
    if a.is_nan() || a <= 0.0 {
        return 0.0;
    }
    if a >= 2_097_152.0 {
        return 128.0;
    }
    let bits = a.to_bits();
    let field = (bits >> 52) as i64;
    let fraction = (bits & ((1 << 52) - 1)) as u128;
    // a is m * 2^e
    let (m, e) = if field == 0 { (fraction, -1074) } else { (fraction | 1 << 52, field - 1075) };
    // a cube is not above a * 2^42 exactly where it is not above its whole part
    let shift = e + 42;
    let scaled = if shift >= 0 { m << shift } else { m.checked_shr((-shift) as u32).unwrap_or(0) };
    let cube = |n: u128| n * n * n;
    let mut n = (a.cbrt() * 16384.0) as u128;
    while cube(n) > scaled {
        n -= 1;
    }
    while cube(n + 1) <= scaled {
        n += 1;
    }
    assert!(cube(n) <= scaled && scaled < cube(n + 1));
    n as f64 / 16384.0
}

impl Record {
    fn whole(&mut self, n: u64) {
        let single = (n as f32).to_bits();
        let double = (n as f64).to_bits();
        writeln!(self.calls, "f32_from_u64 {n}\nf64_from_u64 {n}").unwrap();
        writeln!(self.answers, "{single:#010x}\n{double:#018x}").unwrap();
    }

    fn nanos(&mut self, n: u64) {
        let seconds = Duration::from_nanos(n).as_secs_f64().to_bits();
        writeln!(self.calls, "seconds {n}").unwrap();
        writeln!(self.answers, "{seconds:#018x}").unwrap();
    }

    fn single(&mut self, bits: u32) {
        let whole = f32::from_bits(bits) as u64;
        writeln!(self.calls, "u64_from_f32 {bits:#010x}").unwrap();
        writeln!(self.answers, "{whole}").unwrap();
    }

    fn double(&mut self, bits: u64) {
        let whole = f64::from_bits(bits) as u64;
        writeln!(self.calls, "u64_from_f64 {bits:#018x}").unwrap();
        writeln!(self.answers, "{whole}").unwrap();
    }

    fn cube(&mut self, bits: u64) {
        let d = f64::from_bits(bits);
        let cube = canonical(d * d * d);
        writeln!(self.calls, "cube {bits:#018x}").unwrap();
        writeln!(self.answers, "{cube:#018x}").unwrap();
    }

    fn root(&mut self, bits: u64) {
        let root = cube_root(f64::from_bits(bits)).to_bits();
        writeln!(self.calls, "cube_root {bits:#018x}").unwrap();
        writeln!(self.answers, "{root:#018x}").unwrap();
    }
}

/// Powers of two and their neighbours; ties and near-ties of a format of `digits` digits; any.
fn wholes(record: &mut Record, random: &mut Random) {
    for k in 0..64 {
        let power = 1u64 << k;
        for n in [power - 1, power, power + 1] {
            record.whole(n);
            record.nanos(n);
        }
    }
    record.whole(u64::MAX);
    record.nanos(u64::MAX);
    for digits in [24, 53] {
        for dropped in 1..=64 - digits {
            let half = 1u64 << (dropped - 1);
            let top = 1u64 << (digits - 1);
            let significand = top | random.next() % top;
            for kept in [significand & !1, significand | 1, 2 * top - 1] {
                let tie = kept << dropped | half;
                for n in [tie - 1, tie, tie.saturating_add(1)] {
                    record.whole(n);
                }
            }
        }
    }
    for n in [999_999_999, 1_000_000_000, 1_000_000_001, 1_999_999_999, 18_446_744_073_000_000_000] {
        record.nanos(n);
    }
    for _ in 0..300 {
        let n = random.any_length();
        record.whole(n);
        record.nanos(random.any_length());
    }
}

/// Every exponent near the whole numbers, with the neighbours of each power of two; any.
fn floats(record: &mut Record, random: &mut Random) {
    for field in 125..=193u32 {
        let power = field << 23;
        for bits in [power - 1, power, power + 1, power | random.next() as u32 >> 9] {
            record.single(bits);
            record.single(bits | 1 << 31);
        }
    }
    for bits in [0, 1, 0x7f_ffff, 0x80_0000, 0x7f7f_ffff, 0x7f80_0000, 0x7f80_0001, 0x7fc0_0000, 0x7fff_ffff] {
        record.single(bits);
        record.single(bits | 1 << 31);
    }
    for field in 1021..=1089u64 {
        let power = field << 52;
        for bits in [power - 1, power, power + 1, power | random.next() >> 12] {
            record.double(bits);
            record.double(bits | 1 << 63);
        }
    }
    for x in [0.5, 0.999_999_999_999_999_9, 1.5, 2.5, 4_503_599_627_370_495.5, 1e19, 1.9e19, f64::MAX] {
        record.double(f64::to_bits(x));
    }
    for bits in [0, 1, 0x7ff0_0000_0000_0000, 0x7ff0_0000_0000_0001, 0x7ff8_0000_0000_0000, 0x7fff_ffff_ffff_ffff] {
        record.double(bits);
        record.double(bits | 1 << 63);
    }
    for _ in 0..300 {
        record.single(random.next() as u32);
        record.double(random.next());
    }
}

/// Cubes of whole steps and their neighbours, the ends of the range, every exponent below it; any.
fn roots(record: &mut Record, random: &mut Random) {
    let limit = 2_097_152f64.to_bits();
    for bits in [0, 1, 2, 0xf_ffff_ffff_ffff, 0x10_0000_0000_0000, limit - 1, limit, limit + 1, 8f64.to_bits()] {
        record.root(bits);
        record.root(bits | 1 << 63);
        record.cube(bits);
        record.cube(bits | 1 << 63);
    }
    for bits in [0x7fef_ffff_ffff_ffff, 0x7ff0_0000_0000_0000, 0x7ff0_0000_0000_0001, 0x7ff8_0000_0000_0000] {
        record.root(bits);
        record.root(bits | 1 << 63);
        record.cube(bits);
        record.cube(bits | 1 << 63);
    }
    for field in 970..=1045u64 {
        let power = field << 52;
        for bits in [power - 1, power, power + 1] {
            record.root(bits);
            record.cube(bits);
        }
    }
    for _ in 0..300 {
        let n = random.next() % (1 << 21);
        let step = n as f64 / 16384.0;
        let bits = (step * step * step).to_bits();
        for near in [bits.saturating_sub(1), bits, bits + 1] {
            record.root(near);
        }
        record.cube(step.to_bits());
    }
    for _ in 0..300 {
        // below 2^21
        let bits = (1000 + random.next() % 44) << 52 | random.next() >> 12;
        record.root(bits);
        record.cube(random.next());
    }
}

fn main() -> std::io::Result<()> {
    let folder = std::env::args().nth(1).expect("the folder to write stdin and stdout into");
    let mut record = Record::default();
    let mut random = Random(0x9e37_79b9_7f4a_7c15);
    wholes(&mut record, &mut random);
    floats(&mut record, &mut random);
    roots(&mut record, &mut random);
    std::fs::write(format!("{folder}/stdin"), record.calls)?;
    std::fs::write(format!("{folder}/stdout"), record.answers)
}
