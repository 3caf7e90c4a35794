//! What the lists are made of: calls, and the state that the crate is in after each.

use std::num::ParseIntError;

use crate::{Duration, Instant, clock};

/// A value of the crate that is driven by calls and read field by field.
pub trait Subject: Clone {
    /// The value that `new` makes of these arguments.
    fn make(args: &[&str]) -> Result<Self, Malformed>;

    /// Performs a call other than `new`; the crate's answer, where the call has one.
    fn perform(&mut self, call: &Call) -> Result<Option<String>, Malformed>;

    /// Every field, and what the crate answers to questions without arguments.
    fn state(&self) -> String;
}

/// One line of a list, taken apart: the name of a call and its arguments.
pub struct Call<'a> {
    name: &'a str,
    args: Vec<&'a str>,
}

/// A line that is not a call of the subject.
#[derive(Debug)]
pub struct Malformed;

impl<'a> Call<'a> {
    /// The call that stands on the line.
    pub fn on(line: &'a str) -> Self {
        let mut words = line.split(' ');
        Self {
            name: words.next().unwrap_or_default(),
            args: words.collect(),
        }
    }

    /// Name and arguments, to match on.
    pub fn parts(&self) -> (&str, &[&'a str]) {
        (self.name, &self.args)
    }
}

impl From<ParseIntError> for Malformed {
    fn from(_: ParseIntError) -> Self {
        Self
    }
}

/// A value that a call is given.
pub trait Argument: Sized {
    /// The value that the word stands for, as `Field` writes it.
    fn read(word: &str) -> Result<Self, Malformed>;
}

/// The argument that the word stands for.
pub fn read<T: Argument>(word: &str) -> Result<T, Malformed> {
    T::read(word)
}

/// A value as the lists write it.
pub trait Field {
    /// Numbers in decimal, times and durations in nanoseconds, flags as 0 or 1, the bits of a float
    /// in hexadecimal, `none` for none.
    fn text(&self) -> String;
}

/// Whole numbers are written and read in decimal.
macro_rules! whole_numbers {
    ($($number:ty)*) => {$(
        impl Argument for $number {
            fn read(word: &str) -> Result<Self, Malformed> {
                Ok(word.parse()?)
            }
        }

        impl Field for $number {
            fn text(&self) -> String {
                self.to_string()
            }
        }
    )*};
}

whole_numbers!(u8 u16 u32 u64);

impl Argument for bool {
    fn read(word: &str) -> Result<Self, Malformed> {
        match word {
            "0" => Ok(false),
            "1" => Ok(true),
            _ => Err(Malformed),
        }
    }
}

impl Field for bool {
    fn text(&self) -> String {
        u8::from(*self).to_string()
    }
}

impl Argument for Duration {
    fn read(word: &str) -> Result<Self, Malformed> {
        Ok(Self::from_nanos(read(word)?))
    }
}

impl Field for Duration {
    fn text(&self) -> String {
        self.as_nanos().to_string()
    }
}

impl Argument for Instant {
    fn read(word: &str) -> Result<Self, Malformed> {
        Ok(clock::at(read(word)?))
    }
}

impl Field for Instant {
    fn text(&self) -> String {
        clock::nanos(*self).to_string()
    }
}

impl Argument for f32 {
    fn read(word: &str) -> Result<Self, Malformed> {
        Ok(Self::from_bits(u32::from_str_radix(word, 16)?))
    }
}

impl Field for f32 {
    fn text(&self) -> String {
        format!("{:08x}", self.to_bits())
    }
}

impl Field for f64 {
    fn text(&self) -> String {
        format!("{:016x}", self.to_bits())
    }
}

impl Field for String {
    fn text(&self) -> String {
        self.clone()
    }
}

impl<T: Argument> Argument for Option<T> {
    fn read(word: &str) -> Result<Self, Malformed> {
        match word {
            "none" => Ok(None),
            _ => read(word).map(Some),
        }
    }
}

impl<T: Field> Field for Option<T> {
    fn text(&self) -> String {
        self.as_ref().map_or("none".to_owned(), T::text)
    }
}

/// The fields, separated by single spaces.
pub fn line(fields: &[&dyn Field]) -> String {
    let texts: Vec<_> = fields.iter().map(|field| field.text()).collect();
    texts.join(" ")
}
