//! Dates, integers, reals and Uids.

use std::fmt;
use std::hash::{Hash, Hasher};
use std::time::{Duration, SystemTime};

/// The start of 2001 in UTC, from which dates count, in seconds after the start of 1970.
const EPOCH: Duration = Duration::from_secs(978_307_200);

/// The first second of the year -9999, and the one that follows the year 9999.
const FIRST_SECOND: f64 = -378_683_424_000.0;
const END_SECOND: f64 = 252_423_993_600.0;

/// A point in time from -9999-01-01T00:00:00Z to the end of the year 9999. A binary property list
/// stores it as eight bytes: the seconds since 2001-01-01T00:00:00Z, with a fraction.
///
/// ```
/// use sizhetom::Date;
/// use std::time::{Duration, SystemTime};
///
/// let date = Date::from_seconds(0.5).unwrap();
/// let start_of_2001 = SystemTime::UNIX_EPOCH + Duration::from_secs(978_307_200);
/// assert_eq!(SystemTime::from(date), start_of_2001 + Duration::from_millis(500));
/// ```
#[derive(Clone, Copy, Debug, PartialEq, PartialOrd)]
pub struct Date {
    seconds: f64,
}

impl Date {
    /// Makes a date of the seconds since 2001-01-01T00:00:00Z. Returns `None` if they are a NaN or
    /// outside the range of dates. A negative zero becomes a positive zero.
    ///
    /// ```
    /// # use sizhetom::Date;
    /// assert_eq!(Date::from_seconds(1.25).unwrap().seconds(), 1.25);
    /// assert_eq!(Date::from_seconds(f64::INFINITY), None);
    /// ```
    pub fn from_seconds(seconds: f64) -> Option<Date> {
        (FIRST_SECOND..END_SECOND)
            .contains(&seconds)
            .then_some(Date {
                // The sum is a positive zero, too, if the number is a negative one.
                seconds: seconds + 0.0,
            })
    }

    /// Makes a date of these bits, which a reader has checked.
    pub(crate) fn from_checked_bits(bits: u64) -> Date {
        Date {
            seconds: f64::from_bits(bits),
        }
    }

    /// Converts a time of the system. Returns `None` if it is outside the range of dates. The
    /// fraction is rounded to what an `f64` can express.
    ///
    /// ```
    /// # use sizhetom::Date;
    /// # use std::time::SystemTime;
    /// let date = Date::from_system_time(SystemTime::UNIX_EPOCH).unwrap();
    /// assert_eq!(date.seconds(), -978_307_200.0);
    /// ```
    pub fn from_system_time(time: SystemTime) -> Option<Date> {
        let seconds = match time.duration_since(SystemTime::UNIX_EPOCH + EPOCH) {
            Ok(after) => after.as_secs_f64(),
            Err(before) => -before.duration().as_secs_f64(),
        };
        Date::from_seconds(seconds)
    }

    /// Returns the seconds since 2001-01-01T00:00:00Z.
    ///
    /// ```
    /// # use sizhetom::Date;
    /// assert_eq!(Date::from_seconds(-2.5).unwrap().seconds(), -2.5);
    /// ```
    pub fn seconds(self) -> f64 {
        self.seconds
    }
}

// The seconds are never a NaN.
impl Eq for Date {}

impl Hash for Date {
    fn hash<H: Hasher>(&self, state: &mut H) {
        self.seconds.to_bits().hash(state);
    }
}

/// Converts to a time of the system. The fraction is rounded to nanoseconds.
impl From<Date> for SystemTime {
    fn from(date: Date) -> SystemTime {
        let distance = Duration::from_secs_f64(date.seconds.abs());
        let start = SystemTime::UNIX_EPOCH + EPOCH;
        if date.seconds < 0.0 {
            start - distance
        } else {
            start + distance
        }
    }
}

/// An integer from `i64::MIN` to `u64::MAX`.
///
/// ```
/// use sizhetom::Integer;
///
/// let number = Integer::from(-5);
/// assert_eq!(number.as_signed(), Some(-5));
/// assert_eq!(number.as_unsigned(), None);
/// assert_eq!(number.to_string(), "-5");
/// ```
#[derive(Clone, Copy, PartialEq, Eq, Hash)]
pub struct Integer {
    // The bits of an `i64` if the number is negative, and otherwise the number.
    bits: u64,
    is_negative: bool,
}

impl Integer {
    pub(crate) fn from_bits(bits: u64, is_negative: bool) -> Integer {
        Integer { bits, is_negative }
    }

    pub(crate) fn to_bits(self) -> (u64, bool) {
        (self.bits, self.is_negative)
    }

    /// Returns the number as an `i64`, or `None` if it is too large.
    ///
    /// ```
    /// # use sizhetom::Integer;
    /// assert_eq!(Integer::from(7_u8).as_signed(), Some(7));
    /// assert_eq!(Integer::from(u64::MAX).as_signed(), None);
    /// ```
    pub fn as_signed(self) -> Option<i64> {
        if self.is_negative {
            return Some(self.bits as i64);
        }
        i64::try_from(self.bits).ok()
    }

    /// Returns the number as a `u64`, or `None` if it is negative.
    ///
    /// ```
    /// # use sizhetom::Integer;
    /// assert_eq!(Integer::from(u64::MAX).as_unsigned(), Some(u64::MAX));
    /// assert_eq!(Integer::from(-1).as_unsigned(), None);
    /// ```
    pub fn as_unsigned(self) -> Option<u64> {
        (!self.is_negative).then_some(self.bits)
    }
}

impl fmt::Display for Integer {
    fn fmt(&self, f: &mut fmt::Formatter<'_>) -> fmt::Result {
        if self.is_negative {
            return (self.bits as i64).fmt(f);
        }
        self.bits.fmt(f)
    }
}

impl fmt::Debug for Integer {
    fn fmt(&self, f: &mut fmt::Formatter<'_>) -> fmt::Result {
        fmt::Display::fmt(self, f)
    }
}

impl From<u64> for Integer {
    fn from(number: u64) -> Integer {
        Integer::from_bits(number, false)
    }
}

impl From<i64> for Integer {
    fn from(number: i64) -> Integer {
        Integer::from_bits(number as u64, number < 0)
    }
}

macro_rules! integer_from {
    ($($narrow:ty as $wide:ty),*) => {
        $(impl From<$narrow> for Integer {
            fn from(number: $narrow) -> Integer {
                Integer::from(<$wide>::from(number))
            }
        })*
    };
}

integer_from!(
    u8 as u64, u16 as u64, u32 as u64, i8 as i64, i16 as i64, i32 as i64
);

/// A real of four or eight bytes.
///
/// Two reals are equal if they have the same width and the same bits. So the two zeros differ, and
/// a NaN is equal to itself.
///
/// ```
/// use sizhetom::Real;
///
/// assert_eq!(Real::Single(1.5).to_f64(), 1.5);
/// assert_ne!(Real::Single(1.5), Real::Double(1.5));
/// ```
#[derive(Clone, Copy, Debug)]
pub enum Real {
    /// A real of four bytes.
    Single(f32),
    /// A real of eight bytes.
    Double(f64),
}

impl Real {
    /// Returns the number.
    ///
    /// ```
    /// # use sizhetom::Real;
    /// assert_eq!(Real::Double(-0.1).to_f64(), -0.1);
    /// ```
    pub fn to_f64(self) -> f64 {
        match self {
            Real::Single(number) => f64::from(number),
            Real::Double(number) => number,
        }
    }

    /// Returns the bits, and how many bytes they have.
    pub(crate) fn to_bits(self) -> (u64, u64) {
        match self {
            Real::Single(number) => (u64::from(number.to_bits()), 4),
            Real::Double(number) => (number.to_bits(), 8),
        }
    }
}

impl PartialEq for Real {
    fn eq(&self, other: &Real) -> bool {
        self.to_bits() == other.to_bits()
    }
}

impl Eq for Real {}

impl Hash for Real {
    fn hash<H: Hasher>(&self, state: &mut H) {
        self.to_bits().hash(state);
    }
}

impl From<f64> for Real {
    fn from(number: f64) -> Real {
        Real::Double(number)
    }
}

impl From<f32> for Real {
    fn from(number: f32) -> Real {
        Real::Single(number)
    }
}

/// The number of an object in a keyed archive.
///
/// ```
/// use sizhetom::Uid;
///
/// assert_eq!(Uid::new(4).get(), 4);
/// ```
#[derive(Clone, Copy, Debug, PartialEq, Eq, PartialOrd, Ord, Hash)]
pub struct Uid(u64);

impl Uid {
    /// Makes a Uid of its number.
    ///
    /// ```
    /// # use sizhetom::Uid;
    /// assert_eq!(Uid::new(1).get(), 1);
    /// ```
    pub fn new(number: u64) -> Uid {
        Uid(number)
    }

    /// Returns the number.
    ///
    /// ```
    /// # use sizhetom::Uid;
    /// assert_eq!(Uid::new(u64::MAX).get(), u64::MAX);
    /// ```
    pub fn get(self) -> u64 {
        self.0
    }
}
