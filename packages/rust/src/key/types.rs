//! Fields of dates, times, UUIDs and floats.

use super::{Field, KeyField};
use std::fmt::{self, Display, Formatter};
use std::str::FromStr;
#[cfg(feature = "std")]
use std::time::{SystemTime, UNIX_EPOCH};

/// Why a value is no field. The words show nothing of the value, which may be private.
#[derive(Clone, Copy, Debug, PartialEq, Eq)]
#[non_exhaustive]
pub enum FieldError {
    /// A year has no such day.
    Day,
    /// A time has a part of a microsecond, which other programs round.
    Fraction,
    /// A time has a billion nanoseconds or more, as in a leap second.
    Nanoseconds,
    /// A time has more than 64 bits of microseconds.
    Time,
    /// A text is no UUID.
    Uuid,
    /// A text is no decimal number.
    Decimal,
    /// A decimal number has more than 150,000 bytes.
    Long,
    /// A float is NaN, which has many bits.
    NaN,
}

impl Display for FieldError {
    fn fmt(&self, formatter: &mut Formatter<'_>) -> fmt::Result {
        formatter.write_str(match self {
            FieldError::Day => "not a day of the calendar",
            FieldError::Fraction => "a part of a microsecond: round the time first",
            FieldError::Nanoseconds => "a second of a billion nanoseconds or more, as a leap second has",
            FieldError::Time => "a time of more than 64 bits of microseconds",
            FieldError::Uuid => "not a UUID of 36 letters",
            FieldError::Decimal => "not a decimal number",
            FieldError::Long => "a decimal number of more than 150000 bytes",
            FieldError::NaN => "NaN, which has many bits",
        })
    }
}

#[cfg(feature = "std")]
impl std::error::Error for FieldError {}

/// A date as a field: the days since 1970-01-01, in the Gregorian calendar.
#[derive(Clone, Copy, Debug, PartialEq, Eq, PartialOrd, Ord, Hash)]
pub struct Day(i64);

impl Day {
    /// Returns a day of the Gregorian calendar, in which the year before 1 is 0.
    ///
    /// ```
    /// use rapidhash::key::{self, Day, FieldError};
    ///
    /// assert_eq!(key::hash(&("user", Day::new(2024, 2, 29)?)), key::hash(&("user", 19782)));
    /// assert_eq!(Day::new(2023, 2, 29), Err(FieldError::Day));
    /// # Ok::<(), FieldError>(())
    /// ```
    ///
    /// # Errors
    ///
    /// [`FieldError::Day`] if the month is not 1 to 12, or has no such day.
    pub fn new(year: i32, month: u32, day: u32) -> Result<Day, FieldError> {
        let is_leap = year % 4 == 0 && (year % 100 != 0 || year % 400 == 0);
        let most = match month {
            2 => 28 + u32::from(is_leap),
            4 | 6 | 9 | 11 => 30,
            1 | 3 | 5 | 7 | 8 | 10 | 12 => 31,
            _ => 0,
        };
        if day == 0 || day > most {
            return Err(FieldError::Day);
        }
        // Years begin in March, so that a leap day is the last of its year.
        let (months, year) = ((i64::from(month) + 9) % 12, i64::from(year) - i64::from(month < 3));
        let leaps = year.div_euclid(4) - year.div_euclid(100) + year.div_euclid(400);
        Ok(Day(year * 365 + leaps + (months * 153 + 2) / 5 + i64::from(day) - 719_469))
    }

    /// Returns the day so many days after 1970-01-01, or before it if the number is negative.
    ///
    /// ```
    /// use rapidhash::key::{Day, FieldError};
    ///
    /// assert_eq!(Day::since_1970(-1), Day::new(1969, 12, 31)?);
    /// # Ok::<(), FieldError>(())
    /// ```
    #[must_use]
    pub const fn since_1970(days: i64) -> Day {
        Day(days)
    }
}

/// A time as a field: the microseconds since 1970-01-01 00:00 UTC. A `SystemTime` is one by `Time::try_from`.
#[derive(Clone, Copy, Debug, PartialEq, Eq, PartialOrd, Ord, Hash)]
pub struct Time(i64);

impl Time {
    /// Returns the time so many seconds after 1970-01-01 00:00 UTC, or before it, and then so many nanoseconds after.
    ///
    /// ```
    /// use rapidhash::key::{self, FieldError, Time};
    ///
    /// assert_eq!(key::hash(&Time::new(1, 2_000)?), key::hash(&1_000_002));
    /// assert_eq!(key::hash(&Time::new(-1, 999_999_000)?), key::hash(&-1));
    /// assert_eq!(Time::new(1, 2_001), Err(FieldError::Fraction));
    /// # Ok::<(), FieldError>(())
    /// ```
    ///
    /// # Errors
    ///
    /// [`FieldError::Nanoseconds`] from a billion nanoseconds on, [`FieldError::Fraction`] if they have a part of a
    /// microsecond (cut it off: `nanoseconds / 1000 * 1000`), and [`FieldError::Time`] beyond 64 bits of microseconds.
    pub fn new(seconds: i64, nanoseconds: u32) -> Result<Time, FieldError> {
        if nanoseconds >= 1_000_000_000 {
            return Err(FieldError::Nanoseconds);
        }
        if nanoseconds % 1000 != 0 {
            return Err(FieldError::Fraction);
        }
        let microseconds = i128::from(seconds) * 1_000_000 + i128::from(nanoseconds / 1000);
        i64::try_from(microseconds).map(Time).map_err(|_| FieldError::Time)
    }
}

/// Has the errors of [`Time::new`]. The clock of a system is often finer than a microsecond.
///
/// ```
/// use rapidhash::key::{self, FieldError, Time};
/// use std::time::{Duration, SystemTime, UNIX_EPOCH};
///
/// let before = UNIX_EPOCH - Duration::from_micros(1);
/// assert_eq!(key::hash(&Time::try_from(before)?), key::hash(&-1));
///
/// let now = SystemTime::now();
/// let finer = now.duration_since(UNIX_EPOCH).unwrap().subsec_nanos() % 1000;
/// assert!(Time::try_from(now - Duration::from_nanos(finer.into())).is_ok());
/// # Ok::<(), FieldError>(())
/// ```
#[cfg(feature = "std")]
impl TryFrom<SystemTime> for Time {
    type Error = FieldError;

    fn try_from(time: SystemTime) -> Result<Time, FieldError> {
        let (sign, distance) = match time.duration_since(UNIX_EPOCH) {
            Ok(after) => (1, after),
            Err(before) => (-1, before.duration()),
        };
        if distance.subsec_nanos() % 1000 != 0 {
            return Err(FieldError::Fraction);
        }
        let microseconds = i128::from(distance.as_secs()) * 1_000_000 + i128::from(distance.subsec_micros());
        i64::try_from(sign * microseconds).map(Time).map_err(|_| FieldError::Time)
    }
}

macro_rules! numbers {
    ($($type:ty)*) => { $(
        impl KeyField for $type {
            fn field(&self) -> Field<'_> {
                self.0.field()
            }
        }
    )* };
}

numbers!(Day Time Uuid);

/// A UUID as a field: its 16 bytes, in the order of its digits. Equal bytes are the same field.
#[derive(Clone, Copy, Debug, PartialEq, Eq, PartialOrd, Ord, Hash)]
pub struct Uuid([u8; 16]);

impl From<[u8; 16]> for Uuid {
    fn from(bytes: [u8; 16]) -> Uuid {
        Uuid(bytes)
    }
}

/// Reads 36 letters: 32 digits of either case, and a hyphen after 8, 12, 16 and 20 of them. Other texts are
/// [`FieldError::Uuid`].
///
/// ```
/// use rapidhash::key::{self, FieldError, Uuid};
///
/// let id: Uuid = "00112233-4455-6677-8899-aabbccddeeff".parse()?;
/// assert_eq!(key::hash(&id), key::hash(b"\x00\x11\x22\x33\x44\x55\x66\x77\x88\x99\xaa\xbb\xcc\xdd\xee\xff"));
/// # Ok::<(), FieldError>(())
/// ```
impl FromStr for Uuid {
    type Err = FieldError;

    fn from_str(text: &str) -> Result<Uuid, FieldError> {
        if text.len() != 36 {
            return Err(FieldError::Uuid);
        }
        let (mut bytes, mut count) = ([0; 16], 0);
        for (at, letter) in text.bytes().enumerate() {
            if matches!(at, 8 | 13 | 18 | 23) {
                if letter != b'-' {
                    return Err(FieldError::Uuid);
                }
                continue;
            }
            let digit = char::from(letter).to_digit(16).ok_or(FieldError::Uuid)?;
            bytes[count / 2] = bytes[count / 2] << 4 | digit as u8;
            count += 1;
        }
        Ok(Uuid(bytes))
    }
}

/// Returns the bits of a number, those of 0 for -0, which are a field.
///
/// There is no field of a number without this call, because programs differ in how they compute and write it.
///
/// ```
/// use rapidhash::key::{self, FieldError};
///
/// assert_eq!(key::hash(&("user", key::float_bits(0.5)?)), key::hash(&("user", 0.5f64.to_bits())));
/// assert_eq!(key::float_bits(-0.0), Ok(0));
/// # Ok::<(), FieldError>(())
/// ```
///
/// # Errors
///
/// [`FieldError::NaN`] for NaN, which has many bits.
pub fn float_bits(number: f64) -> Result<u64, FieldError> {
    if number.is_nan() {
        return Err(FieldError::NaN);
    }
    // A small number would equal 0, where a library that was linked with -ffast-math is loaded.
    let bits = number.to_bits();
    Ok(if bits == 1 << 63 { 0 } else { bits })
}
