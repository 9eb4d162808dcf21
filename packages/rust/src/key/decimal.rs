//! Fields of decimal numbers.

use super::{Field, FieldError, KeyField};
use std::str::FromStr;

/// The most bytes of a decimal number, so that an exponent costs no memory.
const MOST: i128 = 150_000;

/// A decimal number as a field: its text without an exponent and without needless zeros, the same for each way to write
/// it. It needs the feature `std`.
#[derive(Clone, Debug, PartialEq, Eq, Hash)]
pub struct Decimal(String);

impl KeyField for Decimal {
    fn field(&self) -> Field<'_> {
        self.0.field()
    }
}

/// Reads digits, with or without a sign, a point and an exponent, in a time that grows as the text. A text of anything
/// else is [`FieldError::Decimal`], and a number that has more than 150,000 bytes without an exponent is
/// [`FieldError::Long`].
///
/// ```
/// use rapidhash::key::{self, Decimal, FieldError};
///
/// let price: Decimal = "1.50".parse()?;
/// assert_eq!(key::hash(&("user", price)), key::hash(&("user", "1.5")));
/// assert_eq!("+15e-1".parse::<Decimal>(), "1.5".parse());
/// assert_eq!("-0.00".parse::<Decimal>(), "0".parse());
/// assert_eq!("1e1000000000".parse::<Decimal>(), Err(FieldError::Long));
/// assert_eq!("NaN".parse::<Decimal>(), Err(FieldError::Decimal));
/// # Ok::<(), FieldError>(())
/// ```
impl FromStr for Decimal {
    type Err = FieldError;

    fn from_str(text: &str) -> Result<Decimal, FieldError> {
        let unsigned = text.strip_prefix('-');
        let (whole, rest) = cut_digits(unsigned.or_else(|| text.strip_prefix('+')).unwrap_or(text));
        let (part, rest) = rest.strip_prefix('.').map_or(("", rest), cut_digits);
        let exponent = exponent_of(rest).ok_or(FieldError::Decimal)?;
        if whole.is_empty() && part.is_empty() {
            return Err(FieldError::Decimal);
        }
        plain(if unsigned.is_some() { "-" } else { "" }, whole, part, exponent).map(Decimal)
    }
}

/// Returns the digits that a text begins with, and the rest.
fn cut_digits(text: &str) -> (&str, &str) {
    text.split_at(text.bytes().take_while(u8::is_ascii_digit).count())
}

/// Returns the number behind an e, or 0 for no text, or none if there is none. One beyond all numbers is above 2^56.
fn exponent_of(text: &str) -> Option<i128> {
    if text.is_empty() {
        return Some(0);
    }
    let text = text.strip_prefix(['e', 'E'])?;
    let negative = text.strip_prefix('-');
    let (digits, rest) = cut_digits(negative.or_else(|| text.strip_prefix('+')).unwrap_or(text));
    if digits.is_empty() || !rest.is_empty() {
        return None;
    }
    let size =
        digits.bytes().fold(0, |all: i128, it| if all < 1 << 56 { all * 10 + i128::from(it - b'0') } else { all });
    Some(if negative.is_some() { -size } else { size })
}

/// Returns the text of a number from the digits before and behind its point, and its exponent.
fn plain(sign: &str, whole: &str, part: &str, exponent: i128) -> Result<String, FieldError> {
    let (whole, part) = (whole.trim_start_matches('0'), part.trim_end_matches('0'));
    let digits = match (whole, part) {
        ("", _) => ["", part.trim_start_matches('0')],
        (_, "") => [whole.trim_end_matches('0'), ""],
        both => [both.0, both.1],
    };
    let size = (digits[0].len() + digits[1].len()) as i128;
    if size == 0 {
        return Ok("0".to_owned());
    }
    // The number is 0.DIGITS times 10 to this power.
    let power = exponent + if whole.is_empty() { size - part.len() as i128 } else { whole.len() as i128 };
    let needed = if power <= 0 { 2 + size - power } else { power.max(size + i128::from(power < size)) };
    if sign.len() as i128 + needed > MOST {
        return Err(FieldError::Long);
    }
    let digits = digits.concat();
    Ok(if power <= 0 {
        [sign, "0.", &"0".repeat(-power as usize), &digits].concat()
    } else if power < size {
        let (whole, part) = digits.split_at(power as usize);
        [sign, whole, ".", part].concat()
    } else {
        [sign, &digits, &"0".repeat((power - size) as usize)].concat()
    })
}
