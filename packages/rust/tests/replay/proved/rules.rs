// Made by scripts/rust_crate from crates/test_replay/src/rules.rt: change that file.

//! The rules by which a line names messages, secrets and numbers.

use crate::replay::kit::*;

use super::bodies::Secrets;
use rapidhash::rng::RapidRng;
use rapidhash::{v1, v3};

/// Byte `i` of the little-endian words of the generator that starts at 0, whose state is led to
/// word `i / 8` by one multiplication.
fn random_byte(i: u64) -> u8 {
    let word = RapidRng::new((i / 8).wrapping_mul(0x2d35_8dcc_aa6c_78a5)).next();
    word.to_le_bytes()[(i % 8) as usize]
}

/// Byte `i` of `n`: (i * i + 7 * i + n) mod 251.
fn square_byte(i: u64, n: u64) -> u8 {
    let sum = i.wrapping_mul(i).wrapping_add(i.wrapping_mul(7));
    (sum.wrapping_add(n) % 251) as u8
}

/// Returns a message: that of hexadecimal digits, `-` for none, or that of a rule and a length.
pub fn message(text: &str) -> Result<Vec<u8>> {
    let (rule, length) = if let Some((rule, length)) = text.split_once(":") {
        (rule, length)
    } else {
        return Ok(hex::decode(if text == "-" { "" } else { text })?);
    };
    let length = number(length)?;
    let mut bytes = Vec::new();
    for i in 0..length {
        bytes.push(match rule {
            "ramp" => (i % 251) as u8,
            "square" => square_byte(i, length),
            "random" => random_byte(i),
            _ => bail!("no message by the rule {rule}"),
        });
    }
    Ok(bytes)
}

/// Returns the secrets of a rule.
pub fn secrets_of(rule: &str) -> Result<Secrets> {
    if rule == "default" {
        return Ok(Secrets { three: v1::DEFAULT_RAPID_SECRETS, seven: v3::DEFAULT_RAPID_SECRETS });
    }
    let (name, words) = if let Some((name, words)) = rule.split_once(":") {
        (name, words)
    } else {
        bail!("no secrets by the rule {rule}");
    };
    Ok(match name {
        "make" => {
            Secrets { three: v1::RapidSecrets::seed(number(words)?), seven: v3::RapidSecrets::seed(number(words)?) }
        }
        "word" => Secrets {
            three: v1::RapidSecrets::seed_cpp(number(words)?),
            seven: v3::RapidSecrets::seed_cpp(number(words)?),
        },
        "own" => own(words)?,
        _ => bail!("no secrets by the rule {rule}"),
    })
}

/// A seed and secrets as numbers between commas: those of V1 are fewer.
fn own(words: &str) -> Result<Secrets> {
    let mut all = [0; 8];
    for (place, word) in words.split(",").enumerate() {
        match all.get_mut(place) {
            Some(one) => *one = number(word)?,
            None => bail!("more than 8 words"),
        }
    }
    let [seed, a, b, c, d, e, f, g] = all;
    Ok(Secrets {
        three: v1::RapidSecrets { seed, secrets: [a, b, c] },
        seven: v3::RapidSecrets { seed, secrets: [a, b, c, d, e, f, g] },
    })
}

/// Parses a decimal number.
pub fn number(text: &str) -> Result<u64> {
    text.parse::<u64>().context(format_args!("reading the number {text}"))
}

/// Parses the numbers between spaces.
pub fn numbers(text: &str) -> Result<Vec<u64>> {
    let mut all = Vec::new();
    for word in text.split_whitespace() {
        all.push(number(word)?);
    }
    Ok(all)
}
