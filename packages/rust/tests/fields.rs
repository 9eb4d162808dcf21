//! Replays the repository's file of fields: values of each type as text, and the encoding of the field of each, or that
//! it is refused. Eight lines have no value in Rust and are passed over as refused: infinities of dates and times, a
//! time without its offset, and lists in lists. The environment variable `FIELDS` may name another file.
#![cfg(feature = "std")]

#[path = "fields/json.rs"]
mod json;

use json::Item;
use rapidhash::key::{self, Day, Decimal, Field, FieldError, Key, KeyField, List, Time, Uuid};
use rapidhash::v3::rapidhash_v3;
use std::collections::BTreeMap;
use std::env;
use std::path::PathBuf;
use std::time::{Duration, Instant, SystemTime, UNIX_EPOCH};

/// The hash of the key of a value, or nothing if its type or its call refuses it.
type Found = Option<u64>;

fn integer(text: &str) -> Found {
    text.parse::<i64>().map(|it| key::hash(&it)).or_else(|_| text.parse::<u64>().map(|it| key::hash(&it))).ok()
}

/// Reads digits between other characters: `12:34` has 12 and 34.
fn numbers(text: &str) -> Option<Vec<u32>> {
    text.split(|it: char| !it.is_ascii_digit()).map(|it| it.parse().ok()).collect()
}

fn day(text: &str) -> Option<Day> {
    match numbers(text)?[..] {
        [year, month, day] => Day::new(year as i32, month, day).ok(),
        _ => None,
    }
}

/// Reads a time: its seconds since 1970, and its nanoseconds. Those of second 60 go on after a billion, as libraries
/// of times have them.
fn seconds_and_nanoseconds(text: &str) -> Option<(i64, u32)> {
    let (date, rest) = text.split_once('T')?;
    let days = match day(date)?.field() {
        Field::Integer(days) => days as i64,
        _ => return None,
    };
    let end = rest.find(|it: char| !it.is_ascii_digit() && it != ':' && it != '.')?;
    let (clock, zone) = rest.split_at(end);
    let (clock, fraction) = clock.split_once('.').unwrap_or((clock, "0"));
    let clock = numbers(clock)?;
    let offset = if zone == "Z" { 0 } else { numbers(&zone[1..])?.iter().fold(0, |all, it| all * 60 + i64::from(*it)) };
    let offset = if zone.starts_with('-') { -offset } else { offset };
    let second = clock[2].min(59);
    let seconds = ((days * 24 + i64::from(clock[0])) * 60 + i64::from(clock[1]) - offset) * 60 + i64::from(second);
    Some((seconds, format!("{:0<9}", fraction).parse::<u32>().ok()? + (clock[2] - second) * 1_000_000_000))
}

/// The key of a time by its numbers, and as a time of std, which has no second 60.
fn time(text: &str) -> Found {
    let (seconds, nanoseconds) = seconds_and_nanoseconds(text)?;
    let by_numbers = Time::new(seconds, nanoseconds).ok();
    if nanoseconds < 1_000_000_000 {
        let whole = Duration::from_secs(seconds.unsigned_abs());
        let whole = if seconds < 0 { UNIX_EPOCH - whole } else { UNIX_EPOCH + whole };
        assert_eq!(Time::try_from(whole + Duration::from_nanos(nanoseconds.into())).ok(), by_numbers, "{text}");
    }
    by_numbers.map(|it| key::hash(&it))
}

/// The key of a list of JSON. A list in a list has no type here, and is passed over as refused.
fn list(text: &str) -> Found {
    json::items(text).map(|items| key::hash(&List(&items)))
}

fn found(kind: &str, text: &str) -> Found {
    match (kind, text) {
        (_, "null") => Some(key::hash(&*missing(kind))),
        ("boolean", _) => text.parse::<bool>().ok().map(|it| key::hash(&it)),
        ("integer", _) => integer(text),
        ("date", _) => day(text).map(|it| key::hash(&it)),
        ("time", _) => time(text),
        ("uuid", _) => text.parse::<Uuid>().ok().map(|it| key::hash(&it)),
        ("decimal", _) => text.parse::<Decimal>().ok().map(|it| key::hash(&it)),
        ("float", _) => text.parse().ok().and_then(|it| key::float_bits(it).ok()).map(|it| key::hash(&it)),
        ("list", _) => list(text),
        _ => panic!("a new type: {kind}"),
    }
}

/// A missing value of a type.
fn missing(kind: &str) -> Box<dyn Key> {
    match kind {
        "boolean" => Box::new(None::<bool>),
        "date" => Box::new(None::<Day>),
        "time" => Box::new(None::<Time>),
        "uuid" => Box::new(None::<Uuid>),
        "decimal" => Box::new(None::<Decimal>),
        "list" => Box::new(None::<List<'_, Item>>),
        _ => Box::new(None::<u64>),
    }
}

#[test]
fn every_field_is_replayed() {
    let file = env::var_os("FIELDS").map(PathBuf::from);
    let own = file.is_none();
    let file = file.unwrap_or_else(|| PathBuf::from(env!("CARGO_MANIFEST_DIR")).join("../../tests/fields.tsv"));
    let text = std::fs::read_to_string(file).unwrap();
    let (mut counts, mut wrong) = (BTreeMap::new(), Vec::new());
    for line in text.lines().filter(|it| !it.starts_with('#') && !it.starts_with("type\t")) {
        let words: Vec<_> = line.split('\t').collect();
        let bytes = (0..words[2].len()).step_by(2).map(|at| u8::from_str_radix(&words[2][at..at + 2], 16).ok());
        let wanted =
            if words[2] == "refused" { None } else { Some(rapidhash_v3(&bytes.flatten().collect::<Vec<_>>())) };
        *counts.entry(words[0]).or_insert(0) += 1;
        if found(words[0], words[1]) != wanted {
            wrong.push(line.chars().take(150).collect::<String>());
        }
    }
    assert!(wrong.is_empty(), "{} lines are wrong:\n{}", wrong.len(), wrong.join("\n"));
    let known = [("boolean", 3), ("date", 70), ("decimal", 92), ("float", 63), ("integer", 64), ("list", 54)];
    assert!(!own || counts == known.into_iter().chain([("time", 69), ("uuid", 57)]).collect(), "{counts:?}");
}

/// Chars are their texts, alone and in tuples and lists, and lists stand beside fields.
#[test]
fn chars_and_lists() {
    for it in ['a', '\0', '\u{7f}', '\u{80}', 'é', '€', '\u{ffff}', '😀', char::MAX] {
        let text = it.to_string();
        assert_eq!(key::hash(&it), key::hash(&text));
        assert_eq!(key::hash(&(1, it, Some(it), &it)), key::hash(&(1, &text, &text, &text)));
        assert_eq!(key::hash(&List(&[it, it])), key::hash(&List(&[&text, &text])));
        assert_eq!(key::hash(&List(&[it])), key::hash(&(1, &text)));
    }
    assert_eq!(key::hash(&(None::<char>, None::<List<'_, char>>)), key::hash(&(None::<u8>, None::<u8>)));
    let (initial, list) = (Some('é'), List(&["a"]));
    assert_eq!(key::hash(&(&initial, initial.as_ref(), &list, Some(list))), key::hash(&("é", "é", 1, "a", 1, "a")));
    assert_eq!(key::hash(&List(&[&initial, &None])), key::hash(&(2, "é", None::<u8>)));
    let texts = vec!["a".to_owned(), "bc".to_owned()];
    let all = key::hash(&("user", 2, "a", "bc", 0, 1, None::<u8>));
    assert_eq!(key::hash(&("user", List(&texts), List::<u8>(&[]), Some(List(&[None::<Uuid>])))), all);
    assert_ne!(key::hash(&List::<u8>(&[])), key::hash(&None::<List<'_, u8>>));
    assert_eq!(key::hash(&List(&[Day::new(1970, 1, 2).unwrap()])), key::hash(&(1, 1)));
}

/// Integers and texts that are made from a value while it is hashed, as users' own types have them, are items too.
#[test]
fn own_items() {
    struct Version(u8, u8);
    impl Key for Version {
        fn fields(&self, each: &mut dyn FnMut(Field<'_>)) {
            each(format!("{}.{}", self.0, self.1).field());
        }
    }
    impl key::KeyItem for Version {}
    assert_eq!(key::hash(&(Version(1, 2), List(&[Version(3, 4)]))), key::hash(&("1.2", 1, "3.4")));
}

#[test]
fn days_and_times_at_their_ends() {
    for (year, month, day) in [(2023, 2, 29), (1900, 2, 29), (2024, 0, 1), (2024, 13, 1), (2024, 1, 0), (2024, 4, 31)] {
        assert_eq!(Day::new(year, month, day), Err(FieldError::Day));
    }
    assert_eq!(Day::new(2024, u32::MAX, 1), Err(FieldError::Day));
    for (year, days) in
        [(0, -719_528), (-1, -719_893), (-4, -720_989), (i32::MAX, 784_351_576_412), (i32::MIN, -784_353_015_833)]
    {
        assert_eq!(Day::new(year, 1, 1), Ok(Day::since_1970(days)), "{year}");
    }
    assert_eq!(Day::new(i32::MAX, 12, 31), Ok(Day::since_1970(784_351_576_776)));
    let (most, fraction) = (i64::MAX / 1_000_000, 775_807_000);
    assert_eq!(Time::new(most, fraction).unwrap().field(), i64::MAX.field());
    assert_eq!(Time::new(-most - 1, 1_000_000_000 - 775_808_000).unwrap().field(), i64::MIN.field());
    for (seconds, nanoseconds) in [(most, 775_808_000), (-most - 1, 224_191_000), (i64::MAX, 0), (i64::MIN, 0)] {
        assert_eq!(Time::new(seconds, nanoseconds), Err(FieldError::Time));
    }
    assert_eq!(Time::new(0, 1_000_000_000), Err(FieldError::Nanoseconds));
    assert_eq!(Time::new(-1, 999_999_999), Err(FieldError::Fraction));
    assert_eq!(Time::try_from(UNIX_EPOCH - Duration::from_micros(1)).unwrap().field(), (-1).field());
    let far: Option<SystemTime> = UNIX_EPOCH.checked_add(Duration::from_secs(i64::MAX as u64));
    assert!(far.map_or(true, |it| Time::try_from(it) == Err(FieldError::Time)));
}

#[test]
fn uuids_of_other_forms_are_refused() {
    let text = "00112233-4455-6677-8899-AAbbccddeeff";
    let bytes = [0x00, 0x11, 0x22, 0x33, 0x44, 0x55, 0x66, 0x77, 0x88, 0x99, 0xaa, 0xbb, 0xcc, 0xdd, 0xee, 0xff];
    assert_eq!(text.parse(), Ok(Uuid::from(bytes)));
    assert_eq!(key::hash(&Uuid::from(bytes)), key::hash(&bytes));
    let others = [text.replace('-', ""), format!("{{{text}}}"), format!("{text} "), text.replace('3', "+"), "".into()];
    let moved = "001122334-455-6677-8899-aabbccddeeff".to_owned();
    let wide = "é112233-4455-6677-8899-aabbccddeeff".to_owned();
    for other in others.into_iter().chain([moved, wide, text.replace("-4455", "44-55"), text[..35].to_owned()]) {
        assert_eq!(other.parse::<Uuid>(), Err(FieldError::Uuid), "{other}");
    }
}

/// The most bytes of a decimal, and long texts and exponents, which take no time.
#[test]
fn long_decimals() {
    let start = Instant::now();
    let ones = "1".repeat(150_000);
    assert_eq!(key::hash(&ones.parse::<Decimal>().unwrap()), key::hash(&ones));
    for long in [format!("-{ones}"), format!("{ones}1"), format!("{ones}.5"), "1e150000".into(), "-1e149999".into()] {
        assert_eq!(long.parse::<Decimal>(), Err(FieldError::Long));
    }
    assert!("1e149999".parse::<Decimal>().is_ok() && "1e-149998".parse::<Decimal>().is_ok());
    assert_eq!("1e-149999".parse::<Decimal>(), Err(FieldError::Long));
    for exponent in ["1000000000", "-1000000000", "99999999999999999999999999", "-99999999999999999999999999"] {
        assert_eq!(format!("1e{exponent}").parse::<Decimal>(), Err(FieldError::Long));
        assert_eq!(format!("-0.00e{exponent}").parse(), "0".parse::<Decimal>());
    }
    let zeros = "0".repeat(100_000);
    assert_eq!(format!("-{zeros}1.50{zeros}e+00001").parse(), "-15".parse::<Decimal>());
    assert_eq!(format!("1{zeros}e-100000").parse(), "1".parse::<Decimal>());
    assert_eq!(format!("0.{zeros}15e100001").parse(), "1.5".parse::<Decimal>());
    let digits = "1234567890".repeat(13_107) + "12";
    assert_eq!(format!("+{digits}e-3").parse::<Decimal>().map(|it| key::hash(&it)).unwrap(), {
        key::hash(&format!("{}.{}", &digits[..131_069], &digits[131_069..]))
    });
    assert!(start.elapsed() < Duration::from_secs(2), "{:?}", start.elapsed());
    for other in ["", "-", ".", "-.", "1e", "1e+", "e5", "1 ", " 1", "1_0", "--1", "0x1", "١", "1.2.3", "1e5.0", "1e 5"]
    {
        assert_eq!(other.parse::<Decimal>(), Err(FieldError::Decimal), "{other}");
    }
}

/// Errors have words of their own, and those of a message show nothing of the value.
#[test]
fn errors_have_words() {
    let error: Box<dyn std::error::Error> = key::float_bits(f64::NAN).unwrap_err().into();
    assert_eq!(error.to_string(), "NaN, which has many bits");
    assert_eq!(key::float_bits(-0.0), Ok(0));
    assert_eq!("12a".parse::<Decimal>().unwrap_err().to_string(), "not a decimal number");
    assert_eq!(Time::new(0, 1).unwrap_err().to_string(), "a part of a microsecond: round the time first");
}
