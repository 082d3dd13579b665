//! Reads the tables of `crates/plist_examples/data`, whose expected results don't come from this
//! library. `crates/plist_examples/src/rows.rt` says how their rows are written.

use sizhetom::{Date, Event, Limits, Real, Uid, Value};
use std::fs;
use std::path::{Path, PathBuf};

/// A row: a check, the name of the example, the input, and what is expected.
pub struct Row {
    pub check: String,
    pub name: String,
    pub given: String,
    pub wanted: String,
}

/// Returns a path of the repository.
pub fn path(name: &str) -> PathBuf {
    Path::new(env!("CARGO_MANIFEST_DIR"))
        .join("../..")
        .join(name)
}

/// Returns the rows of a table whose check is one of these.
pub fn rows(table: &str, checks: &[&str]) -> Vec<Row> {
    let table = path("crates/plist_examples/data").join(table);
    let text = fs::read_to_string(&table).expect("the table can be read");
    let lines = text.lines().filter(|line| !line.starts_with('#'));
    let rows: Vec<Row> = lines
        .filter_map(row_of)
        .filter(|row| checks.contains(&row.check.as_str()))
        .collect();
    assert!(!rows.is_empty(), "{table:?} has no such rows");
    rows
}

fn row_of(line: &str) -> Option<Row> {
    let (check, rest) = line.split_once('|')?;
    let (name, rest) = rest.split_once('|')?;
    let (given, wanted) = rest.split_once('|').unwrap_or((name, rest));
    let trimmed = |text: &str| text.trim().to_owned();
    Some(Row {
        check: trimmed(check),
        name: trimmed(name),
        given: trimmed(given),
        wanted: trimmed(wanted),
    })
}

/// Returns the text with `(00*3)` replaced by `000000`.
pub fn repeated(text: &str) -> String {
    let Some((front, rest)) = text.split_once('(') else {
        return text.to_owned();
    };
    let (digits, rest) = rest.split_once(')').expect("a repetition ends");
    let (digits, count) = digits.split_once('*').expect("a repetition has a count");
    front.to_owned() + &digits.repeat(count.parse().expect("a count is a number")) + rest
}

fn hexadecimal(digits: &str) -> Vec<u8> {
    let digits: Vec<char> = digits.chars().filter(|digit| *digit != ' ').collect();
    let byte = |pair: &[char]| u8::from_str_radix(&String::from_iter(pair), 16);
    digits
        .chunks(2)
        .map(|pair| byte(pair).expect("a byte has two digits"))
        .collect()
}

/// Returns the bytes of a text in which `%0a` is the byte 0A.
pub fn decoded(text: &str) -> Vec<u8> {
    let mut parts = text.split('%');
    let mut bytes = parts.next().unwrap_or("").as_bytes().to_vec();
    for part in parts {
        bytes.extend(hexadecimal(&part[..2]));
        bytes.extend(&part.as_bytes()[2..]);
    }
    bytes
}

/// Returns a file of its objects and table, the widths, and the numbers of its trailer.
fn file(body: &[u8], widths: [u8; 2], numbers: &[u64]) -> Vec<u8> {
    let mut bytes = [b"bplist00", body, &[0; 6], &widths].concat();
    for number in numbers {
        bytes.extend(number.to_be_bytes());
    }
    bytes
}

/// Returns the bytes of an input.
pub fn bytes_given(given: &str) -> Vec<u8> {
    let (form, rest) = given.split_once(' ').unwrap_or((given, ""));
    match form {
        "text" => decoded(rest),
        "bytes" => hexadecimal(rest),
        "object" => {
            let object = hexadecimal(rest);
            let table = 8 + object.len() as u64;
            file(&[&object[..], &[8]].concat(), [1, 1], &[1, 0, table])
        }
        "file" => {
            let (body, numbers) = rest.split_once('/').expect("a file has numbers");
            let words = numbers.split_whitespace();
            let numbers: Vec<u64> = words.map(|word| word.parse().expect("a number")).collect();
            file(
                &hexadecimal(body),
                [numbers[0] as u8, numbers[1] as u8],
                &numbers[2..],
            )
        }
        _ => panic!("unknown form of an input: {given}"),
    }
}

/// Returns the limits of an input, without a limit of bytes, and the rest of it.
pub fn limits_given(given: &str) -> (Limits, &str) {
    let (words, rest) = given.split_once(" } ").expect("limits end");
    let words = words
        .strip_prefix("Limits { depth: ")
        .expect("limits have a depth");
    let (depth, events) = words
        .split_once(", items: ")
        .expect("limits have a number of items");
    let number = |word: &str| word.parse().expect("a limit is a number");
    let limits = Limits {
        depth: number(depth),
        events: number(events),
        bytes: u64::MAX,
    };
    (limits, rest)
}

fn spelled(bytes: &[u8]) -> String {
    bytes.iter().map(|byte| format!("{byte:02x}")).collect()
}

/// Returns the word of an event.
pub fn word_of(event: Event<'_>) -> String {
    let counted = |bracket, length| match length {
        None => format!("{bracket}"),
        Some(length) => format!("{bracket}{length}"),
    };
    match event {
        Event::StartArray(length) => counted('[', length),
        Event::StartDictionary(length) => counted('{', length),
        Event::EndCollection => "end".to_owned(),
        Event::Boolean(value) => value.to_string(),
        Event::Data(data) => format!("<{}>", spelled(data)),
        Event::Date(date) if date.seconds().fract() == 0.0 => format!("date:{}", date.seconds()),
        Event::Date(date) => {
            let bytes = spelled(&date.seconds().to_be_bytes());
            format!("date:{}/{bytes}", date.seconds().floor())
        }
        Event::Integer(integer) => integer.to_string(),
        Event::Real(Real::Single(number)) => format!("real:{}", spelled(&number.to_be_bytes())),
        Event::Real(Real::Double(number)) => format!("real:{}", spelled(&number.to_be_bytes())),
        Event::String(string) => format!("'{string}'"),
        Event::Uid(uid) => format!("uid:{}", uid.get()),
    }
}

/// Returns the words of events.
pub fn words_of<'a>(events: impl Iterator<Item = Event<'a>>) -> Vec<String> {
    events.map(word_of).collect()
}

/// Returns the words of a row, in which a string may have spaces.
pub fn words_in(text: &str) -> Vec<String> {
    let mut words: Vec<String> = Vec::new();
    for part in text.split(' ') {
        match words.last_mut() {
            Some(last) if last.starts_with('\'') && (last.len() == 1 || !last.ends_with('\'')) => {
                last.push(' ');
                last.push_str(part);
            }
            _ => words.push(part.to_owned()),
        }
    }
    words.retain(|word| !word.is_empty());
    words
}

fn date_of(word: &str) -> Date {
    let seconds = match word.split_once('/') {
        None => word.parse().expect("a second is a number"),
        Some((_, digits)) => {
            f64::from_bits(u64::from_str_radix(digits, 16).expect("a date has eight bytes"))
        }
    };
    Date::from_seconds(seconds).expect("a date is in the range of dates")
}

fn real_of(digits: &str) -> Real {
    let bits = u64::from_str_radix(digits, 16).expect("a real has digits");
    match digits.len() {
        8 => Real::Single(f32::from_bits(bits as u32)),
        _ => Real::Double(f64::from_bits(bits)),
    }
}

/// Returns the value of a word that is a scalar.
fn scalar_of(word: &str) -> Value {
    let (front, rest) = word.split_once(':').unwrap_or((word, ""));
    match front {
        "true" => true.into(),
        "false" => false.into(),
        "date" => date_of(rest).into(),
        "real" => real_of(rest).into(),
        "uid" => Uid::new(rest.parse().expect("a Uid is a number")).into(),
        _ if word.starts_with('\'') => word.trim_matches('\'').into(),
        _ if word.starts_with('<') => hexadecimal(word.trim_matches(['<', '>'])).into(),
        _ if word.starts_with('-') => Value::from(word.parse::<i64>().expect("an integer")),
        _ => Value::from(word.parse::<u64>().expect("an integer")),
    }
}

/// Returns the value of the next words.
fn next_value(words: &mut impl Iterator<Item = String>) -> Option<Value> {
    let word = words.next()?;
    if word == "end" {
        return None;
    }
    if word.starts_with('[') {
        let items = std::iter::from_fn(|| next_value(words));
        return Some(items.collect::<Vec<Value>>().into());
    }
    if word.starts_with('{') {
        let mut pairs = sizhetom::Dictionary::new();
        while let Some(key) = next_value(words) {
            let key = key.into_string().expect("a key is a string");
            pairs.insert(key, next_value(words).expect("a key has a value"));
        }
        return Some(pairs.into());
    }
    Some(scalar_of(&word))
}

/// Returns the value of these words.
pub fn value_of(words: &str) -> Value {
    next_value(&mut words_in(words).into_iter()).expect("there is a value")
}
