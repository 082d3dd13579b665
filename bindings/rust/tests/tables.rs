//! Compares what is read and written with the tables of the repository.

mod support;

use sizhetom::{Fault, Limits, Value, read, read_events, to_binary, to_binary_shared};
use support::{
    bytes_given, decoded, limits_given, path, repeated, rows, value_of, words_in, words_of,
};

const MAGIC: &[u8] = b"bplist00";

/// Returns the words of an expectation, up to and with its first fault.
fn expected(wanted: &str) -> Vec<String> {
    let mut words = Vec::new();
    let mut rest = words_in(wanted).into_iter();
    while let Some(word) = rest.next() {
        if word.starts_with(|first: char| first.is_ascii_uppercase()) {
            // The offset belongs to the fault, and so do the fields of a kind.
            let mut fault = word;
            let more: Vec<String> = rest.collect();
            let end = more
                .iter()
                .position(|word| word.ends_with(')') || word == "}");
            for word in more.into_iter().take(end.map_or(0, |end| end + 1)) {
                fault = fault + " " + &word;
            }
            words.push(fault);
            return words;
        }
        words.push(word);
    }
    words
}

/// Returns the words of an expectation in which `%0a` is the byte 0A.
fn expected_of_encoded(wanted: &str) -> Vec<String> {
    let words = expected(wanted).into_iter();
    words
        .map(|word| String::from_utf8(decoded(&word)).expect("a word is UTF-8"))
        .collect()
}

/// Returns the words of an input's events, and then its fault.
fn found(input: &[u8], limits: Limits) -> Vec<String> {
    let list = read_events(input, limits);
    let fault = list.fault().map(|fault| fault.to_string());
    words_of(list.events()).into_iter().chain(fault).collect()
}

fn words_of_value(result: Result<Value, Fault>) -> Vec<String> {
    match result {
        Ok(value) => words_of(value.events()),
        Err(fault) => vec![fault.to_string()],
    }
}

/// The tables call the fault of a budget of bytes `OutOfMemory`.
fn with_budget(wanted: &str) -> Vec<String> {
    let mut words = expected(wanted);
    if let Some(last) = words.last_mut().filter(|last| *last == "OutOfMemory") {
        *last = "LimitReached(Bytes)".to_owned();
    }
    words
}

fn is_text(input: &[u8]) -> bool {
    let front = input.trim_ascii_start();
    !input.starts_with(MAGIC) && !input.starts_with(b"\xef\xbb\xbf") && !front.starts_with(b"<")
}

#[test]
fn events_of_binary_files() {
    let mut count = 0;
    for table in ["reading", "hostile", "bits"] {
        for row in rows(table, &["binary", "plain"]) {
            let input = bytes_given(&row.given);
            if input.starts_with(MAGIC) {
                assert_eq!(
                    found(&input, Limits::NONE),
                    expected_of_encoded(&row.wanted),
                    "{}",
                    row.name
                );
                count += 1;
            }
        }
    }
    assert!(count > 500, "only {count} rows were compared");
}

#[test]
fn events_of_ascii_files() {
    for row in rows("ascii", &["ascii"]) {
        let input = bytes_given(&row.given);
        if is_text(&input) {
            assert_eq!(
                found(&input, Limits::NONE),
                expected_of_encoded(&row.wanted),
                "{}",
                row.name
            );
        }
    }
}

#[test]
fn events_of_either_form() {
    for row in rows("whole", &["either"]) {
        let input = bytes_given(&row.given);
        assert_eq!(
            found(&input, Limits::NONE),
            expected_of_encoded(&row.wanted),
            "{}",
            row.name
        );
    }
}

#[test]
fn events_under_limits() {
    for row in rows("limits", &["limited"]) {
        let (limits, rest) = limits_given(&row.given);
        assert_eq!(
            found(&bytes_given(rest), limits),
            expected(&row.wanted),
            "{}",
            row.given
        );
    }
}

#[test]
fn events_within_a_number_of_bytes() {
    for row in rows("limits", &["within"]) {
        let (limits, rest) = limits_given(&row.given);
        let (bytes, rest) = rest.split_once(' ').expect("a number of bytes");
        let limits = Limits {
            bytes: bytes.parse().expect("a number of bytes"),
            ..limits
        };
        assert_eq!(
            found(&bytes_given(rest), limits),
            with_budget(&row.wanted),
            "{}",
            row.name
        );
    }
}

#[test]
fn values() {
    for row in rows("values", &["value"]) {
        let value = Value::from_bytes(&bytes_given(&row.given), Limits::NONE);
        assert_eq!(
            words_of_value(value),
            expected(&row.wanted),
            "{}",
            row.given
        );
    }
}

#[test]
fn values_under_limits() {
    for row in rows("values", &["value under limits"]) {
        let (limits, rest) = limits_given(&row.given);
        let value = Value::from_bytes(&bytes_given(rest), limits);
        assert_eq!(
            words_of_value(value),
            expected(&row.wanted),
            "{}",
            row.given
        );
    }
}

#[test]
fn values_within_a_number_of_bytes() {
    for row in rows("values", &["value within"]) {
        let (limits, rest) = limits_given(&row.given);
        let (bytes, rest) = rest.split_once(' ').expect("a number of bytes");
        let limits = Limits {
            bytes: bytes.parse().expect("a number of bytes"),
            ..limits
        };
        let value = Value::from_bytes(&bytes_given(rest), limits);
        assert_eq!(
            words_of_value(value),
            with_budget(&row.wanted),
            "{}",
            row.given
        );
    }
}

#[test]
fn equal_and_unequal_values() {
    for row in rows("values", &["equal", "unequal"]) {
        // The input has two columns.
        let (one, other) = (value_of(&row.given), value_of(&row.wanted));
        assert_eq!(one == other, row.check == "equal", "{}", row.name);
        assert_eq!(one.clone(), one);
    }
}

#[test]
fn written_values() {
    for row in rows("writing", &["written", "repeated"]) {
        let value = value_of(&repeated(&row.given));
        let wanted = bytes_given(&repeated(&row.wanted));
        assert_eq!(to_binary(&value).as_ref(), Ok(&wanted), "{}", row.name);
        assert_eq!(
            Value::from_bytes(&wanted, Limits::NONE).as_ref(),
            Ok(&value)
        );
    }
}

#[test]
fn written_events() {
    for row in rows("writing", &["written of events"]) {
        let wanted = bytes_given(&row.wanted);
        let document = read(&wanted, Limits::NONE).expect("the file can be read");
        assert_eq!(words_of(document.events()), words_in(&row.given));
        assert_eq!(document.to_binary(), Ok(wanted));
    }
}

#[test]
fn shared_values() {
    for row in rows("sharing", &["shared"]) {
        let value = value_of(&row.given);
        let wanted = bytes_given(&row.wanted);
        assert_eq!(
            to_binary_shared(&value).as_ref(),
            Ok(&wanted),
            "{}",
            row.name
        );
        assert_eq!(
            Value::from_bytes(&wanted, Limits::NONE).as_ref(),
            Ok(&value)
        );
    }
}

#[test]
fn files_of_the_repository() {
    let input = std::fs::read(path("examples/settings.plist")).unwrap();
    let value = Value::from_bytes(&input, Limits::default()).unwrap();
    let pairs = value.as_dictionary().unwrap();
    assert_eq!(
        pairs.get("Version").and_then(Value::as_signed_integer),
        Some(3)
    );
    assert_eq!(
        pairs.get("Name").and_then(Value::as_string),
        Some("Example settings")
    );
    assert_eq!(pairs.len(), 6);
}
