//! Calls on a million levels, on a thread with little call stack.

use sizhetom::{Limits, Value, read, to_binary, to_binary_shared};
use std::thread;

const LEVELS: usize = 1_000_000;

fn on_a_small_stack(test: fn()) {
    let thread = thread::Builder::new().stack_size(256 << 10).spawn(test);
    thread
        .expect("a thread starts")
        .join()
        .expect("the test passes");
}

/// Returns arrays, or dictionaries, that nest a million levels deep.
fn nested(start: &str, end: &str) -> Vec<u8> {
    [start.repeat(LEVELS), "a".to_owned(), end.repeat(LEVELS)]
        .concat()
        .into_bytes()
}

fn use_deep_value(input: &[u8]) {
    let value = Value::from_bytes(input, Limits::NONE).expect("the file can be read");
    let copy = value.clone();
    assert_eq!(copy, value);
    assert!(format!("{value:?}").contains(".."));
    let file = to_binary(&copy).expect("the value can be written");
    assert_eq!(Value::from_bytes(&file, Limits::NONE).as_ref(), Ok(&value));
    assert_eq!(to_binary_shared(&value), Ok(file));
}

#[test]
fn arrays() {
    on_a_small_stack(|| use_deep_value(&nested("(", " )")));
}

#[test]
fn dictionaries() {
    on_a_small_stack(|| use_deep_value(&nested("{ a = ", "; }")));
}

#[test]
fn the_default_limits_refuse_them() {
    let fault = read(&nested("(", ")"), Limits::default()).unwrap_err();
    assert_eq!(fault.to_string(), "LimitReached(Depth)");
    assert_eq!(fault.events(), 64);
}
