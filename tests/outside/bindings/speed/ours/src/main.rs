//! Times the calls of the crate `sizhetom`.

include!("../../timing.rs");

use sizhetom::{Event, Fault, Limits, Reader, Value, read, to_binary};

fn visit<'a>(events: impl Iterator<Item = Event<'a>>) -> usize {
    let mut count = 0;
    for event in events {
        black_box(event);
        count += 1;
    }
    count
}

fn main() {
    let file = input();
    let mut reader = Reader::new(Limits::NONE);
    time("read", || {
        Ok::<usize, Fault>(visit(read(&file, Limits::NONE)?.events()))
    });
    time("read again", || {
        Ok::<usize, Fault>(visit(reader.read(&file)?.events()))
    });
    time("read and value", || Value::from_bytes(&file, Limits::NONE));
    if let Ok(value) = Value::from_bytes(&file, Limits::NONE) {
        time("write", || to_binary(&value));
    }
}
