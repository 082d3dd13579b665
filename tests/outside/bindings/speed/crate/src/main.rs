//! Times the calls of the crate `plist`.

include!("../../timing.rs");

use plist::stream::Reader;
use plist::{Error, Value};
use std::io::Cursor;

fn count(file: &[u8]) -> Result<usize, Error> {
    let mut count = 0;
    for event in Reader::new(Cursor::new(file)) {
        black_box(event?);
        count += 1;
    }
    Ok(count)
}

fn written(value: &Value) -> Result<Vec<u8>, Error> {
    let mut file = Vec::new();
    value.to_writer_binary(&mut file)?;
    Ok(file)
}

fn main() {
    let file = input();
    time("read", || count(&file));
    time("read and value", || Value::from_reader(Cursor::new(&file)));
    if let Ok(value) = Value::from_reader(Cursor::new(&file)) {
        time("write", || written(&value));
    }
}
