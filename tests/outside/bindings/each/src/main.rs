//! Reads many files by the crate. For each one five answers are written, as `each.c` does: what
//! `examples/print.rs` prints to standard output and to standard error; the error of `read`, or
//! nothing; and what `to_binary` and `to_binary_shared` write, or nothing after an error.
//!
//! It also compares the ways in which the crate reads and writes the same.

#[path = "../../../../../bindings/rust/examples/print.rs"]
#[allow(dead_code)]
mod print;

use sizhetom::{Fault, Limits, Reader, Value, read, read_events, to_binary, to_binary_shared};
use std::io::{self, Read, Write};

fn next_file(input: &mut impl Read) -> Option<Vec<u8>> {
    let mut length = [0; 4];
    input.read_exact(&mut length).ok()?;
    let mut file = vec![0; u32::from_ne_bytes(length) as usize];
    input.read_exact(&mut file).expect("a file has its length");
    Some(file)
}

fn error_line(fault: Fault) -> Vec<u8> {
    format!("Error: {fault}\n").into_bytes()
}

/// Returns what is printed for the events of a file.
fn printed(file: &[u8]) -> [Vec<u8>; 2] {
    let list = read_events(file, Limits::NONE);
    let mut lines = Vec::new();
    for event in list.events() {
        print::push_line(&mut lines, event);
    }
    [lines, list.fault().map_or(Vec::new(), error_line)]
}

/// Returns the error of reading a file as a value, and the two files of its value.
fn written(file: &[u8], reader: &mut Reader) -> [Vec<u8>; 3] {
    let document = match reader.read(file) {
        Ok(document) => document,
        Err(fault) => {
            assert_eq!(read(file, Limits::NONE).unwrap_err(), fault);
            return [error_line(fault), Vec::new(), Vec::new()];
        }
    };
    let value = document.value();
    assert_eq!(Value::from_bytes(file, Limits::NONE).as_ref(), Ok(&value));
    assert_eq!(value.clone(), value);
    let files =
        [to_binary, to_binary_shared].map(|write| write(&value).expect("a value is written"));
    for file in &files {
        assert_eq!(Value::from_bytes(file, Limits::NONE).as_ref(), Ok(&value));
    }
    let [plain, shared] = files;
    [Vec::new(), plain, shared]
}

fn main() -> io::Result<()> {
    let (mut input, mut output) = (io::stdin().lock(), io::stdout().lock());
    let mut reader = Reader::new(Limits::NONE);
    while let Some(file) = next_file(&mut input) {
        for answer in printed(&file).iter().chain(&written(&file, &mut reader)) {
            output.write_all(&(answer.len() as u32).to_ne_bytes())?;
            output.write_all(answer)?;
        }
    }
    output.flush()
}
