//! Prints the events of a property list, one per line, as `plist_tool print` prints them for a
//! binary file. The status is 0, or 1 if the file has a fault or can't be read.

use sizhetom::{Event, Limits, Real, read_events};
use std::error::Error;
use std::io::{self, Write};
use std::process::ExitCode;
use std::{env, fs};

fn push_hexadecimal(lines: &mut Vec<u8>, bytes: &[u8]) {
    for byte in bytes {
        lines.extend_from_slice(format!("{byte:02x}").as_bytes());
    }
}

fn push_string(lines: &mut Vec<u8>, string: &str) {
    lines.extend_from_slice(b"String \"");
    for &byte in string.as_bytes() {
        match byte {
            b'"' | b'\\' => lines.extend_from_slice(format!("\\x{byte:02x}").as_bytes()),
            0x20..=0x7e => lines.push(byte),
            _ => lines.extend_from_slice(format!("\\x{byte:02x}").as_bytes()),
        }
    }
    lines.push(b'"');
}

/// Appends the line of an event.
pub fn push_line(lines: &mut Vec<u8>, event: Event<'_>) {
    let line = match event {
        Event::StartArray(None) => "StartArray".to_owned(),
        Event::StartArray(Some(length)) => format!("StartArray {length}"),
        Event::StartDictionary(None) => "StartDictionary".to_owned(),
        Event::StartDictionary(Some(length)) => format!("StartDictionary {length}"),
        Event::EndCollection => "EndCollection".to_owned(),
        Event::Boolean(value) => format!("Boolean {value}"),
        Event::Data([]) => "Data".to_owned(),
        Event::Data(_) => "Data ".to_owned(),
        Event::Date(date) => format!("Date {}", date.seconds().floor()),
        Event::Integer(integer) => format!("Integer {integer}"),
        Event::Real(Real::Single(number)) => format!("Real {:08x}", number.to_bits()),
        Event::Real(Real::Double(number)) => format!("Real {:016x}", number.to_bits()),
        Event::String(_) => String::new(),
        Event::Uid(uid) => format!("Uid {}", uid.get()),
    };
    lines.extend_from_slice(line.as_bytes());
    match event {
        Event::Data(data) => push_hexadecimal(lines, data),
        Event::String(string) => push_string(lines, string),
        Event::Date(date) if date.seconds().fract() != 0.0 => {
            lines.push(b' ');
            push_hexadecimal(lines, &date.seconds().to_be_bytes());
        }
        _ => {}
    }
    lines.push(b'\n');
}

fn main() -> Result<ExitCode, Box<dyn Error>> {
    let path = env::args_os().nth(1).ok_or("usage: print FILE")?;
    let list = read_events(&fs::read(path)?, Limits::NONE);
    let mut lines = Vec::new();
    for event in list.events() {
        push_line(&mut lines, event);
    }
    io::stdout().write_all(&lines)?;
    if let Some(fault) = list.fault() {
        eprintln!("Error: {fault}");
        return Ok(ExitCode::FAILURE);
    }
    Ok(ExitCode::SUCCESS)
}
