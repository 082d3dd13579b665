//! A program over the Rust crate `plist`. `peer print FILE` prints the events of a binary property
//! list. `peer items FILE TIMES` only counts them, TIMES times. `peer values FILE TIMES` reads a value
//! TIMES times, and drops it each time. `peer events FILE` passes the events to a writer over memory,
//! and prints how many bytes it wrote. `peer convert IN OUT` reads a value and writes it.
//!
//! It prints as fast as it can: it writes lines to one buffer, and takes digits from tables.
use plist::stream::{BinaryReader, BinaryWriter, Event, Writer};
use plist::Integer;
use std::io::{Cursor, Write};
use std::time::{Duration, SystemTime};
use std::{env, fs, io};

/// The two hexadecimal digits of each byte.
static PAIRS: [[u8; 2]; 256] = pairs();

/// The start of 2001, in seconds since 1970, from which dates are counted.
const EPOCH: u64 = 978_307_200;

/// How many bytes of lines are buffered before they are written.
const FULL: usize = 1 << 16;

/// An event as `Writer::write` takes it: version 1.3 borrows it, 1.8 takes it over.
trait Handed<'a> {
    fn of(event: &'a mut Event<'static>) -> Self;
}

impl<'a> Handed<'a> for &'a Event<'static> {
    fn of(event: &'a mut Event<'static>) -> Self {
        event
    }
}

impl<'a> Handed<'a> for Event<'static> {
    fn of(event: &'a mut Event<'static>) -> Self {
        std::mem::replace(event, Event::EndCollection)
    }
}

const fn pairs() -> [[u8; 2]; 256] {
    let digits = b"0123456789abcdef";
    let mut table = [[0; 2]; 256];
    let mut byte = 0;
    while byte < 256 {
        table[byte] = [digits[byte >> 4], digits[byte & 15]];
        byte += 1;
    }
    table
}

fn push_hexadecimal(lines: &mut Vec<u8>, bytes: &[u8]) {
    lines.reserve(2 * bytes.len());
    lines.extend(bytes.iter().flat_map(|&byte| PAIRS[byte as usize]));
}

fn push_text(lines: &mut Vec<u8>, text: &str) {
    let mut rest = text.as_bytes();
    lines.extend_from_slice(b"String \"");
    while !rest.is_empty() {
        let is_plain = |&byte: &u8| matches!(byte, 0x20..=0x7e) && byte != b'\\' && byte != b'"';
        let plain = rest.iter().position(|byte| !is_plain(byte)).unwrap_or(rest.len());
        lines.extend_from_slice(&rest[..plain]);
        rest = &rest[plain..];
        if let Some((&byte, behind)) = rest.split_first() {
            lines.extend_from_slice(b"\\x");
            lines.extend_from_slice(&PAIRS[byte as usize]);
            rest = behind;
        }
    }
    lines.push(b'"');
}

fn push_number(lines: &mut Vec<u8>, number: impl itoa::Integer) {
    lines.extend_from_slice(itoa::Buffer::new().format(number).as_bytes());
}

fn push_integer(lines: &mut Vec<u8>, value: Integer) {
    match (value.as_unsigned(), value.as_signed()) {
        (Some(number), _) => push_number(lines, number),
        (_, Some(number)) => push_number(lines, number),
        _ => {}
    }
}

// Rounds down to a whole second.
fn push_date(lines: &mut Vec<u8>, date: SystemTime) {
    match date.duration_since(SystemTime::UNIX_EPOCH + Duration::from_secs(EPOCH)) {
        Ok(behind) => push_number(lines, behind.as_secs()),
        Err(before) => {
            let before = before.duration();
            let part = i64::from(before.subsec_nanos() > 0);
            push_number(lines, -(before.as_secs() as i64) - part);
        }
    }
}

fn push_line(lines: &mut Vec<u8>, event: &Event) {
    match event {
        Event::StartArray(Some(length)) => {
            lines.extend_from_slice(b"StartArray ");
            push_number(lines, *length);
        }
        Event::StartDictionary(Some(length)) => {
            lines.extend_from_slice(b"StartDictionary ");
            push_number(lines, *length);
        }
        Event::EndCollection => lines.extend_from_slice(b"EndCollection"),
        Event::Boolean(true) => lines.extend_from_slice(b"Boolean true"),
        Event::Boolean(false) => lines.extend_from_slice(b"Boolean false"),
        Event::Data(bytes) => {
            lines.extend_from_slice(b"Data ");
            push_hexadecimal(lines, bytes);
        }
        Event::Date(date) => {
            lines.extend_from_slice(b"Date ");
            push_date(lines, (*date).into());
        }
        Event::Integer(value) => {
            lines.extend_from_slice(b"Integer ");
            push_integer(lines, *value);
        }
        Event::Real(value) => {
            lines.extend_from_slice(b"Real ");
            push_hexadecimal(lines, &value.to_bits().to_be_bytes());
        }
        Event::String(text) => push_text(lines, text),
        Event::Uid(uid) => {
            lines.extend_from_slice(b"Uid ");
            push_number(lines, uid.get());
        }
        _ => {}
    }
    lines.push(b'\n');
}

fn print(bytes: Vec<u8>) -> Result<(), Box<dyn std::error::Error>> {
    let mut out = io::stdout().lock();
    let mut lines = Vec::with_capacity(2 * FULL);
    for event in BinaryReader::new(Cursor::new(bytes)) {
        push_line(&mut lines, &event?);
        if lines.len() >= FULL {
            out.write_all(&lines)?;
            lines.clear();
        }
    }
    out.write_all(&lines)?;
    Ok(out.flush()?)
}

fn main() -> Result<(), Box<dyn std::error::Error>> {
    let words: Vec<String> = env::args().skip(1).collect();
    let bytes = fs::read(&words[1])?;
    match words[0].as_str() {
        "print" => print(bytes)?,
        "items" => {
            let mut count = 0u64;
            for _ in 0..words[2].parse::<u64>()? {
                count = 0;
                for event in BinaryReader::new(Cursor::new(&bytes)) {
                    event?;
                    count += 1;
                }
            }
            println!("{count}");
        }
        "values" => {
            for _ in 0..words[2].parse::<u64>()? {
                plist::Value::from_reader(Cursor::new(&bytes))?;
            }
        }
        "events" => {
            let mut file = Vec::new();
            let mut writer = BinaryWriter::new(&mut file);
            for event in BinaryReader::new(Cursor::new(bytes)) {
                writer.write(Handed::of(&mut event?))?;
            }
            println!("{}", file.len());
        }
        _ => {
            let value = plist::Value::from_reader(Cursor::new(bytes))?;
            value.to_file_binary(&words[2])?;
            std::mem::forget(value);
        }
    }
    Ok(())
}
