//! Merges property lists with the Rust crate `plist`, and prints their differences. It executes its
//! arguments in turn: `diff=OLD,NEW` and `merge=BASE,OVER,OUT`. Its port is `crates/plist_merge`.

use plist::{Dictionary, Error, Value};
use std::env;
use std::fmt;
use std::io::{self, Write};
use std::process::ExitCode;

/// The error of executing an argument.
#[derive(Debug)]
enum Failure {
    /// A file can't be read or written.
    Plist(Error),
    /// A line can't be printed.
    Output(io::Error),
    /// The root of the file isn't a dictionary.
    NoDictionary,
    /// The argument isn't a command.
    Usage,
}

impl From<Error> for Failure {
    fn from(error: Error) -> Failure {
        Failure::Plist(error)
    }
}

impl From<io::Error> for Failure {
    fn from(error: io::Error) -> Failure {
        Failure::Output(error)
    }
}

impl fmt::Display for Failure {
    fn fmt(&self, f: &mut fmt::Formatter<'_>) -> fmt::Result {
        match self {
            Failure::Plist(error) => write!(f, "{error}"),
            Failure::Output(error) => write!(f, "{error}"),
            Failure::NoDictionary => f.write_str("the file is not a dictionary"),
            Failure::Usage => f.write_str("diff=OLD,NEW merge=BASE,OVER,OUT"),
        }
    }
}

// Merges a dictionary into another one. If both have a dictionary at a key, these are merged; any
// other value replaces the one at its key.
fn merge(base: &mut Dictionary, over: Dictionary) {
    for (key, value) in over {
        match value {
            Value::Dictionary(inner) => match base.get_mut(&key) {
                Some(Value::Dictionary(below)) => merge(below, inner),
                _ => {
                    base.insert(key, Value::Dictionary(inner));
                }
            },
            other => {
                base.insert(key, other);
            }
        }
    }
}

// Returns the text of a value. The text of an array has its items, and that of a dictionary its keys.
fn text_of(value: &Value) -> String {
    match value {
        Value::Array(items) => {
            let texts: Vec<String> = items.iter().map(text_of).collect();
            format!("({})", texts.join(", "))
        }
        Value::Dictionary(pairs) => {
            let keys: Vec<&str> = pairs.keys().map(String::as_str).collect();
            format!("{{{}}}", keys.join(", "))
        }
        Value::Boolean(flag) => format!("{flag}"),
        Value::Data(bytes) => format!("<{} bytes>", bytes.len()),
        Value::Date(date) => date.to_xml_format(),
        Value::Real(number) => format!("{number:?}"),
        Value::Integer(number) => format!("{number}"),
        Value::String(text) => format!("{text:?}"),
        Value::Uid(uid) => format!("object {}", uid.get()),
        _ => String::new(),
    }
}

// Prints how the value of a path has changed.
fn diff_value<W: Write>(
    out: &mut W,
    before: &Value,
    after: &Value,
    path: &str,
) -> Result<(), Failure> {
    match (before, after) {
        (Value::Dictionary(old), Value::Dictionary(new)) => {
            diff(out, old, new, &format!("{path}."))
        }
        _ if before == after => Ok(()),
        _ => {
            let (old, new) = (text_of(before), text_of(after));
            writeln!(out, "~ {path} {old} {new}")?;
            Ok(())
        }
    }
}

// Prints the keys of a dictionary that another one doesn't have.
fn print_added<W: Write>(
    out: &mut W,
    old: &Dictionary,
    new: &Dictionary,
    path: &str,
) -> Result<(), Failure> {
    for key in new.keys() {
        if !old.contains_key(key) {
            writeln!(out, "+ {path}{key}")?;
        }
    }
    Ok(())
}

// Prints a line for each key that was removed, changed or added, also in nested dictionaries. Each key
// is printed after `path`.
fn diff<W: Write>(
    out: &mut W,
    old: &Dictionary,
    new: &Dictionary,
    path: &str,
) -> Result<(), Failure> {
    for (key, before) in old {
        let at = format!("{path}{key}");
        match new.get(key) {
            Some(after) => diff_value(out, before, after, &at)?,
            None => writeln!(out, "- {at}")?,
        }
    }
    print_added(out, old, new, path)
}

// Reads the dictionary in a file.
fn open(path: &str) -> Result<Dictionary, Failure> {
    match Value::from_file(path)? {
        Value::Dictionary(pairs) => Ok(pairs),
        _ => Err(Failure::NoDictionary),
    }
}

// Prints what differs between two files.
fn print_diff<W: Write>(out: &mut W, names: &str) -> Result<(), Failure> {
    let (old, new) = names.split_once(',').ok_or(Failure::Usage)?;
    let before = open(old)?;
    let after = open(new)?;
    writeln!(out, "--- {old}")?;
    writeln!(out, "+++ {new}")?;
    diff(out, &before, &after, "")
}

// Merges a file into another one, prints what that changes, and writes the result.
fn merge_files<W: Write>(out: &mut W, names: &str) -> Result<(), Failure> {
    let (base, rest) = names.split_once(',').ok_or(Failure::Usage)?;
    let (over, result) = rest.split_once(',').ok_or(Failure::Usage)?;
    let before = open(base)?;
    let mut after = before.clone();
    merge(&mut after, open(over)?);
    writeln!(out, "--- {base}")?;
    writeln!(out, "+++ {result}")?;
    diff(out, &before, &after, "")?;
    Value::Dictionary(after).to_file_binary(result)?;
    Ok(())
}

// Executes an argument.
fn perform<W: Write>(out: &mut W, word: &str) -> Result<(), Failure> {
    let (verb, names) = word.split_once('=').unwrap_or((word, ""));
    match verb {
        "diff" => print_diff(out, names),
        "merge" => merge_files(out, names),
        _ => Err(Failure::Usage),
    }
}

fn run() -> Result<(), Failure> {
    let mut out = io::stdout();
    for word in env::args().skip(1) {
        perform(&mut out, &word)?;
    }
    Ok(())
}

fn main() -> ExitCode {
    match run() {
        Ok(()) => ExitCode::SUCCESS,
        Err(failure) => {
            eprintln!("merge: {failure}");
            ExitCode::FAILURE
        }
    }
}
