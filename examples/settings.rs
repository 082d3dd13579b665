//! A settings tool that uses the Rust crate `plist`. It executes its arguments in turn: `open=FILE`,
//! `list`, `get=PATH`, `set=PATH=TEXT`, `delete=PATH` and `save=FILE`. A path consists of keys,
//! separated by dots. Its port is `crates/plist_settings`.

use plist::{Dictionary, Error, Value};
use std::env;
use std::fmt;
use std::io::{self, Write};
use std::process::ExitCode;

/// The error of executing an argument.
#[derive(Debug)]
enum Failure {
    /// A file can't be read or written.
    Plist(Error),
    /// A line can't be printed.
    Output(io::Error),
    /// The root of the file isn't a dictionary.
    NoDictionary,
    /// There is no such setting, or it can't be added.
    NoSetting,
    /// The argument isn't a command.
    Usage,
}

impl From<Error> for Failure {
    fn from(error: Error) -> Failure {
        Failure::Plist(error)
    }
}

impl From<io::Error> for Failure {
    fn from(error: io::Error) -> Failure {
        Failure::Output(error)
    }
}

impl fmt::Display for Failure {
    fn fmt(&self, f: &mut fmt::Formatter<'_>) -> fmt::Result {
        match self {
            Failure::Plist(error) => write!(f, "{error}"),
            Failure::Output(error) => write!(f, "{error}"),
            Failure::NoDictionary => f.write_str("the root isn't a dictionary"),
            Failure::NoSetting => f.write_str("no such setting"),
            Failure::Usage => f.write_str("open=FILE list get=PATH set=PATH=TEXT delete=PATH save=FILE"),
        }
    }
}

// Returns the setting at a path.
fn get<'a>(place: &'a Dictionary, path: &str) -> Option<&'a Value> {
    match path.split_once('.') {
        None => place.get(path),
        Some((key, rest)) => get(place.get(key)?.as_dictionary()?, rest),
    }
}

// Sets the setting at a path, and returns whether it could be set. Missing dictionaries are added.
fn set(place: &mut Dictionary, path: &str, setting: Value) -> Result<(), Failure> {
    match path.split_once('.') {
        None => {
            place.insert(path.to_string(), setting);
            Ok(())
        }
        Some((key, rest)) => {
            let below = place
                .entry(key.to_string())
                .or_insert(Value::Dictionary(Dictionary::new()));
            match below.as_dictionary_mut() {
                Some(inner) => set(inner, rest, setting),
                None => Err(Failure::NoSetting),
            }
        }
    }
}

// Removes the setting at a path, and returns it.
fn delete(place: &mut Dictionary, path: &str) -> Option<Value> {
    match path.split_once('.') {
        None => place.remove(path),
        Some((key, rest)) => delete(place.get_mut(key)?.as_dictionary_mut()?, rest),
    }
}

// Converts a string to a setting: an integer, a Boolean, or the string itself.
fn setting_of(text: &str) -> Value {
    if let Ok(number) = text.parse::<i64>() {
        return Value::from(number);
    }
    match text {
        "true" => Value::Boolean(true),
        "false" => Value::Boolean(false),
        _ => Value::String(text.to_string()),
    }
}

// Returns the text that is printed for a setting.
fn text_of(value: &Value) -> String {
    match value {
        Value::Array(items) => format!("{} items", items.len()),
        Value::Dictionary(pairs) => format!("{} settings", pairs.len()),
        Value::Boolean(flag) => format!("{flag}"),
        Value::Data(bytes) => format!("{} bytes", bytes.len()),
        Value::Date(date) => format!("{date:?}"),
        Value::Real(number) => format!("{number}"),
        Value::Integer(number) => format!("{number}"),
        Value::String(text) => text.clone(),
        Value::Uid(uid) => format!("object {}", uid.get()),
        _ => String::new(),
    }
}

// Prints each setting with its path.
fn list<W: Write>(out: &mut W, place: &Dictionary, before: &str) -> Result<(), Failure> {
    for (key, value) in place {
        match value {
            Value::Dictionary(inner) => list(out, inner, &format!("{before}{key}."))?,
            other => writeln!(out, "{before}{key} = {}", text_of(other))?,
        }
    }
    Ok(())
}

// Reads the dictionary in a file.
fn open(path: &str) -> Result<Dictionary, Failure> {
    match Value::from_file(path)? {
        Value::Dictionary(settings) => Ok(settings),
        _ => Err(Failure::NoDictionary),
    }
}

// Executes an argument.
fn perform<W: Write>(settings: &mut Dictionary, word: &str, out: &mut W) -> Result<(), Failure> {
    let (verb, what) = word.split_once('=').unwrap_or((word, ""));
    match verb {
        "open" => *settings = open(what)?,
        "list" => list(out, settings, "")?,
        "get" => {
            let setting = get(settings, what).ok_or(Failure::NoSetting)?;
            writeln!(out, "{}", text_of(setting))?;
        }
        "set" => {
            let (path, text) = what.split_once('=').ok_or(Failure::Usage)?;
            set(settings, path, setting_of(text))?;
        }
        "delete" => {
            let setting = delete(settings, what).ok_or(Failure::NoSetting)?;
            writeln!(out, "{what} was {}", text_of(&setting))?;
        }
        "save" => Value::Dictionary(settings.clone()).to_file_binary(what)?,
        _ => return Err(Failure::Usage),
    }
    Ok(())
}

fn run() -> Result<(), Failure> {
    let mut settings = Dictionary::new();
    let mut out = io::stdout();
    for word in env::args().skip(1) {
        perform(&mut settings, &word, &mut out)?;
    }
    Ok(())
}

fn main() -> ExitCode {
    match run() {
        Ok(()) => ExitCode::SUCCESS,
        Err(failure) => {
            eprintln!("settings: {failure}");
            ExitCode::FAILURE
        }
    }
}
