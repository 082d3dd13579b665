//! The idioms of `docs/PORTING.md` on the Rust crate `plist`, each run once, on `settings.plist` if
//! it needs a file. The program prints the lines of `crates/plist_settings/stdout` that have bars, in
//! another order. It lacks those about limits, dialects, formats and ASCII, which this version of the
//! crate doesn't have, and prints more about a missing file. Its port is
//! `crates/plist_settings/src/idioms.rt`.
//!
//! It is built with version 1.3.1 of the crate and its feature
//! `enable_unstable_features_that_may_break_with_minor_version_bumps`.

use plist::stream::{BinaryWriter, Event, Reader, Writer};
use plist::{Date, Dictionary, Value};
use std::error::Error;
use std::fmt::Display;
use std::fs::{self, File};
use std::io::Cursor;
use std::time::UNIX_EPOCH;

const FILE: &str = "settings.plist";

fn say(name: &str, gives: impl Display) {
    println!("{name} | {gives}");
}

fn version(value: &Value) -> i64 {
    match value
        .as_dictionary()
        .and_then(|settings| settings.get("Version"))
    {
        Some(version) => version.as_signed_integer().unwrap_or(0),
        None => 0,
    }
}

fn keys(settings: &Dictionary) -> String {
    let mut keys = Vec::new();
    for (key, _value) in settings {
        keys.push(key.as_str());
    }
    keys.join(" ")
}

fn files() -> Result<(), Box<dyn Error>> {
    let value = Value::from_file(FILE)?;
    say("stream | from_file", version(&value));
    if let Err(error) = Value::from_file("missing.plist") {
        say("stream | a missing file", error);
    }
    let bytes = Cursor::new(fs::read(FILE)?);
    say(
        "stream | from_reader of bytes",
        version(&Value::from_reader(bytes)?),
    );
    say(
        "stream | from_reader of a file",
        version(&Value::from_reader(File::open(FILE)?)?),
    );
    value.to_file_binary("copy.plist")?;
    say(
        "stream | to_file_binary",
        version(&Value::from_file("copy.plist")?),
    );
    let mut out = Vec::new();
    value.to_writer_binary(&mut out)?;
    say("stream | to_writer_binary", out.len());
    let mut count = 0;
    for event in Reader::new(File::open(FILE)?) {
        event?;
        count += 1;
    }
    say("stream | stream::Reader", count);
    let events = Reader::new(File::open(FILE)?);
    say(
        "stream | from_events",
        version(&Value::from_events(events)?),
    );
    let mut out = Vec::new();
    BinaryWriter::new(&mut out).write(&Event::String("text".into()))?;
    say("stream | BinaryWriter", out.len());
    Ok(())
}

fn look(settings: &Dictionary) -> Option<()> {
    say("look | as_string", settings.get("Name")?.as_string()?);
    say("look | as_boolean", settings.get("Enabled")?.as_boolean()?);
    say(
        "look | as_array",
        settings.get("Offsets")?.as_array()?.len(),
    );
    say("look | as_data", settings.get("Icon")?.as_data()?.len());
    say("look | as_real", settings.get("Scale")?.as_real()?);
    match settings.get("Name")? {
        Value::String(text) => say("look | match on a reference", text),
        _ => return None,
    }
    say("look | contains_key", settings.contains_key("Version"));
    say("look | len", settings.len());
    Some(())
}

fn take(settings: &Dictionary) -> Option<()> {
    match settings.clone().remove("Name")? {
        Value::String(text) => say("take | match by value", text),
        _ => return None,
    }
    say(
        "take | into_string",
        settings.clone().remove("Name")?.into_string()?,
    );
    if let Some(Value::Array(items)) = settings.clone().remove("Offsets") {
        say("take | into_array", items.len());
    }
    let mut rest = settings.clone();
    rest.remove("Name")?;
    say("take | remove", keys(&rest));
    let items = rest.get_mut("Offsets")?.as_array_mut()?;
    items.push(Value::from(7_i64));
    say("take | get_mut", items.len());
    Some(())
}

fn made() -> Dictionary {
    let mut settings = Dictionary::new();
    settings.insert("b".into(), Value::from(7_i64));
    settings.insert("a".into(), Value::Boolean(true));
    settings
}

fn change() {
    let mut settings = made();
    say("change | insert", keys(&settings));
    settings.entry("b").or_insert(Value::Boolean(false));
    settings.entry("c").or_insert(Value::Boolean(false));
    say("change | entry", keys(&settings));
    let mut settings = made();
    settings.sort_keys();
    say("change | sort_keys", keys(&settings));
    say(
        "change | from_pairs",
        keys(&made().into_iter().collect::<Dictionary>()),
    );
    say("change | clone of a dictionary", keys(&made().clone()));
    let mut all = Vec::new();
    for (key, _value) in made() {
        all.push(key);
    }
    say("change | iteration by value", all.join(" "));
}

fn build() -> Option<()> {
    let text: Value = "text".into();
    say("build | a string", text.as_string()?);
    say("build | a number", Value::from(7_i64).as_signed_integer()?);
    say("build | a Boolean", Value::Boolean(true).as_boolean()?);
    say("build | a real", Value::Real(0.1).as_real()?);
    let data = Value::Data(vec![0, 255]);
    say("build | data", format!("{} bytes", data.as_data()?.len()));
    let value = Value::Dictionary(made()).clone();
    say("build | clone of a value", keys(value.as_dictionary()?));
    let date = Value::Date(Date::from(UNIX_EPOCH)).as_date()?;
    say("text | a date", format!("{date:?}"));
    Some(())
}

fn main() -> Result<(), Box<dyn Error>> {
    let value = Value::from_file(FILE)?;
    let settings = value.as_dictionary().ok_or("no dictionary")?;
    files()?;
    look(settings).ok_or("no setting")?;
    take(settings).ok_or("no setting")?;
    change();
    build().ok_or("no value")?;
    Ok(())
}
