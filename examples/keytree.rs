//! Inspects keyed archives (`NSKeyedArchiver`) with the Rust crate `plist`. Its arguments are
//! commands, separated by `--`. Its port is `crates/plist_keytree`.
//!
//!     classes FILE            the classes, with the number of their objects
//!     tree FILE [KEY]         the tree under a key of $top, with cycles marked
//!     strings FILE PATTERN    the strings that match a pattern with * and ?
//!     check FILE              the Uids that lead nowhere, and the objects that nothing reaches

use plist::{Dictionary, Uid, Value};
use std::collections::{BTreeMap, HashMap, HashSet, VecDeque};
use std::fmt;
use std::io::{self, Write};
use std::process::ExitCode;

#[derive(Debug)]
enum Failure {
    Plist(plist::Error),
    Io(io::Error),
    NotAnArchive(&'static str),
    NoKey(String),
    Usage,
}

impl From<plist::Error> for Failure {
    fn from(error: plist::Error) -> Self {
        match error.into_io() {
            Ok(error) => Failure::Io(error),
            Err(error) => Failure::Plist(error),
        }
    }
}

impl From<io::Error> for Failure {
    fn from(error: io::Error) -> Self {
        Failure::Io(error)
    }
}

impl fmt::Display for Failure {
    fn fmt(&self, f: &mut fmt::Formatter<'_>) -> fmt::Result {
        match self {
            Failure::Plist(error) => write!(f, "invalid file: {error}"),
            Failure::Io(error) => write!(f, "{error}"),
            Failure::NotAnArchive(what) => write!(f, "not a keyed archive: {what}"),
            Failure::NoKey(key) => write!(f, "$top has no key {key}"),
            Failure::Usage => {
                write!(
                    f,
                    "classes|check FILE, tree FILE [KEY], strings FILE PATTERN"
                )
            }
        }
    }
}

/// A keyed archive that borrows its parts from a value.
struct Keyed<'a> {
    objects: &'a [Value],
    top: &'a Dictionary,
}

impl<'a> Keyed<'a> {
    fn new(value: &'a Value) -> Result<Self, Failure> {
        let root = value
            .as_dictionary()
            .ok_or(Failure::NotAnArchive("the root"))?;
        match root.get("$archiver").and_then(Value::as_string) {
            Some("NSKeyedArchiver") | Some("NRKeyedArchiver") => {}
            _ => return Err(Failure::NotAnArchive("$archiver")),
        }
        let objects = root
            .get("$objects")
            .and_then(Value::as_array)
            .ok_or(Failure::NotAnArchive("$objects"))?;
        let top = root
            .get("$top")
            .and_then(Value::as_dictionary)
            .ok_or(Failure::NotAnArchive("$top"))?;
        Ok(Keyed { objects, top })
    }

    fn follow(&self, uid: Uid) -> Option<&'a Value> {
        self.objects.get(usize::try_from(uid.get()).ok()?)
    }

    /// The name of an object's class, if it has one.
    fn class_of(&self, object: &Value) -> Option<&'a str> {
        let class = object.as_dictionary()?.get("$class")?.as_uid()?;
        self.follow(*class)?
            .as_dictionary()?
            .get("$classname")?
            .as_string()
    }

    fn classes(&self) -> Vec<(&'a str, usize)> {
        let mut counts: HashMap<&str, usize> = HashMap::new();
        for name in self
            .objects
            .iter()
            .filter_map(|object| self.class_of(object))
        {
            *counts.entry(name).or_default() += 1;
        }
        let mut sorted: Vec<_> = counts.into_iter().collect();
        sorted.sort_by(|a, b| b.1.cmp(&a.1).then(a.0.cmp(b.0)));
        sorted
    }

    /// Prints an object and those under it. `open` has the objects that are being printed.
    fn print<W: Write>(
        &self,
        out: &mut W,
        value: &'a Value,
        label: &str,
        open: &mut Vec<u64>,
        seen: &mut HashSet<u64>,
    ) -> io::Result<()> {
        let pad = "  ".repeat(open.len());
        match value {
            Value::Uid(uid) => {
                let id = uid.get();
                if open.contains(&id) {
                    return writeln!(out, "{pad}{label}: #{id} (cycle)");
                }
                let Some(object) = self.follow(*uid) else {
                    return writeln!(out, "{pad}{label}: #{id} (dangling)");
                };
                if object.as_string() == Some("$null") {
                    return writeln!(out, "{pad}{label}: null");
                }
                let first = seen.insert(id);
                match object {
                    Value::Dictionary(fields) => {
                        let name = self.class_of(object).unwrap_or("?");
                        if !first {
                            return writeln!(out, "{pad}{label}: {name} #{id} (above)");
                        }
                        writeln!(out, "{pad}{label}: {name} #{id}")?;
                        open.push(id);
                        if let (Some(Value::Array(keys)), Some(Value::Array(items))) =
                            (fields.get("NS.keys"), fields.get("NS.objects"))
                        {
                            for (key, item) in keys.iter().zip(items) {
                                let key = self.text_of(key).unwrap_or("?");
                                self.print(out, item, &format!("[{key}]"), open, seen)?;
                            }
                        } else {
                            for (key, field) in fields.iter().filter(|(key, _)| *key != "$class") {
                                self.print(out, field, key, open, seen)?;
                            }
                        }
                        open.pop();
                        Ok(())
                    }
                    other => writeln!(out, "{pad}{label}: {} #{id}", brief(other)),
                }
            }
            Value::Array(items) => {
                writeln!(out, "{pad}{label}: {} items", items.len())?;
                for (index, item) in items.iter().enumerate() {
                    self.print(out, item, &format!("  {label}[{index}]"), open, seen)?;
                }
                Ok(())
            }
            other => writeln!(out, "{pad}{label}: {}", brief(other)),
        }
    }

    fn text_of(&self, value: &'a Value) -> Option<&'a str> {
        match value {
            Value::Uid(uid) => self.follow(*uid)?.as_string(),
            other => other.as_string(),
        }
    }

    /// The objects that no chain of Uids reaches from $top, and the Uids that lead nowhere.
    fn reach(&self) -> (Vec<usize>, BTreeMap<u64, usize>) {
        let mut reached = vec![false; self.objects.len()];
        let mut dangling = BTreeMap::new();
        let mut queue: VecDeque<&Value> = self.top.values().collect();
        while let Some(value) = queue.pop_front() {
            match value {
                Value::Uid(uid) => match self.follow(*uid) {
                    Some(object) => {
                        let index = uid.get() as usize;
                        if !std::mem::replace(&mut reached[index], true) {
                            queue.push_back(object);
                        }
                    }
                    None => *dangling.entry(uid.get()).or_insert(0) += 1,
                },
                Value::Array(items) => queue.extend(items.iter()),
                Value::Dictionary(fields) => queue.extend(fields.values()),
                _ => {}
            }
        }
        let lost = reached
            .iter()
            .enumerate()
            .filter(|(index, reached)| !**reached && *index != 0)
            .map(|(index, _)| index)
            .collect();
        (lost, dangling)
    }
}

fn brief(value: &Value) -> String {
    match value {
        Value::String(text) if text.chars().count() > 40 => {
            format!("{:?}..", text.chars().take(40).collect::<String>())
        }
        Value::String(text) => format!("{text:?}"),
        Value::Integer(number) => number.to_string(),
        Value::Real(number) => number.to_string(),
        Value::Boolean(flag) => flag.to_string(),
        Value::Data(bytes) => format!("{} bytes", bytes.len()),
        Value::Date(date) => date.to_xml_format(),
        Value::Array(items) => format!("{} items", items.len()),
        Value::Dictionary(pairs) => format!("{} pairs", pairs.len()),
        Value::Uid(uid) => format!("#{}", uid.get()),
        _ => "?".into(),
    }
}

/// Whether a text matches a pattern, in which `*` is any text and `?` any character.
fn matches(pattern: &str, text: &str) -> bool {
    let pattern: Vec<char> = pattern.chars().collect();
    let text: Vec<char> = text.chars().collect();
    let (mut p, mut t) = (0, 0);
    let mut star: Option<(usize, usize)> = None;
    while t < text.len() {
        if p < pattern.len() && pattern[p] == '*' {
            star = Some((p, t));
            p += 1;
        } else if p < pattern.len() && (pattern[p] == '?' || pattern[p] == text[t]) {
            p += 1;
            t += 1;
        } else if let Some((at, from)) = star {
            p = at + 1;
            t = from + 1;
            star = Some((at, from + 1));
        } else {
            return false;
        }
    }
    pattern[p..].iter().all(|c| *c == '*')
}

fn print_classes(out: &mut impl Write, archive: &Keyed) -> io::Result<()> {
    let classes = archive.classes();
    let width = classes
        .iter()
        .map(|(name, _)| name.len())
        .max()
        .unwrap_or(0);
    for (name, count) in &classes {
        writeln!(out, "{name:<width$} {count:>6}")?;
    }
    let total: usize = classes.iter().map(|(_, count)| count).sum();
    writeln!(out, "{total} of {} objects", archive.objects.len())
}

fn print_tree(
    out: &mut impl Write,
    archive: &Keyed,
    wanted: Option<&String>,
) -> Result<(), Failure> {
    let mut seen = HashSet::new();
    let mut found = false;
    for (key, value) in archive.top {
        if wanted.map_or(true, |wanted| wanted == key) {
            found = true;
            archive.print(out, value, key, &mut Vec::new(), &mut seen)?;
        }
    }
    match (wanted, found) {
        (Some(key), false) => Err(Failure::NoKey(key.clone())),
        _ => Ok(()),
    }
}

fn print_strings(out: &mut impl Write, archive: &Keyed, pattern: &str) -> io::Result<()> {
    let mut found: Vec<_> = archive
        .objects
        .iter()
        .enumerate()
        .skip(1)
        .filter_map(|(index, object)| Some((object.as_string()?, index)))
        .filter(|(text, _)| matches(pattern, text))
        .collect();
    found.sort();
    found.dedup_by_key(|(text, _)| *text);
    for (text, index) in found {
        writeln!(out, "#{index} {text:?}")?;
    }
    Ok(())
}

fn print_check(out: &mut impl Write, archive: &Keyed) -> io::Result<()> {
    let (lost, dangling) = archive.reach();
    for (uid, times) in &dangling {
        writeln!(out, "#{uid} is named {times} times and is not there")?;
    }
    for index in &lost {
        writeln!(
            out,
            "#{index} is not reached: {}",
            brief(&archive.objects[*index])
        )?;
    }
    writeln!(out, "{} dangling, {} lost", dangling.len(), lost.len())
}

fn run(words: &[String], out: &mut impl Write) -> Result<(), Failure> {
    let [command, path, rest @ ..] = words else {
        return Err(Failure::Usage);
    };
    let value = Value::from_file(path)?;
    let archive = Keyed::new(&value)?;
    match (command.as_str(), rest) {
        ("classes", []) => print_classes(out, &archive)?,
        ("tree", keys) if keys.len() < 2 => print_tree(out, &archive, keys.first())?,
        ("strings", [pattern]) => print_strings(out, &archive, pattern)?,
        ("check", []) => print_check(out, &archive)?,
        _ => return Err(Failure::Usage),
    }
    Ok(())
}

fn run_all(words: &[String], out: &mut impl Write) -> Result<(), Failure> {
    for command in words.split(|word| word == "--") {
        run(command, out)?;
    }
    Ok(())
}

fn main() -> ExitCode {
    let words: Vec<String> = std::env::args().skip(1).collect();
    match run_all(&words, &mut io::stdout().lock()) {
        Ok(()) => ExitCode::SUCCESS,
        Err(failure) => {
            eprintln!("keytree: {failure}");
            ExitCode::FAILURE
        }
    }
}
