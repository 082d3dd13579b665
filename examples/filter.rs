//! Copies property lists of untrusted origin with the Rust crate `plist`, without building values.
//! Its arguments are commands, separated by `--`. Its port is `crates/plist_filter`.
//!
//!     IN OUT [drop=PATH ..] [rename=OLD:NEW ..] [depth=N] [items=N] [stats]
//!
//! IN is a path, or - for standard input. PATH has keys and indices, separated by slashes, and `*`
//! stands for any of them.

use plist::stream::{BinaryWriter, Event, OwnedEvent, Reader, Writer};
use plist::Date;
use std::borrow::Cow;
use std::collections::HashMap;
use std::fmt;
use std::fs::File;
use std::io::{self, BufReader, BufWriter, Cursor, Read, Seek, Write};
use std::process::ExitCode;

#[derive(Debug)]
enum Failure {
    Plist(plist::Error),
    Io(String, io::Error),
    TooDeep(usize),
    TooLong(u64),
    NothingLeft,
    Usage(String),
}

impl From<plist::Error> for Failure {
    fn from(error: plist::Error) -> Self {
        Failure::Plist(error)
    }
}

impl fmt::Display for Failure {
    fn fmt(&self, f: &mut fmt::Formatter<'_>) -> fmt::Result {
        match self {
            Failure::Plist(error) if error.is_io() => write!(f, "I/O: {error}"),
            Failure::Plist(error) => write!(f, "invalid: {error}"),
            Failure::Io(path, error) => write!(f, "{path}: {error}"),
            Failure::TooDeep(depth) => write!(f, "deeper than {depth}"),
            Failure::TooLong(items) => write!(f, "more than {items} items"),
            Failure::NothingLeft => f.write_str("everything was dropped"),
            Failure::Usage(word) => write!(f, "what is {word:?}?"),
        }
    }
}

#[derive(Clone, Debug, PartialEq, Eq)]
enum Step {
    Any,
    Key(String),
}

impl Step {
    fn takes(&self, name: &str) -> bool {
        match self {
            Step::Any => true,
            Step::Key(key) => key == name,
        }
    }
}

struct Options {
    drops: Vec<Vec<Step>>,
    renames: HashMap<String, String>,
    depth: usize,
    items: u64,
    stats: bool,
}

impl Default for Options {
    fn default() -> Self {
        Options {
            drops: Vec::new(),
            renames: HashMap::new(),
            depth: 64,
            items: 1_000_000,
            stats: false,
        }
    }
}

impl Options {
    fn parse<'a>(words: impl Iterator<Item = &'a str>) -> Result<Self, Failure> {
        let mut options = Options::default();
        for word in words {
            let bad = || Failure::Usage(word.to_string());
            match word.split_once('=') {
                Some(("drop", path)) => options.drops.push(
                    path.split('/')
                        .filter(|part| !part.is_empty())
                        .map(|part| {
                            if part == "*" {
                                Step::Any
                            } else {
                                Step::Key(part.to_string())
                            }
                        })
                        .collect(),
                ),
                Some(("rename", pair)) => {
                    let (old, new) = pair.split_once(':').ok_or_else(bad)?;
                    options.renames.insert(old.to_string(), new.to_string());
                }
                Some(("depth", number)) => options.depth = number.parse().map_err(|_| bad())?,
                Some(("items", number)) => options.items = number.parse().map_err(|_| bad())?,
                None if word == "stats" => options.stats = true,
                _ => return Err(bad()),
            }
        }
        Ok(options)
    }
}

#[derive(Default, Debug)]
struct Stats {
    kinds: HashMap<&'static str, u64>,
    dropped: u64,
    renamed: u64,
    deepest: usize,
    text_bytes: usize,
    first_date: Option<String>,
}

impl Stats {
    fn count(&mut self, event: &Event) {
        *self.kinds.entry(kind(event)).or_insert(0) += 1;
        match event {
            Event::String(text) => self.text_bytes += text.len(),
            Event::Data(bytes) => self.text_bytes += bytes.len(),
            Event::Date(date) => {
                let text = Date::to_xml_format(date);
                match &self.first_date {
                    Some(first) if *first <= text => {}
                    _ => self.first_date = Some(text),
                }
            }
            _ => {}
        }
    }

    fn print(&self, out: &mut impl Write) -> io::Result<()> {
        let mut kinds: Vec<_> = self.kinds.iter().collect();
        kinds.sort_by_key(|&(name, count)| (std::cmp::Reverse(*count), *name));
        for (name, count) in kinds {
            writeln!(out, "{name:>10}: {count}")?;
        }
        writeln!(
            out,
            "dropped {}, renamed {}, depth {}",
            self.dropped, self.renamed, self.deepest
        )?;
        writeln!(out, "{} bytes of text and data", self.text_bytes)?;
        if let Some(date) = self.first_date.as_deref() {
            writeln!(out, "first date {date}")?;
        }
        Ok(())
    }
}

fn kind(event: &Event) -> &'static str {
    match event {
        Event::StartArray(_) => "array",
        Event::StartDictionary(_) => "dictionary",
        Event::EndCollection => "end",
        Event::Boolean(_) => "boolean",
        Event::Data(_) => "data",
        Event::Date(_) => "date",
        Event::Integer(_) => "integer",
        Event::Real(_) => "real",
        Event::String(_) => "string",
        Event::Uid(_) => "uid",
        _ => "other",
    }
}

/// An open collection: an array with the next index, or a dictionary with the key that was read.
enum Level {
    Array(u64),
    Dictionary(Option<String>),
}

struct Filter<'o, W: Writer> {
    options: &'o Options,
    writer: W,
    levels: Vec<Level>,
    /// The number of open collections inside of the item that is being dropped.
    dropping: Option<usize>,
    stats: Stats,
    read: u64,
    written: u64,
}

impl<'o, W: Writer> Filter<'o, W> {
    fn new(options: &'o Options, writer: W) -> Self {
        Filter {
            options,
            writer,
            levels: Vec::new(),
            dropping: None,
            stats: Stats::default(),
            read: 0,
            written: 0,
        }
    }

    fn is_dropped(&self) -> bool {
        let names: Vec<Cow<str>> = self
            .levels
            .iter()
            .map(|level| match level {
                Level::Array(index) => Cow::Owned(index.to_string()),
                Level::Dictionary(key) => Cow::Borrowed(key.as_deref().unwrap_or("")),
            })
            .collect();
        self.options.drops.iter().any(|path| {
            path.len() == names.len()
                && path.iter().zip(&names).all(|(step, name)| step.takes(name))
        })
    }

    fn write(&mut self, event: Event) -> Result<(), Failure> {
        self.written += 1;
        self.writer.write(event)?;
        Ok(())
    }

    fn take(&mut self, event: OwnedEvent) -> Result<(), Failure> {
        self.read += 1;
        if self.read > self.options.items {
            return Err(Failure::TooLong(self.options.items));
        }
        self.stats.count(&event);
        if let Some(open) = self.dropping {
            let open = match event {
                Event::StartArray(_) | Event::StartDictionary(_) => open + 1,
                Event::EndCollection => open - 1,
                _ => open,
            };
            self.dropping = Some(open).filter(|open| *open > 0);
            return Ok(());
        }
        if let Event::EndCollection = event {
            self.levels.pop();
            self.done();
            return self.write(event);
        }
        if let Some(Level::Dictionary(key @ None)) = self.levels.last_mut() {
            if let Event::String(text) = event {
                *key = Some(text.into_owned());
            }
            return Ok(());
        }
        let opens = matches!(event, Event::StartArray(_) | Event::StartDictionary(_));
        if self.is_dropped() {
            self.stats.dropped += 1;
            if opens {
                self.dropping = Some(1);
            }
            self.done();
            return Ok(());
        }
        if let Some(Level::Dictionary(Some(key))) = self.levels.last() {
            let name = match self.options.renames.get(key) {
                Some(new) => {
                    self.stats.renamed += 1;
                    new
                }
                None => key,
            };
            self.writer
                .write(Event::String(Cow::Borrowed(name.as_str())))?;
            self.written += 1;
        }
        if opens {
            if self.levels.len() == self.options.depth {
                return Err(Failure::TooDeep(self.options.depth));
            }
            let event = match event {
                Event::StartArray(_) => {
                    self.levels.push(Level::Array(0));
                    Event::StartArray(None)
                }
                _ => {
                    self.levels.push(Level::Dictionary(None));
                    Event::StartDictionary(None)
                }
            };
            self.stats.deepest = self.stats.deepest.max(self.levels.len());
            return self.write(event);
        }
        self.done();
        self.write(event)
    }

    /// An item of the innermost collection is complete.
    fn done(&mut self) {
        match self.levels.last_mut() {
            Some(Level::Array(index)) => *index += 1,
            Some(Level::Dictionary(key)) => *key = None,
            None => {}
        }
    }
}

fn filter<R: Read + Seek, W: Writer>(
    source: R,
    writer: W,
    options: &Options,
) -> Result<Stats, Failure> {
    let mut filter = Filter::new(options, writer);
    for event in Reader::new(source) {
        filter.take(event?)?;
    }
    if filter.written == 0 {
        return Err(Failure::NothingLeft);
    }
    Ok(filter.stats)
}

fn run(words: &[String]) -> Result<(), Failure> {
    let [from, to, rest @ ..] = words else {
        return Err(Failure::Usage(words.join(" ")));
    };
    let options = Options::parse(rest.iter().map(|word| word.as_str()))?;
    let at = |path: &str| {
        let path = path.to_owned();
        move |error| Failure::Io(path, error)
    };
    let mut out = BufWriter::new(File::create(to).map_err(at(to))?);
    let writer = BinaryWriter::new(&mut out);
    let stats = if from == "-" {
        let mut bytes = Vec::new();
        io::stdin().read_to_end(&mut bytes).map_err(at("-"))?;
        filter(Cursor::new(bytes), writer, &options)?
    } else {
        let file = File::open(from).map_err(at(from))?;
        filter(BufReader::new(file), writer, &options)?
    };
    out.flush().map_err(at(to))?;
    if options.stats {
        stats
            .print(&mut io::stdout().lock())
            .map_err(at("stdout"))?;
    }
    Ok(())
}

fn main() -> ExitCode {
    let words: Vec<String> = std::env::args().skip(1).collect();
    match words.split(|word| word == "--").try_for_each(run) {
        Ok(()) => ExitCode::SUCCESS,
        Err(failure) => {
            eprintln!("filter: {failure}");
            ExitCode::FAILURE
        }
    }
}
