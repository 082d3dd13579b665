//! Reads property lists.

use crate::fault::Outcome;
use crate::ffi::{self, FULL_BYTES, FULL_EVENTS, Memory, NO_ROOM};
use crate::value::build;
use crate::{Events, Fault, FaultKind, Limit, Limits, Value};

/// The least numbers of records and of bytes for which memory is reserved.
const LEAST_RECORDS: u64 = 64;
const LEAST_BYTES: u64 = 256;

/// By how much memory grows that is full, since the input is then read again from its start.
const GROWTH: u64 = 8;

/// The events of a property list that is exactly one value, with their strings and data.
///
/// ```
/// use sizhetom::{read, Event, Limits};
///
/// let document = read(b"(one, two)", Limits::default()).unwrap();
/// let strings = document.events().filter_map(|event| match event {
///     Event::String(string) => Some(string),
///     _ => None,
/// });
/// assert_eq!(strings.collect::<Vec<&str>>(), ["one", "two"]);
/// ```
#[derive(Clone, Debug)]
pub struct Document {
    pub(crate) memory: Memory,
}

impl Document {
    /// Returns the events, in order. Starts and ends match, and each key is a string. A key that
    /// is given twice in a dictionary stays twice among the events; its last value is the one
    /// that counts.
    ///
    /// ```
    /// # use sizhetom::{read, Event, Limits};
    /// let document = read(b"{ a = b; }", Limits::default()).unwrap();
    /// assert_eq!(document.events().nth(1), Some(Event::String("a")));
    /// ```
    pub fn events(&self) -> Events<'_> {
        self.memory.events()
    }

    /// Returns the value.
    ///
    /// ```
    /// # use sizhetom::{read, Limits};
    /// let value = read(b"{ a = b; a = c; }", Limits::default()).unwrap().value();
    /// let a = value.as_dictionary().and_then(|pairs| pairs.get("a")?.as_string());
    /// assert_eq!(a, Some("c"));
    /// ```
    pub fn value(&self) -> Value {
        build(self.events())
    }
}

/// The events of an input up to its first fault, whatever their order.
///
/// ```
/// use sizhetom::{read_events, Limits};
///
/// let list = read_events(b"a ) \"", Limits::default());
/// assert_eq!(list.events().len(), 2);
/// assert_eq!(list.fault().unwrap().to_string(), "UnclosedString (offset 5)");
/// ```
#[derive(Clone, Debug)]
pub struct EventList {
    memory: Memory,
    fault: Option<Fault>,
}

impl EventList {
    /// Returns the events that precede the fault, or all of them if there is none.
    ///
    /// ```
    /// # use sizhetom::{read_events, Event, Limits};
    /// let list = read_events(b"a b", Limits::default());
    /// assert!(list.events().eq([Event::String("a"), Event::String("b")]));
    /// ```
    pub fn events(&self) -> Events<'_> {
        self.memory.events()
    }

    /// Returns the first fault, or `None` if there is none.
    ///
    /// ```
    /// # use sizhetom::{read_events, Limits};
    /// assert_eq!(read_events(b"a b", Limits::default()).fault(), None);
    /// ```
    pub fn fault(&self) -> Option<Fault> {
        self.fault
    }
}

/// Reads a binary or ASCII property list, which has to be exactly one value.
///
/// ```
/// use sizhetom::{read, Limits};
///
/// let document = read(b"{ Name = Example; }", Limits::default())?;
/// for event in document.events() {
///     println!("{event:?}");
/// }
/// # Ok::<(), sizhetom::Fault>(())
/// ```
///
/// # Errors
///
/// - The first fault of the input.
/// - `UnexpectedEventType`, `ExpectedEndOfEventStream` and `UnexpectedEndOfEventStream` if its
///   events aren't those of one value.
/// - `LimitReached` for the first event that exceeds the limits.
/// - `OutOfMemory`.
pub fn read(input: &[u8], limits: Limits) -> Result<Document, Fault> {
    let mut document = Document {
        memory: Memory::default(),
    };
    read_into(&mut document, input, &limits)?;
    document.memory.shrink();
    Ok(document)
}

/// Reads the events of a binary or ASCII property list, whatever their order.
///
/// The faults are those of [`read`], without the three about the order of events.
///
/// ```
/// use sizhetom::{read, read_events, FaultKind, Limits};
///
/// assert_eq!(read_events(b"", Limits::default()).fault(), None);
/// let fault = read(b"", Limits::default()).unwrap_err();
/// assert_eq!(fault.kind(), FaultKind::UnexpectedEndOfEventStream);
/// ```
pub fn read_events(input: &[u8], limits: Limits) -> EventList {
    let mut memory = Memory::default();
    let fault = fill(ffi::read_events, &mut memory, input, &limits);
    memory.shrink();
    EventList { memory, fault }
}

/// Reads property lists one after another, and uses the same memory for each of them.
///
/// This is faster than [`read`] if there are many files, or large ones.
///
/// ```
/// use sizhetom::{Limits, Reader};
///
/// let mut reader = Reader::new(Limits::default());
/// for input in [&b"(a)"[..], b"(a, b)"] {
///     println!("{} events", reader.read(input)?.events().len());
/// }
/// # Ok::<(), sizhetom::Fault>(())
/// ```
#[derive(Clone, Debug)]
pub struct Reader {
    limits: Limits,
    document: Document,
}

impl Reader {
    /// Makes a reader with these limits for each input.
    ///
    /// ```
    /// # use sizhetom::{Limits, Reader};
    /// let mut reader = Reader::new(Limits::NONE);
    /// assert!(reader.read(b"(a)").is_ok());
    /// ```
    pub fn new(limits: Limits) -> Reader {
        Reader {
            limits,
            document: Document {
                memory: Memory::default(),
            },
        }
    }

    /// Reads a property list as [`read`] does. The returned document is replaced by the next call.
    ///
    /// ```
    /// # use sizhetom::{Limits, Reader};
    /// let mut reader = Reader::new(Limits::default());
    /// assert_eq!(reader.read(b"(a)")?.value().as_array().unwrap().len(), 1);
    /// # Ok::<(), sizhetom::Fault>(())
    /// ```
    pub fn read(&mut self, input: &[u8]) -> Result<&Document, Fault> {
        read_into(&mut self.document, input, &self.limits)?;
        Ok(&self.document)
    }
}

fn read_into(document: &mut Document, input: &[u8], limits: &Limits) -> Result<(), Fault> {
    match fill(ffi::read, &mut document.memory, input, limits) {
        None => Ok(()),
        Some(fault) => Err(fault),
    }
}

/// Reads an input, with as much memory as that takes, and returns the fault if there is one.
fn fill(
    read: fn(&[u8], &Limits, &mut Memory) -> Outcome,
    memory: &mut Memory,
    input: &[u8],
    limits: &Limits,
) -> Option<Fault> {
    let size = input.len() as u64;
    // Enough for a file in which each event takes two bytes and nothing is referred to twice. The
    // system provides the memory only where it is written.
    let records = (size / 2).max(LEAST_RECORDS).min(limits.events);
    let bytes = (size + size / 2).max(LEAST_BYTES).min(limits.bytes);
    let mut has_room = reserve(&mut memory.records, records) && reserve(&mut memory.bytes, bytes);
    while has_room {
        let outcome = read(input, limits, memory);
        if outcome.fault != NO_ROOM {
            return Fault::of_outcome(&outcome);
        }
        has_room = match outcome.detail {
            FULL_EVENTS => grow(&mut memory.records, limits.events),
            FULL_BYTES => grow(&mut memory.bytes, limits.bytes),
            _ => {
                let reached = FaultKind::LimitReached(Limit::Bytes);
                return Some(Fault::without_offset(reached, outcome.events));
            }
        };
    }
    memory.records.clear();
    memory.bytes.clear();
    Some(Fault::without_offset(FaultKind::OutOfMemory, 0))
}

impl Memory {
    /// Returns memory to the system if less than half of it is used. Less isn't worth a call: an
    /// allocator can give the same memory to the next document if it has the same size.
    fn shrink(&mut self) {
        if self.records.len() < self.records.capacity() / 2 {
            self.records.shrink_to_fit();
        }
        if self.bytes.len() < self.bytes.capacity() / 2 {
            self.bytes.shrink_to_fit();
        }
    }
}

/// Reserves capacity, and returns whether the memory could be allocated. The contents are dropped.
fn reserve<T>(list: &mut Vec<T>, capacity: u64) -> bool {
    list.clear();
    usize::try_from(capacity).is_ok_and(|capacity| list.try_reserve_exact(capacity).is_ok())
}

/// Multiplies the capacity of a list that is full, but not beyond the limit.
fn grow<T>(list: &mut Vec<T>, limit: u64) -> bool {
    let wanted = (list.capacity() as u64).max(1).saturating_mul(GROWTH);
    reserve(list, wanted.min(limit))
}
