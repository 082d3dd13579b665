//! Writes binary property lists.

use crate::ffi::{self, Memory, NO_ROOM};
use crate::{Document, Event, Fault, FaultKind, Value};

/// An upper bound of the bytes that a file has for an event, besides its string or data: an integer
/// of 17 bytes, a reference and an offset of 8 bytes each.
const BYTES_OF_EVENT: usize = 33;

/// An upper bound of the bytes that a file has for a byte of a string or data: a string that isn't
/// ASCII takes two bytes per character.
const BYTES_OF_BYTE: usize = 2;

/// The bytes of the magic and of the trailer.
const FIXED_BYTES: usize = 40;

/// Returns the binary property list of a value. Equal scalars are stored once.
///
/// ```
/// use sizhetom::{to_binary, Limits, Value};
///
/// let value = Value::from(vec![Value::from("a"), 1.into()]);
/// let file = to_binary(&value)?;
/// assert!(file.starts_with(b"bplist00"));
/// assert_eq!(Value::from_bytes(&file, Limits::default())?, value);
/// # Ok::<(), sizhetom::Fault>(())
/// ```
///
/// # Errors
///
/// `OutOfMemory` and `PlistTooLarge`.
pub fn to_binary(value: &Value) -> Result<Vec<u8>, Fault> {
    writer_of(value).to_binary()
}

/// Returns the binary property list of a value. Equal scalars are stored once, and so are equal
/// arrays, and dictionaries with equal pairs in the same order.
///
/// ```
/// use sizhetom::{to_binary, to_binary_shared, Value};
///
/// let inner = Value::from(vec![Value::from("a")]);
/// let value = Value::from(vec![inner.clone(), inner]);
/// assert!(to_binary_shared(&value)?.len() < to_binary(&value)?.len());
/// # Ok::<(), sizhetom::Fault>(())
/// ```
///
/// # Errors
///
/// `OutOfMemory` and `PlistTooLarge`.
pub fn to_binary_shared(value: &Value) -> Result<Vec<u8>, Fault> {
    writer_of(value).to_binary_shared()
}

fn writer_of(value: &Value) -> Writer {
    let mut writer = Writer::new();
    writer.extend(value.events());
    writer
}

/// Collects the events of a value, and writes them as a binary property list.
///
/// ```
/// use sizhetom::{Event, Limits, Value, Writer};
///
/// let mut writer = Writer::new();
/// writer.write(Event::StartArray(None));
/// writer.write(Event::String("a"));
/// writer.write(Event::EndCollection);
/// let file = writer.to_binary()?;
/// assert_eq!(Value::from_bytes(&file, Limits::default())?, vec![Value::from("a")].into());
/// # Ok::<(), sizhetom::Fault>(())
/// ```
#[derive(Clone, Debug, Default)]
pub struct Writer {
    memory: Memory,
}

impl Writer {
    /// Makes a writer without events.
    ///
    /// ```
    /// # use sizhetom::{FaultKind, Writer};
    /// let fault = Writer::new().to_binary().unwrap_err();
    /// assert_eq!(fault.kind(), FaultKind::UnexpectedEndOfEventStream);
    /// ```
    pub fn new() -> Writer {
        Writer::default()
    }

    /// Appends an event. The lengths of starts are ignored.
    ///
    /// ```
    /// # use sizhetom::{Event, Writer};
    /// let mut writer = Writer::new();
    /// writer.write(Event::Boolean(true));
    /// assert!(writer.to_binary().is_ok());
    /// ```
    pub fn write(&mut self, event: Event<'_>) {
        self.memory.push(event);
    }

    /// Returns the binary property list of the value that the events are. Of a key that is given
    /// twice both pairs are written.
    ///
    /// ```
    /// # use sizhetom::{Event, EventKind, FaultKind, Writer};
    /// let mut writer = Writer::new();
    /// writer.write(Event::StartDictionary(None));
    /// writer.write(Event::Boolean(true));
    /// let fault = writer.to_binary().unwrap_err();
    /// assert_eq!(fault.events(), 1);
    /// ```
    ///
    /// # Errors
    ///
    /// - `UnexpectedEventType` and `ExpectedEndOfEventStream` for the first event that isn't
    ///   allowed. [`Fault::events`] returns its index.
    /// - `UnexpectedEndOfEventStream` if the events end too early.
    /// - `OutOfMemory` and `PlistTooLarge`.
    pub fn to_binary(&self) -> Result<Vec<u8>, Fault> {
        write(&self.memory, false)
    }

    /// Does the same as [`Writer::to_binary`], but stores equal arrays and equal dictionaries
    /// once.
    ///
    /// ```
    /// # use sizhetom::{Event, Writer};
    /// let mut writer = Writer::new();
    /// writer.extend([Event::StartArray(None), Event::Boolean(true), Event::EndCollection]);
    /// assert_eq!(writer.to_binary_shared(), writer.to_binary());
    /// ```
    ///
    /// # Errors
    ///
    /// Those of [`Writer::to_binary`].
    pub fn to_binary_shared(&self) -> Result<Vec<u8>, Fault> {
        write(&self.memory, true)
    }
}

impl<'a> Extend<Event<'a>> for Writer {
    fn extend<I: IntoIterator<Item = Event<'a>>>(&mut self, events: I) {
        for event in events {
            self.write(event);
        }
    }
}

impl Document {
    /// Returns the binary property list of the document's events. Of a key that is given twice
    /// both pairs are written, unlike by [`to_binary`] of the document's value.
    ///
    /// ```
    /// # use sizhetom::{read, to_binary, Limits};
    /// let document = read(b"{ a = (b, c); }", Limits::default())?;
    /// assert_eq!(document.to_binary()?, to_binary(&document.value())?);
    /// # Ok::<(), sizhetom::Fault>(())
    /// ```
    ///
    /// # Errors
    ///
    /// `OutOfMemory` and `PlistTooLarge`.
    pub fn to_binary(&self) -> Result<Vec<u8>, Fault> {
        write(&self.memory, false)
    }

    /// Does the same as [`Document::to_binary`], but stores equal arrays and equal dictionaries
    /// once.
    ///
    /// ```
    /// # use sizhetom::{read, Limits};
    /// let document = read(b"((a), (a))", Limits::default())?;
    /// assert!(document.to_binary_shared()?.len() < document.to_binary()?.len());
    /// # Ok::<(), sizhetom::Fault>(())
    /// ```
    ///
    /// # Errors
    ///
    /// `OutOfMemory` and `PlistTooLarge`.
    pub fn to_binary_shared(&self) -> Result<Vec<u8>, Fault> {
        write(&self.memory, true)
    }
}

fn write(memory: &Memory, shares: bool) -> Result<Vec<u8>, Fault> {
    let mut file = Vec::new();
    let mut capacity = memory.records.len().saturating_mul(BYTES_OF_EVENT);
    capacity = capacity.saturating_add(memory.bytes.len().saturating_mul(BYTES_OF_BYTE));
    capacity = capacity.saturating_add(FIXED_BYTES);
    while file.try_reserve_exact(capacity).is_ok() {
        let outcome = ffi::write(memory, shares, &mut file);
        if outcome.fault == NO_ROOM {
            capacity = outcome.bytes;
            continue;
        }
        file.shrink_to_fit();
        return Fault::of_outcome(&outcome).map_or(Ok(file), Err);
    }
    Err(Fault::without_offset(FaultKind::OutOfMemory, 0))
}
