//! Events, and their records.

use crate::ffi::{Memory, Record};
use crate::{Date, EventKind, Integer, Real, Uid};
use std::iter::FusedIterator;
use std::{slice, str};

/// An event of a property list. A value is a scalar, or a start, its items or pairs, and an end.
///
/// ```
/// use sizhetom::{read, Event, Limits};
///
/// let document = read(b"{ key = (1, b); }", Limits::default()).unwrap();
/// let events: Vec<Event> = document.events().collect();
/// assert_eq!(events[0], Event::StartDictionary(None));
/// assert_eq!(events[1], Event::String("key"));
/// assert_eq!(events[2], Event::StartArray(None));
/// assert_eq!(events[3], Event::Integer(1.into()));
/// ```
#[derive(Clone, Copy, Debug, PartialEq, Eq)]
pub enum Event<'a> {
    /// The start of an array, with the number of its items if it is known, as in a binary file.
    StartArray(Option<u64>),
    /// The start of a dictionary, with the number of its pairs if it is known, as in a binary file.
    StartDictionary(Option<u64>),
    /// The end of the innermost array or dictionary.
    EndCollection,
    /// A Boolean.
    Boolean(bool),
    /// Bytes.
    Data(&'a [u8]),
    /// A date.
    Date(Date),
    /// An integer.
    Integer(Integer),
    /// A real of four or eight bytes.
    Real(Real),
    /// A string.
    String(&'a str),
    /// The number of an object in a keyed archive.
    Uid(Uid),
}

impl Event<'_> {
    /// Returns the kind of the event.
    ///
    /// ```
    /// # use sizhetom::{Event, EventKind};
    /// assert_eq!(Event::Boolean(true).kind(), EventKind::Boolean);
    /// ```
    pub fn kind(&self) -> EventKind {
        match self {
            Event::StartArray(_) => EventKind::StartArray,
            Event::StartDictionary(_) => EventKind::StartDictionary,
            Event::EndCollection => EventKind::EndCollection,
            Event::Boolean(_) => EventKind::Boolean,
            Event::Data(_) => EventKind::Data,
            Event::Date(_) => EventKind::Date,
            Event::Integer(_) => EventKind::Integer,
            Event::Real(_) => EventKind::Real,
            Event::String(_) => EventKind::String,
            Event::Uid(_) => EventKind::Uid,
        }
    }
}

impl Memory {
    /// Returns the events of the records.
    pub(crate) fn events(&self) -> Events<'_> {
        Events {
            records: self.records.iter(),
            bytes: &self.bytes,
        }
    }

    /// Appends the record of an event.
    pub(crate) fn push(&mut self, event: Event<'_>) {
        let (number, size) = match event {
            Event::StartArray(length) | Event::StartDictionary(length) => {
                (length.unwrap_or(0), u64::from(length.is_some()))
            }
            Event::EndCollection => (0, 0),
            Event::Boolean(value) => (u64::from(value), 0),
            Event::Data(data) => self.stored(data),
            Event::Date(date) => (date.seconds().to_bits(), 0),
            Event::Integer(integer) => {
                let (bits, is_negative) = integer.to_bits();
                (bits, u64::from(is_negative))
            }
            Event::Real(real) => real.to_bits(),
            Event::String(string) => self.stored(string.as_bytes()),
            Event::Uid(uid) => (uid.get(), 0),
        };
        self.records.push(Record {
            // The kinds have the numbers from 1 on, in the order in which they are declared.
            kind: event.kind() as u64 + 1,
            number,
            size,
        });
    }

    /// Appends the bytes of a string or data, and returns where they begin and how many they are.
    fn stored(&mut self, content: &[u8]) -> (u64, u64) {
        let start = self.bytes.len() as u64;
        self.bytes.extend_from_slice(content);
        (start, content.len() as u64)
    }
}

/// An iterator over events, which borrow their strings and data.
///
/// ```
/// use sizhetom::{read, Limits};
///
/// let document = read(b"(a, b)", Limits::default()).unwrap();
/// assert_eq!(document.events().len(), 4);
/// ```
#[derive(Clone, Debug)]
pub struct Events<'a> {
    records: slice::Iter<'a, Record>,
    bytes: &'a [u8],
}

impl<'a> Events<'a> {
    #[inline]
    fn content(&self, record: &Record) -> &'a [u8] {
        &self.bytes[record.number as usize..][..record.size as usize]
    }

    #[inline]
    fn string(&self, record: &Record) -> &'a str {
        let content = self.content(record);
        debug_assert!(str::from_utf8(content).is_ok());
        // SAFETY: The record is one of a `Memory`. It is either one that a reader of the archive
        // stored, whose contract says that a string is in UTF-8, or one that `Memory::push` made of
        // a `str`.
        unsafe { str::from_utf8_unchecked(content) }
    }

    #[inline]
    fn event(&self, record: &Record) -> Event<'a> {
        let &Record { number, size, .. } = record;
        match record.kind {
            1 => Event::StartArray((size == 1).then_some(number)),
            2 => Event::StartDictionary((size == 1).then_some(number)),
            3 => Event::EndCollection,
            4 => Event::Boolean(number == 1),
            5 => Event::Data(self.content(record)),
            6 => Event::Date(Date::from_checked_bits(number)),
            7 => Event::Integer(Integer::from_bits(number, size == 1)),
            8 if size == 4 => Event::Real(Real::Single(f32::from_bits(number as u32))),
            8 => Event::Real(Real::Double(f64::from_bits(number))),
            9 => Event::String(self.string(record)),
            10 => Event::Uid(Uid::new(number)),
            other => unreachable!("no event has the kind {other}"),
        }
    }
}

impl<'a> Iterator for Events<'a> {
    type Item = Event<'a>;

    #[inline]
    fn next(&mut self) -> Option<Event<'a>> {
        let record = self.records.next()?;
        Some(self.event(record))
    }

    fn size_hint(&self) -> (usize, Option<usize>) {
        self.records.size_hint()
    }
}

impl ExactSizeIterator for Events<'_> {}

impl FusedIterator for Events<'_> {}
