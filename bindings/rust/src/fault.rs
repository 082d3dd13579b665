//! Why a call failed.

use crate::Limit;
use std::fmt;

/// How a call of the archive ended, as `sizhetom.h` declares it.
#[derive(Clone, Copy, Debug)]
#[repr(C)]
pub(crate) struct Outcome {
    pub events: usize,
    pub bytes: usize,
    pub fault: u64,
    pub detail: u64,
    pub expected: u64,
    pub has_offset: u64,
    pub offset: u64,
}

/// The kind of an event.
///
/// ```
/// use sizhetom::{Event, EventKind};
///
/// assert_eq!(Event::String("a").kind(), EventKind::String);
/// assert_eq!(EventKind::ValueOrStartCollection.to_string(), "value or start collection");
/// ```
#[derive(Clone, Copy, Debug, PartialEq, Eq, Hash)]
pub enum EventKind {
    /// The start of an array.
    StartArray,
    /// The start of a dictionary.
    StartDictionary,
    /// The end of an array or a dictionary.
    EndCollection,
    /// A Boolean.
    Boolean,
    /// Bytes.
    Data,
    /// A date.
    Date,
    /// An integer.
    Integer,
    /// A real of four or eight bytes.
    Real,
    /// A string.
    String,
    /// The number of an object in a keyed archive.
    Uid,
    /// A scalar or the start of a collection. Faults name it only as what is expected.
    ValueOrStartCollection,
    /// A string as a key, or the end of a dictionary. Faults name it only as what is expected.
    DictionaryKeyOrEndCollection,
}

impl EventKind {
    /// Returns the kind that has this number in `sizhetom.h`.
    fn of_number(number: u64) -> EventKind {
        match number {
            1 => EventKind::StartArray,
            2 => EventKind::StartDictionary,
            3 => EventKind::EndCollection,
            4 => EventKind::Boolean,
            5 => EventKind::Data,
            6 => EventKind::Date,
            7 => EventKind::Integer,
            8 => EventKind::Real,
            9 => EventKind::String,
            10 => EventKind::Uid,
            11 => EventKind::ValueOrStartCollection,
            12 => EventKind::DictionaryKeyOrEndCollection,
            other => unreachable!("no kind has the number {other}"),
        }
    }
}

/// Formats the variant's name, or words for the two kinds that are a choice.
impl fmt::Display for EventKind {
    fn fmt(&self, f: &mut fmt::Formatter<'_>) -> fmt::Result {
        match self {
            EventKind::ValueOrStartCollection => f.write_str("value or start collection"),
            EventKind::DictionaryKeyOrEndCollection => {
                f.write_str("dictionary key or end collection")
            }
            other => fmt::Debug::fmt(other, f),
        }
    }
}

/// Why a call failed. The order is that of the numbers in `sizhetom.h`.
///
/// ```
/// use sizhetom::{read, FaultKind, Limits};
///
/// let fault = read(b"(a, \"b", Limits::default()).unwrap_err();
/// assert_eq!(fault.kind(), FaultKind::UnclosedString);
/// ```
#[derive(Clone, Copy, Debug, PartialEq, Eq)]
#[non_exhaustive]
pub enum FaultKind {
    /// The input ends too early.
    UnexpectedEof,
    /// The input doesn't begin with `bplist00`.
    InvalidMagic,
    /// The trailer's offset width isn't 1, 2, 3, 4 or 8.
    InvalidTrailerObjectOffsetSize,
    /// The trailer's reference width isn't 1, 2, 3, 4 or 8.
    InvalidTrailerObjectReferenceSize,
    /// The offset table or an object doesn't end before the trailer.
    ObjectOffsetTooLarge,
    /// A reference names no object.
    ObjectReferenceTooLarge,
    /// A collection contains itself.
    RecursiveObject,
    /// The object is a null.
    NullObjectUnimplemented,
    /// The object is a fill byte.
    FillObjectUnimplemented,
    /// The object's marker is unknown.
    UnknownObjectType(u8),
    /// A sixteen-byte integer is outside the range 0 to `u64::MAX`.
    IntegerOutOfRange,
    /// A date's real is infinite or a NaN, or its second is outside the range of dates.
    OverflowOrNanDate,
    /// This crate never returns it.
    FractionalDate,
    /// A string of a binary file isn't UTF-8.
    InvalidUtf8String,
    /// A string or an escape isn't UTF-16.
    InvalidUtf16String,
    /// A quoted string has no closing quote.
    UnclosedString,
    /// A block comment has no `*/`, or the input ends after a slash.
    IncompleteComment,
    /// A string of an ASCII file isn't UTF-8, or an escape in it isn't defined.
    InvalidUtf8AsciiStream,
    /// An octal escape contains a byte other than `0` to `7`.
    InvalidOctalString,
    /// This crate never returns it.
    InvalidDateString,
    /// The event isn't allowed here.
    UnexpectedEventType {
        /// What is allowed here.
        expected: EventKind,
        /// The event that was found.
        found: EventKind,
    },
    /// The value is complete, but another event follows.
    ExpectedEndOfEventStream {
        /// The event that was found.
        found: EventKind,
    },
    /// The events end before the value is complete.
    UnexpectedEndOfEventStream,
    /// This crate never returns it, since it reads and writes memory.
    Io,
    /// An allocation failed.
    OutOfMemory,
    /// This crate never returns it.
    WriterFailed,
    /// The file would have 2^64 bytes or more.
    PlistTooLarge,
    /// The input is XML.
    XmlUnsupported,
    /// This crate never returns it.
    YearOutOfRange,
    /// The input exceeds one of the [`Limits`](crate::Limits).
    LimitReached(Limit),
    /// This crate never returns it: it makes room and calls the archive again.
    NoRoom,
    /// This crate never returns it.
    InvalidKind,
    /// This crate never returns it.
    InvalidNumber,
    /// This crate never returns it.
    InvalidRange,
    /// This crate never returns it.
    InvalidText,
}

impl FaultKind {
    /// Returns the kind of an outcome that is a fault.
    fn of_outcome(outcome: &Outcome) -> FaultKind {
        match outcome.fault {
            1 => FaultKind::UnexpectedEof,
            2 => FaultKind::InvalidMagic,
            3 => FaultKind::InvalidTrailerObjectOffsetSize,
            4 => FaultKind::InvalidTrailerObjectReferenceSize,
            5 => FaultKind::ObjectOffsetTooLarge,
            6 => FaultKind::ObjectReferenceTooLarge,
            7 => FaultKind::RecursiveObject,
            8 => FaultKind::NullObjectUnimplemented,
            9 => FaultKind::FillObjectUnimplemented,
            10 => FaultKind::UnknownObjectType(outcome.detail as u8),
            11 => FaultKind::IntegerOutOfRange,
            12 => FaultKind::OverflowOrNanDate,
            13 => FaultKind::FractionalDate,
            14 => FaultKind::InvalidUtf8String,
            15 => FaultKind::InvalidUtf16String,
            16 => FaultKind::UnclosedString,
            17 => FaultKind::IncompleteComment,
            18 => FaultKind::InvalidUtf8AsciiStream,
            19 => FaultKind::InvalidOctalString,
            20 => FaultKind::InvalidDateString,
            21 => FaultKind::UnexpectedEventType {
                expected: EventKind::of_number(outcome.expected),
                found: EventKind::of_number(outcome.detail),
            },
            22 => FaultKind::ExpectedEndOfEventStream {
                found: EventKind::of_number(outcome.detail),
            },
            23 => FaultKind::UnexpectedEndOfEventStream,
            24 => FaultKind::Io,
            25 => FaultKind::OutOfMemory,
            26 => FaultKind::WriterFailed,
            27 => FaultKind::PlistTooLarge,
            28 => FaultKind::XmlUnsupported,
            29 => FaultKind::YearOutOfRange,
            30 => FaultKind::LimitReached(limit_of_number(outcome.detail)),
            31 => FaultKind::NoRoom,
            32 => FaultKind::InvalidKind,
            33 => FaultKind::InvalidNumber,
            34 => FaultKind::InvalidRange,
            35 => FaultKind::InvalidText,
            other => unreachable!("no fault has the number {other}"),
        }
    }
}

fn limit_of_number(number: u64) -> Limit {
    match number {
        0 => Limit::Depth,
        _ => Limit::Items,
    }
}

/// Formats the variant's name and its fields, as the program `plist_tool` prints errors.
impl fmt::Display for FaultKind {
    fn fmt(&self, f: &mut fmt::Formatter<'_>) -> fmt::Result {
        match self {
            FaultKind::UnknownObjectType(marker) => write!(f, "UnknownObjectType({marker})"),
            FaultKind::UnexpectedEventType { expected, found } => write!(
                f,
                "UnexpectedEventType {{ expected: {expected:?}, found: {found:?} }}"
            ),
            FaultKind::ExpectedEndOfEventStream { found } => {
                write!(f, "ExpectedEndOfEventStream {{ found: {found:?} }}")
            }
            FaultKind::LimitReached(limit) => write!(f, "LimitReached({limit:?})"),
            unit => write!(f, "{unit:?}"),
        }
    }
}

/// An error: its kind, its offset in the input if it has one, and the number of events that
/// precede it.
///
/// `Display` formats it as the program `plist_tool` prints errors.
///
/// ```
/// use sizhetom::{read, Limits};
///
/// let fault = read(b"bplist01", Limits::default()).unwrap();
/// let fault = read(b"{ key = \"1\\9\"; }", Limits::default()).unwrap_err();
/// assert_eq!(fault.to_string(), "InvalidUtf8AsciiStream (offset 12)");
/// assert_eq!(fault.offset(), Some(12));
/// assert_eq!(fault.events(), 2);
/// ```
#[derive(Clone, Copy, Debug, PartialEq, Eq)]
pub struct Fault {
    kind: FaultKind,
    offset: Option<u64>,
    events: usize,
}

impl Fault {
    /// Returns the fault of an outcome, or `None` if it is none.
    pub(crate) fn of_outcome(outcome: &Outcome) -> Option<Fault> {
        (outcome.fault != 0).then(|| Fault {
            kind: FaultKind::of_outcome(outcome),
            offset: (outcome.has_offset == 1).then_some(outcome.offset),
            events: outcome.events,
        })
    }

    /// Makes a fault without an offset.
    pub(crate) fn without_offset(kind: FaultKind, events: usize) -> Fault {
        Fault {
            kind,
            offset: None,
            events,
        }
    }

    /// Returns why the call failed.
    ///
    /// ```
    /// # use sizhetom::{read, FaultKind, Limits};
    /// let fault = read(b"<plist/>", Limits::default()).unwrap_err();
    /// assert_eq!(fault.kind(), FaultKind::XmlUnsupported);
    /// ```
    pub fn kind(&self) -> FaultKind {
        self.kind
    }

    /// Returns the offset in the input, in bytes, or `None` if the fault has none.
    ///
    /// ```
    /// # use sizhetom::{read, Limits};
    /// assert_eq!(read(b" <plist/>", Limits::default()).unwrap_err().offset(), Some(1));
    /// assert_eq!(read(b"(", Limits::default()).unwrap_err().offset(), None);
    /// ```
    pub fn offset(&self) -> Option<u64> {
        self.offset
    }

    /// Returns how many events precede the fault. If a writer failed, this is the index of the
    /// event that it rejected.
    ///
    /// ```
    /// # use sizhetom::{read, Limits};
    /// assert_eq!(read(b"(a, b", Limits::default()).unwrap_err().events(), 3);
    /// ```
    pub fn events(&self) -> usize {
        self.events
    }
}

/// Formats the kind, and then ` (offset N)` if the fault has an offset.
impl fmt::Display for Fault {
    fn fmt(&self, f: &mut fmt::Formatter<'_>) -> fmt::Result {
        match self.offset {
            Some(offset) => write!(f, "{} (offset {offset})", self.kind),
            None => self.kind.fmt(f),
        }
    }
}

impl std::error::Error for Fault {}
