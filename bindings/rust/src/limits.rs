//! How much of a property list is read.

/// Limits on how much of a property list is read.
///
/// A small file may unfold to far more than it has bytes, since it may refer to a collection, a
/// string or data any number of times. The default limits are meant for files from strangers.
///
/// ```
/// use sizhetom::{read, FaultKind, Limit, Limits};
///
/// let limits = Limits { depth: 2, ..Limits::default() };
/// assert!(read(b"((a))", limits).is_ok());
/// let fault = read(b"(((a)))", limits).unwrap_err();
/// assert_eq!(fault.kind(), FaultKind::LimitReached(Limit::Depth));
/// ```
#[derive(Clone, Copy, Debug, PartialEq, Eq)]
#[repr(C)]
pub struct Limits {
    /// The maximum number of collections that may be open at once.
    pub depth: u64,
    /// The maximum number of events.
    pub events: u64,
    /// The maximum number of bytes in all strings and data. A string or data to which the input
    /// refers again counts again.
    pub bytes: u64,
}

impl Limits {
    /// No limits, for files that are trusted.
    ///
    /// ```
    /// use sizhetom::{read, Limits};
    ///
    /// let deep = [vec![b'('; 100], vec![b')'; 100]].concat();
    /// assert!(read(&deep, Limits::default()).is_err());
    /// assert!(read(&deep, Limits::NONE).is_ok());
    /// ```
    pub const NONE: Limits = Limits {
        depth: u64::MAX,
        events: u64::MAX,
        bytes: u64::MAX,
    };
}

/// 64 open collections, 1,000,000 events, and 16 MiB of strings and data.
impl Default for Limits {
    fn default() -> Limits {
        Limits {
            depth: 64,
            events: 1_000_000,
            bytes: 16 << 20,
        }
    }
}

/// Which of the [`Limits`] was reached.
#[derive(Clone, Copy, Debug, PartialEq, Eq)]
pub enum Limit {
    /// The start of a collection would exceed [`Limits::depth`].
    Depth,
    /// An event would exceed [`Limits::events`].
    Items,
    /// A string or data would exceed [`Limits::bytes`].
    Bytes,
}
