//! The functions of the archive, as `bindings/c/sizhetom.h` declares them.
//!
//! They are called in three `unsafe` blocks. The only other block is in `Events::string`.

use crate::Limits;
use crate::fault::Outcome;

/// The fault for which memory has to grow.
pub(crate) const NO_ROOM: u64 = 31;

/// What the fault's detail says: the records or the bytes have no room.
pub(crate) const FULL_EVENTS: u64 = 0;
pub(crate) const FULL_BYTES: u64 = 1;

/// The record of an event. `sizhetom.h` says what its fields mean for each kind.
#[derive(Clone, Copy, Debug)]
#[repr(C)]
pub(crate) struct Record {
    pub kind: u64,
    pub number: u64,
    pub size: u64,
}

/// The version of the linked archive.
#[derive(Clone, Copy, Debug, PartialEq, Eq, PartialOrd, Ord)]
#[repr(C)]
pub struct Version {
    /// It changes if callers may have to.
    pub major: u32,
    /// It changes if something is added.
    pub minor: u32,
    /// It changes if something is corrected.
    pub patch: u32,
}

/// Records, and the bytes of their strings and data one after another.
#[derive(Clone, Debug, Default)]
pub(crate) struct Memory {
    pub records: Vec<Record>,
    pub bytes: Vec<u8>,
}

/// A function that reads: `sizhetom_read` or `sizhetom_read_events`.
type Reader = unsafe extern "C" fn(
    input: *const u8,
    input_len: usize,
    limits: *const Limits,
    events: *mut Record,
    events_len: usize,
    bytes: *mut u8,
    bytes_len: usize,
) -> Outcome;

unsafe extern "C" {
    fn sizhetom_read(
        input: *const u8,
        input_len: usize,
        limits: *const Limits,
        events: *mut Record,
        events_len: usize,
        bytes: *mut u8,
        bytes_len: usize,
    ) -> Outcome;

    fn sizhetom_read_events(
        input: *const u8,
        input_len: usize,
        limits: *const Limits,
        events: *mut Record,
        events_len: usize,
        bytes: *mut u8,
        bytes_len: usize,
    ) -> Outcome;

    fn sizhetom_write(
        events: *const Record,
        events_len: usize,
        bytes: *const u8,
        bytes_len: usize,
        shares: bool,
        file: *mut u8,
        file_len: usize,
    ) -> Outcome;

    fn sizhetom_version() -> Version;
}

/// Replaces the contents of the memory by the events of a value, as far as its capacity allows.
pub(crate) fn read(input: &[u8], limits: &Limits, memory: &mut Memory) -> Outcome {
    fill(sizhetom_read, input, limits, memory)
}

/// Replaces the contents of the memory by an input's events, as far as its capacity allows.
pub(crate) fn read_events(input: &[u8], limits: &Limits, memory: &mut Memory) -> Outcome {
    fill(sizhetom_read_events, input, limits, memory)
}

fn fill(reader: Reader, input: &[u8], limits: &Limits, memory: &mut Memory) -> Outcome {
    let Memory { records, bytes } = memory;
    // SAFETY: Each pointer and its length are those of a slice, or of a vector and its capacity.
    // None of them is null, and they don't overlap, since the vectors are borrowed mutably. The
    // function reads nothing from the vectors, and writes within their capacities: first the
    // records and bytes that its outcome counts. So these are initialised when the lengths are
    // set.
    unsafe {
        let outcome = reader(
            input.as_ptr(),
            input.len(),
            limits,
            records.as_mut_ptr(),
            records.capacity(),
            bytes.as_mut_ptr(),
            bytes.capacity(),
        );
        records.set_len(outcome.events);
        bytes.set_len(outcome.bytes);
        outcome
    }
}

/// Replaces the contents of `file` by the binary property list of these events, if its capacity
/// suffices.
pub(crate) fn write(memory: &Memory, shares: bool, file: &mut Vec<u8>) -> Outcome {
    let Memory { records, bytes } = memory;
    file.clear();
    // SAFETY: Each pointer and its length are those of a slice, or of a vector and its capacity.
    // None of them is null, and the vector is borrowed mutably, so it overlaps nothing. If there
    // is no fault, the function has written as many bytes as its outcome counts, and these fit
    // into the capacity. So they are initialised when the length is set.
    unsafe {
        let outcome = sizhetom_write(
            records.as_ptr(),
            records.len(),
            bytes.as_ptr(),
            bytes.len(),
            shares,
            file.as_mut_ptr(),
            file.capacity(),
        );
        if outcome.fault == 0 {
            file.set_len(outcome.bytes);
        }
        outcome
    }
}

/// Returns the version of the linked archive.
///
/// ```
/// println!("sizhetom {}", sizhetom::version());
/// ```
pub fn version() -> Version {
    // SAFETY: The function takes nothing and only returns numbers.
    unsafe { sizhetom_version() }
}

impl std::fmt::Display for Version {
    fn fmt(&self, f: &mut std::fmt::Formatter<'_>) -> std::fmt::Result {
        write!(f, "{}.{}.{}", self.major, self.minor, self.patch)
    }
}
