//! Reads property lists, in Apple's binary form (`bplist00`) and in the older ASCII form, and
//! writes them in the binary form, by readers and writers that are proved.
//!
//! [`read`](read()) returns the events of a property list, which borrow their strings and data,
//! and [`Document::value`] its value. [`to_binary`] writes a value.
//!
//! ```
//! use sizhetom::{read, to_binary, Limits, Value};
//!
//! let input = b"{ Name = Example; Size = 12; }";
//! let value = read(input, Limits::default())?.value();
//! let size = value.as_dictionary().and_then(|pairs| pairs.get("Size")?.as_signed_integer());
//! assert_eq!(size, Some(12));
//! let file = to_binary(&value)?;
//! assert_eq!(Value::from_bytes(&file, Limits::default())?, value);
//! # Ok::<(), sizhetom::Fault>(())
//! ```
//!
//! What is proved is the archive that this crate links: whatever the input is, its functions end
//! within the memory that they are given, and their results are the events of the input. What
//! this crate adds is not proved: growing that memory, iterators, values and their conversions.

#![warn(missing_docs)]
#![deny(unsafe_op_in_unsafe_fn)]

mod array;
mod dictionary;
mod document;
mod event;
mod fault;
mod ffi;
mod limits;
mod scalars;
mod value;
mod writer;

pub use array::Array;
pub use dictionary::{Dictionary, Iter};
pub use document::{Document, EventList, Reader, read, read_events};
pub use event::{Event, Events};
pub use fault::{EventKind, Fault, FaultKind};
pub use ffi::{Version, version};
pub use limits::{Limit, Limits};
pub use scalars::{Date, Integer, Real, Uid};
pub use value::{Value, ValueEvents};
pub use writer::{Writer, to_binary, to_binary_shared};

/// The example of the README is compiled as a test.
#[cfg(doctest)]
#[doc = include_str!("../README.md")]
struct Readme;
