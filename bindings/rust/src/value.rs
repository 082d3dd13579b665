//! Values.

use crate::array::Array;
use crate::dictionary::{self, Dictionary};
use crate::{Date, Event, Fault, Integer, Limits, Reader, Real, Uid};
use std::{fmt, iter, slice};

/// A value of a property list.
///
/// It can be read, dropped, copied, compared and written however deep it nests: none of these
/// calls itself for each level.
///
/// ```
/// use sizhetom::{Limits, Value};
///
/// let value = Value::from_bytes(b"{ Name = Example; Sizes = (1, 2); }", Limits::default())?;
/// let pairs = value.as_dictionary().unwrap();
/// assert_eq!(pairs.get("Name").and_then(Value::as_string), Some("Example"));
/// let sizes = pairs.get("Sizes").and_then(Value::as_array).unwrap();
/// assert_eq!(sizes[1].as_signed_integer(), Some(2));
/// # Ok::<(), sizhetom::Fault>(())
/// ```
pub enum Value {
    /// An array.
    Array(Array),
    /// A dictionary.
    Dictionary(Dictionary),
    /// A Boolean.
    Boolean(bool),
    /// Bytes.
    Data(Vec<u8>),
    /// A date.
    Date(Date),
    /// A real of four or eight bytes.
    Real(Real),
    /// An integer.
    Integer(Integer),
    /// A string.
    String(String),
    /// The number of an object in a keyed archive.
    Uid(Uid),
}

/// Defines methods that return a reference to the content of one variant, a mutable reference to
/// it, and the content itself.
macro_rules! accessors {
    ($($variant:ident($type:ty, $mut_type:ty, $owned:ty): $as_ref:ident $as_mut:ident $into:ident
        $name:literal $value:literal;)*) => {
        $(
            #[doc = concat!("Returns ", $name, ", or `None` if the value isn't one.")]
            ///
            /// ```
            #[doc = concat!("# use sizhetom::*;\nlet value = Value::from(", $value, ");")]
            #[doc = concat!("assert!(value.", stringify!($as_ref), "().is_some());")]
            /// ```
            pub fn $as_ref(&self) -> Option<&$type> {
                match self {
                    Value::$variant(content) => Some(content),
                    _ => None,
                }
            }

            #[doc = concat!("Returns ", $name, ", which may be changed, or `None` if the value isn't one.")]
            ///
            /// ```
            #[doc = concat!("# use sizhetom::*;\nlet mut value = Value::from(", $value, ");")]
            #[doc = concat!("value.", stringify!($as_mut), "().unwrap().clear();")]
            /// ```
            pub fn $as_mut(&mut self) -> Option<&mut $mut_type> {
                match self {
                    Value::$variant(content) => Some(content),
                    _ => None,
                }
            }

            #[doc = concat!("Converts to ", $name, ", or returns `None` if the value isn't one.")]
            ///
            /// ```
            #[doc = concat!("# use sizhetom::*;\nlet value = Value::from(", $value, ");")]
            #[doc = concat!("assert!(value.", stringify!($into), "().is_some());")]
            /// ```
            pub fn $into(self) -> Option<$owned> {
                match self {
                    Value::$variant(content) => Some(content.into()),
                    _ => None,
                }
            }
        )*
    };
}

/// Defines methods that return the content of one variant.
macro_rules! scalar_accessors {
    ($($variant:ident($type:ty) $as_copy:ident $name:literal $value:literal;)*) => {
        $(
            #[doc = concat!("Returns ", $name, ", or `None` if the value isn't one.")]
            ///
            /// ```
            #[doc = concat!("# use sizhetom::*;\nlet value = Value::from(", $value, ");")]
            #[doc = concat!("assert!(value.", stringify!($as_copy), "().is_some());")]
            /// ```
            pub fn $as_copy(&self) -> Option<$type> {
                match self {
                    Value::$variant(content) => Some(*content),
                    _ => None,
                }
            }
        )*
    };
}

impl Value {
    /// Reads the value of a binary or ASCII property list.
    ///
    /// ```
    /// # use sizhetom::{Limits, Value};
    /// let value = Value::from_bytes(b"(a)", Limits::default())?;
    /// assert_eq!(value, vec![Value::from("a")].into());
    /// # Ok::<(), sizhetom::Fault>(())
    /// ```
    ///
    /// # Errors
    ///
    /// Those of [`read`](crate::read()).
    pub fn from_bytes(input: &[u8], limits: Limits) -> Result<Value, Fault> {
        Ok(Reader::new(limits).read(input)?.value())
    }

    /// Returns the events of the value. The starts have the lengths.
    ///
    /// ```
    /// # use sizhetom::{Event, Value};
    /// let value = Value::from(vec![Value::from(true)]);
    /// let events = [Event::StartArray(Some(1)), Event::Boolean(true), Event::EndCollection];
    /// assert!(value.events().eq(events));
    /// ```
    pub fn events(&self) -> ValueEvents<'_> {
        ValueEvents {
            pending: Some(self),
            open: Vec::new(),
        }
    }

    accessors! {
        Array(Vec<Value>, Vec<Value>, Vec<Value>): as_array as_array_mut into_array
            "the items of an array" "Array::from(vec![1.into()])";
        Dictionary(Dictionary, Dictionary, Dictionary): as_dictionary as_dictionary_mut
            into_dictionary "a dictionary" "Dictionary::new()";
        Data([u8], Vec<u8>, Vec<u8>): as_data as_data_mut into_data "data" "vec![0_u8]";
        String(str, String, String): as_string as_string_mut into_string "a string" "\"a\"";
    }

    scalar_accessors! {
        Boolean(bool) as_boolean "a Boolean" "true";
        Date(Date) as_date "a date" "Date::from_seconds(0.0).unwrap()";
        Uid(Uid) as_uid "a Uid" "Uid::new(1)";
    }

    /// Returns the number of a real, or `None` if the value isn't one.
    ///
    /// ```
    /// # use sizhetom::Value;
    /// assert_eq!(Value::from(1.5).as_real(), Some(1.5));
    /// ```
    pub fn as_real(&self) -> Option<f64> {
        match self {
            Value::Real(real) => Some(real.to_f64()),
            _ => None,
        }
    }

    /// Returns an integer, or `None` if the value isn't one or doesn't fit.
    ///
    /// ```
    /// # use sizhetom::Value;
    /// assert_eq!(Value::from(-1).as_signed_integer(), Some(-1));
    /// assert_eq!(Value::from(u64::MAX).as_signed_integer(), None);
    /// ```
    pub fn as_signed_integer(&self) -> Option<i64> {
        match self {
            Value::Integer(integer) => integer.as_signed(),
            _ => None,
        }
    }

    /// Returns an integer, or `None` if the value isn't one or is negative.
    ///
    /// ```
    /// # use sizhetom::Value;
    /// assert_eq!(Value::from(u64::MAX).as_unsigned_integer(), Some(u64::MAX));
    /// assert_eq!(Value::from(-1).as_unsigned_integer(), None);
    /// ```
    pub fn as_unsigned_integer(&self) -> Option<u64> {
        match self {
            Value::Integer(integer) => integer.as_unsigned(),
            _ => None,
        }
    }

    /// Returns `true` if the value is an array or a dictionary that isn't empty.
    pub(crate) fn has_items(&self) -> bool {
        match self {
            Value::Array(array) => !array.is_empty(),
            Value::Dictionary(pairs) => !pairs.is_empty(),
            _ => false,
        }
    }
}

impl Clone for Value {
    fn clone(&self) -> Value {
        build(self.events())
    }
}

impl PartialEq for Value {
    fn eq(&self, other: &Value) -> bool {
        are_equal(iter::once((self, Some(other))))
    }
}

impl Eq for Value {}

/// Collections that are nested deeper than 128 levels are formatted as `..`.
impl fmt::Debug for Value {
    fn fmt(&self, f: &mut fmt::Formatter<'_>) -> fmt::Result {
        Shown::value(self).fmt(f)
    }
}

macro_rules! value_from {
    ($($type:ty => $variant:ident),*) => {
        $(impl From<$type> for Value {
            fn from(content: $type) -> Value {
                Value::$variant(content.into())
            }
        })*
    };
}

value_from! {
    Array => Array, Vec<Value> => Array, Dictionary => Dictionary, bool => Boolean,
    Vec<u8> => Data, &[u8] => Data, Date => Date, Real => Real, f32 => Real, f64 => Real,
    Integer => Integer, i8 => Integer, i16 => Integer, i32 => Integer, i64 => Integer,
    u8 => Integer, u16 => Integer, u32 => Integer, u64 => Integer,
    String => String, &str => String, Uid => Uid
}

/// An iterator over the events of a [`Value`].
///
/// ```
/// use sizhetom::{Limits, Value};
///
/// let value = Value::from_bytes(b"((), ())", Limits::default())?;
/// assert_eq!(value.events().count(), 6);
/// # Ok::<(), sizhetom::Fault>(())
/// ```
#[derive(Clone)]
pub struct ValueEvents<'a> {
    // The value whose first event is next, unless that is the next event of a collection.
    pending: Option<&'a Value>,
    open: Vec<OpenValue<'a>>,
}

/// What remains of a collection.
#[derive(Clone)]
enum OpenValue<'a> {
    Array(slice::Iter<'a, Value>),
    Dictionary(dictionary::Iter<'a>),
}

impl<'a> ValueEvents<'a> {
    fn first_event(&mut self, value: &'a Value) -> Event<'a> {
        match value {
            Value::Array(array) => {
                self.open.push(OpenValue::Array(array.iter()));
                Event::StartArray(Some(array.len() as u64))
            }
            Value::Dictionary(pairs) => {
                self.open.push(OpenValue::Dictionary(pairs.iter()));
                Event::StartDictionary(Some(pairs.len() as u64))
            }
            Value::Boolean(value) => Event::Boolean(*value),
            Value::Data(data) => Event::Data(data),
            Value::Date(date) => Event::Date(*date),
            Value::Real(real) => Event::Real(*real),
            Value::Integer(integer) => Event::Integer(*integer),
            Value::String(string) => Event::String(string),
            Value::Uid(uid) => Event::Uid(*uid),
        }
    }
}

impl<'a> Iterator for ValueEvents<'a> {
    type Item = Event<'a>;

    fn next(&mut self) -> Option<Event<'a>> {
        if let Some(value) = self.pending.take() {
            return Some(self.first_event(value));
        }
        let next = match self.open.last_mut()? {
            OpenValue::Array(items) => items.next(),
            OpenValue::Dictionary(pairs) => {
                if let Some((key, value)) = pairs.next() {
                    self.pending = Some(value);
                    return Some(Event::String(key));
                }
                None
            }
        };
        if next.is_none() {
            self.open.pop();
        }
        Some(next.map_or(Event::EndCollection, |value| self.first_event(value)))
    }
}

impl fmt::Debug for ValueEvents<'_> {
    fn fmt(&self, f: &mut fmt::Formatter<'_>) -> fmt::Result {
        f.debug_list().entries(self.clone()).finish()
    }
}

/// A collection whose end is still to follow.
enum Unfinished {
    Array(Vec<Value>),
    Dictionary(Dictionary, Option<String>),
}

impl Unfinished {
    fn add(&mut self, value: Value) {
        match self {
            Unfinished::Array(items) => items.push(value),
            Unfinished::Dictionary(pairs, key) => {
                let key = key.take().expect("a value follows a key");
                pairs.insert(key, value);
            }
        }
    }

    /// Keeps a string if it is a key, and returns it otherwise.
    fn take_key<'a>(&mut self, string: &'a str) -> Option<&'a str> {
        match self {
            Unfinished::Dictionary(_, key @ None) => {
                *key = Some(string.to_owned());
                None
            }
            _ => Some(string),
        }
    }

    fn into_value(self) -> Value {
        match self {
            Unfinished::Array(items) => items.into(),
            Unfinished::Dictionary(pairs, _) => pairs.into(),
        }
    }
}

/// The most items or pairs for which memory is reserved because of a length.
const MAX_RESERVED: u64 = 4096;

fn capacity(length: Option<u64>) -> usize {
    length.unwrap_or(0).min(MAX_RESERVED) as usize
}

/// Makes a value of its events.
///
/// # Panics
///
/// If the events aren't those of a value.
pub(crate) fn build<'a>(events: impl Iterator<Item = Event<'a>>) -> Value {
    let mut open: Vec<Unfinished> = Vec::new();
    for event in events {
        let value = match event {
            Event::StartArray(length) => {
                open.push(Unfinished::Array(Vec::with_capacity(capacity(length))));
                continue;
            }
            Event::StartDictionary(length) => {
                let pairs = Dictionary::with_capacity(capacity(length));
                open.push(Unfinished::Dictionary(pairs, None));
                continue;
            }
            Event::EndCollection => open.pop().expect("an end follows a start").into_value(),
            Event::String(string) => match open.last_mut() {
                None => string.into(),
                Some(collection) => match collection.take_key(string) {
                    None => continue,
                    Some(string) => string.into(),
                },
            },
            Event::Boolean(value) => value.into(),
            Event::Data(data) => data.into(),
            Event::Date(date) => date.into(),
            Event::Integer(integer) => integer.into(),
            Event::Real(real) => real.into(),
            Event::Uid(uid) => uid.into(),
        };
        match open.last_mut() {
            None => return value,
            Some(collection) => collection.add(value),
        }
    }
    unreachable!("the events of a value end with it")
}

/// Returns `true` if the values of each pair are equal. A missing value equals none.
pub(crate) fn are_equal<'a>(pairs: impl Iterator<Item = (&'a Value, Option<&'a Value>)>) -> bool {
    let mut pending = Vec::new();
    if !begin_to_compare(&mut pending, pairs) {
        return false;
    }
    while let Some(pair) = pending.pop() {
        let may_be_equal = match pair {
            (Value::Array(one), Value::Array(other)) => {
                begin_to_compare(&mut pending, one.iter().zip(other.iter().map(Some)))
            }
            (Value::Dictionary(one), Value::Dictionary(other)) => begin_to_compare(
                &mut pending,
                one.iter().map(|(key, value)| (value, other.get(key))),
            ),
            _ => true,
        };
        if !may_be_equal {
            return false;
        }
    }
    true
}

/// Returns `false` if the values of a pair differ as scalars or in their lengths, and notes the
/// pairs whose items are still to be compared.
fn begin_to_compare<'a>(
    pending: &mut Vec<(&'a Value, &'a Value)>,
    mut pairs: impl Iterator<Item = (&'a Value, Option<&'a Value>)>,
) -> bool {
    pairs.all(|(one, other)| match (one, other) {
        (_, None) => false,
        (Value::Array(a), Some(other @ Value::Array(b))) => {
            pending.push((one, other));
            a.len() == b.len()
        }
        (Value::Dictionary(a), Some(other @ Value::Dictionary(b))) => {
            pending.push((one, other));
            a.len() == b.len()
        }
        (one, Some(other)) => are_equal_scalars(one, other),
    })
}

fn are_equal_scalars(one: &Value, other: &Value) -> bool {
    match (one, other) {
        (Value::Boolean(a), Value::Boolean(b)) => a == b,
        (Value::Data(a), Value::Data(b)) => a == b,
        (Value::Date(a), Value::Date(b)) => a == b,
        (Value::Real(a), Value::Real(b)) => a == b,
        (Value::Integer(a), Value::Integer(b)) => a == b,
        (Value::String(a), Value::String(b)) => a == b,
        (Value::Uid(a), Value::Uid(b)) => a == b,
        _ => false,
    }
}

/// Drops values without a call for each level of their collections.
pub(crate) fn drop_all(mut pending: Vec<Value>) {
    while let Some(value) = pending.pop() {
        match value {
            Value::Array(mut array) => pending.extend(array.drain(..).filter(Value::has_items)),
            Value::Dictionary(mut pairs) => {
                pending.extend(pairs.take_values().filter(Value::has_items));
            }
            _ => {}
        }
    }
}

/// How many levels of collections are formatted for debugging.
const MAX_SHOWN: usize = 128;

/// The Debug output of a value, with a maximum number of levels.
pub(crate) struct Shown<'a> {
    content: Content<'a>,
    levels: usize,
}

#[derive(Clone, Copy)]
enum Content<'a> {
    Value(&'a Value),
    Array(&'a [Value]),
    Dictionary(&'a Dictionary),
}

impl<'a> Shown<'a> {
    fn value(value: &'a Value) -> Shown<'a> {
        Shown {
            content: Content::Value(value),
            levels: MAX_SHOWN,
        }
    }

    pub(crate) fn array(items: &'a [Value]) -> Shown<'a> {
        Shown {
            content: Content::Array(items),
            levels: MAX_SHOWN,
        }
    }

    pub(crate) fn dictionary(pairs: &'a Dictionary) -> Shown<'a> {
        Shown {
            content: Content::Dictionary(pairs),
            levels: MAX_SHOWN,
        }
    }

    fn child(&self, value: &'a Value) -> Shown<'a> {
        Shown {
            content: Content::Value(value),
            levels: self.levels - 1,
        }
    }
}

impl fmt::Debug for Shown<'_> {
    fn fmt(&self, f: &mut fmt::Formatter<'_>) -> fmt::Result {
        match self.content {
            Content::Array(items) => self.fmt_array(items, f),
            Content::Dictionary(pairs) => self.fmt_dictionary(pairs, f),
            Content::Value(Value::Array(array)) => self.fmt_array(array, f),
            Content::Value(Value::Dictionary(pairs)) => self.fmt_dictionary(pairs, f),
            Content::Value(Value::Boolean(value)) => f.debug_tuple("Boolean").field(value).finish(),
            Content::Value(Value::Data(data)) => f.debug_tuple("Data").field(data).finish(),
            Content::Value(Value::Date(date)) => date.fmt(f),
            Content::Value(Value::Real(real)) => f.debug_tuple("Real").field(real).finish(),
            Content::Value(Value::Integer(number)) => {
                f.debug_tuple("Integer").field(number).finish()
            }
            Content::Value(Value::String(string)) => f.debug_tuple("String").field(string).finish(),
            Content::Value(Value::Uid(uid)) => uid.fmt(f),
        }
    }
}

impl<'a> Shown<'a> {
    fn fmt_array(&self, items: &'a [Value], f: &mut fmt::Formatter<'_>) -> fmt::Result {
        if self.levels == 0 {
            return f.write_str("..");
        }
        f.debug_list()
            .entries(items.iter().map(|item| self.child(item)))
            .finish()
    }

    fn fmt_dictionary(&self, pairs: &'a Dictionary, f: &mut fmt::Formatter<'_>) -> fmt::Result {
        if self.levels == 0 {
            return f.write_str("..");
        }
        let pairs = pairs.iter().map(|(key, value)| (key, self.child(value)));
        f.debug_map().entries(pairs).finish()
    }
}
