//! Arrays.

use crate::Value;
use crate::value::{Shown, are_equal, drop_all};
use std::ops::{Deref, DerefMut};
use std::{fmt, mem, slice, vec};

/// An array: a `Vec<Value>` that can be dropped however deep its items nest.
///
/// ```
/// use sizhetom::{Array, Value};
///
/// let mut array = Array::from(vec![1.into(), "a".into()]);
/// array.push(true.into());
/// assert_eq!(array.len(), 3);
/// assert_eq!(array[1].as_string(), Some("a"));
/// ```
#[derive(Clone, Default)]
pub struct Array {
    items: Vec<Value>,
}

impl Array {
    /// Makes an empty array.
    ///
    /// ```
    /// # use sizhetom::Array;
    /// assert!(Array::new().is_empty());
    /// ```
    pub fn new() -> Array {
        Array::default()
    }

    /// Returns the items as a vector.
    ///
    /// ```
    /// # use sizhetom::Array;
    /// assert_eq!(Array::from(vec![1.into()]).into_vec(), [1.into()]);
    /// ```
    pub fn into_vec(mut self) -> Vec<Value> {
        mem::take(&mut self.items)
    }
}

impl Deref for Array {
    type Target = Vec<Value>;

    fn deref(&self) -> &Vec<Value> {
        &self.items
    }
}

impl DerefMut for Array {
    fn deref_mut(&mut self) -> &mut Vec<Value> {
        &mut self.items
    }
}

impl From<Vec<Value>> for Array {
    fn from(items: Vec<Value>) -> Array {
        Array { items }
    }
}

impl From<Array> for Vec<Value> {
    fn from(array: Array) -> Vec<Value> {
        array.into_vec()
    }
}

impl FromIterator<Value> for Array {
    fn from_iter<I: IntoIterator<Item = Value>>(items: I) -> Array {
        Array::from(Vec::from_iter(items))
    }
}

impl IntoIterator for Array {
    type Item = Value;
    type IntoIter = vec::IntoIter<Value>;

    fn into_iter(self) -> Self::IntoIter {
        self.into_vec().into_iter()
    }
}

impl<'a> IntoIterator for &'a Array {
    type Item = &'a Value;
    type IntoIter = slice::Iter<'a, Value>;

    fn into_iter(self) -> Self::IntoIter {
        self.items.iter()
    }
}

impl PartialEq for Array {
    fn eq(&self, other: &Array) -> bool {
        self.len() == other.len() && are_equal(self.iter().zip(other.iter().map(Some)))
    }
}

impl Eq for Array {}

impl fmt::Debug for Array {
    fn fmt(&self, f: &mut fmt::Formatter<'_>) -> fmt::Result {
        Shown::array(self).fmt(f)
    }
}

/// Dropping an array uses little of the call stack, however deep its items nest.
impl Drop for Array {
    fn drop(&mut self) {
        if self.items.iter().any(Value::has_items) {
            drop_all(mem::take(&mut self.items));
        }
    }
}
