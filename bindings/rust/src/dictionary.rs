//! Dictionaries, which keep the order of their keys.

use crate::Value;
use crate::value::drop_all;
use std::collections::hash_map::RandomState;
use std::hash::BuildHasher;
use std::{fmt, mem, slice, vec};

/// A dictionary with at most this many pairs has no index: its keys are compared one by one.
const FEW: usize = 8;

/// A dictionary, which keeps its pairs in the order in which their keys were inserted first.
///
/// ```
/// use sizhetom::Dictionary;
///
/// let mut pairs = Dictionary::new();
/// pairs.insert("b".to_owned(), 1.into());
/// pairs.insert("a".to_owned(), 2.into());
/// pairs.insert("b".to_owned(), 3.into());
/// assert_eq!(pairs.keys().collect::<Vec<_>>(), ["b", "a"]);
/// assert_eq!(pairs.get("b"), Some(&3.into()));
/// ```
#[derive(Clone, Default)]
pub struct Dictionary {
    pairs: Vec<(String, Value)>,
    // The index is made when there are more than a few pairs.
    index: Option<Box<Index>>,
}

impl Dictionary {
    /// Makes an empty dictionary.
    ///
    /// ```
    /// # use sizhetom::Dictionary;
    /// assert!(Dictionary::new().is_empty());
    /// ```
    pub fn new() -> Dictionary {
        Dictionary::default()
    }

    /// Makes an empty dictionary with room for this many pairs.
    ///
    /// ```
    /// # use sizhetom::Dictionary;
    /// assert_eq!(Dictionary::with_capacity(10).len(), 0);
    /// ```
    pub fn with_capacity(capacity: usize) -> Dictionary {
        Dictionary {
            pairs: Vec::with_capacity(capacity),
            index: None,
        }
    }

    /// Returns the number of pairs.
    ///
    /// ```
    /// # use sizhetom::Dictionary;
    /// let pairs: Dictionary = [("a".to_owned(), 1.into())].into_iter().collect();
    /// assert_eq!(pairs.len(), 1);
    /// ```
    pub fn len(&self) -> usize {
        self.pairs.len()
    }

    /// Returns `true` if there are no pairs.
    ///
    /// ```
    /// # use sizhetom::Dictionary;
    /// let mut pairs = Dictionary::new();
    /// pairs.insert("a".to_owned(), 1.into());
    /// assert!(!pairs.is_empty());
    /// ```
    pub fn is_empty(&self) -> bool {
        self.pairs.is_empty()
    }

    /// Removes all pairs.
    ///
    /// ```
    /// # use sizhetom::Dictionary;
    /// let mut pairs: Dictionary = [("a".to_owned(), 1.into())].into_iter().collect();
    /// pairs.clear();
    /// assert!(pairs.is_empty());
    /// ```
    pub fn clear(&mut self) {
        mem::take(self);
    }

    /// Returns the value of a key.
    ///
    /// ```
    /// # use sizhetom::Dictionary;
    /// let pairs: Dictionary = [("a".to_owned(), true.into())].into_iter().collect();
    /// assert_eq!(pairs.get("a").and_then(|value| value.as_boolean()), Some(true));
    /// assert_eq!(pairs.get("b"), None);
    /// ```
    pub fn get(&self, key: &str) -> Option<&Value> {
        self.position(key).map(|at| &self.pairs[at].1)
    }

    /// Returns the value of a key, which may be changed.
    ///
    /// ```
    /// # use sizhetom::Dictionary;
    /// let mut pairs: Dictionary = [("a".to_owned(), true.into())].into_iter().collect();
    /// *pairs.get_mut("a").unwrap() = false.into();
    /// assert_eq!(pairs.get("a"), Some(&false.into()));
    /// ```
    pub fn get_mut(&mut self, key: &str) -> Option<&mut Value> {
        self.position(key).map(|at| &mut self.pairs[at].1)
    }

    /// Returns `true` if the dictionary has the key.
    ///
    /// ```
    /// # use sizhetom::Dictionary;
    /// let pairs: Dictionary = [("a".to_owned(), true.into())].into_iter().collect();
    /// assert!(pairs.contains_key("a") && !pairs.contains_key("b"));
    /// ```
    pub fn contains_key(&self, key: &str) -> bool {
        self.position(key).is_some()
    }

    /// Sets the value of a key, and returns its old value. A new pair is the last one; the pair of
    /// a key that exists stays where it is.
    ///
    /// ```
    /// # use sizhetom::Dictionary;
    /// let mut pairs = Dictionary::new();
    /// assert_eq!(pairs.insert("a".to_owned(), 1.into()), None);
    /// assert_eq!(pairs.insert("a".to_owned(), 2.into()), Some(1.into()));
    /// ```
    pub fn insert(&mut self, key: String, value: Value) -> Option<Value> {
        if let Some(at) = self.position(&key) {
            return Some(mem::replace(&mut self.pairs[at].1, value));
        }
        self.pairs.push((key, value));
        self.index_last();
        None
    }

    /// Removes a key, and returns its value. The last pair takes the place of the removed one.
    ///
    /// ```
    /// # use sizhetom::Dictionary;
    /// let mut pairs: Dictionary = [("a".to_owned(), 1.into())].into_iter().collect();
    /// assert_eq!(pairs.remove("a"), Some(1.into()));
    /// assert_eq!(pairs.remove("a"), None);
    /// ```
    pub fn remove(&mut self, key: &str) -> Option<Value> {
        let at = self.position(key)?;
        if let Some(index) = &mut self.index {
            index.remove(&self.pairs, at);
        }
        Some(self.pairs.swap_remove(at).1)
    }

    /// Returns the pairs in order.
    ///
    /// ```
    /// # use sizhetom::Dictionary;
    /// let pairs: Dictionary = [("a".to_owned(), 1.into())].into_iter().collect();
    /// for (key, value) in pairs.iter() {
    ///     println!("{key}: {value:?}");
    /// }
    /// ```
    pub fn iter(&self) -> Iter<'_> {
        Iter {
            pairs: self.pairs.iter(),
        }
    }

    /// Returns the pairs in order. The values may be changed.
    ///
    /// ```
    /// # use sizhetom::Dictionary;
    /// let mut pairs: Dictionary = [("a".to_owned(), 1.into())].into_iter().collect();
    /// for (_, value) in pairs.iter_mut() {
    ///     *value = 2.into();
    /// }
    /// assert_eq!(pairs.get("a"), Some(&2.into()));
    /// ```
    pub fn iter_mut(&mut self) -> impl ExactSizeIterator<Item = (&str, &mut Value)> {
        self.pairs
            .iter_mut()
            .map(|(key, value)| (key.as_str(), value))
    }

    /// Returns the keys in order.
    ///
    /// ```
    /// # use sizhetom::Dictionary;
    /// let pairs: Dictionary = [("a".to_owned(), 1.into())].into_iter().collect();
    /// assert_eq!(pairs.keys().collect::<Vec<_>>(), ["a"]);
    /// ```
    pub fn keys(&self) -> impl ExactSizeIterator<Item = &str> {
        self.iter().map(|(key, _)| key)
    }

    /// Returns the values in order.
    ///
    /// ```
    /// # use sizhetom::Dictionary;
    /// let pairs: Dictionary = [("a".to_owned(), 1.into())].into_iter().collect();
    /// assert_eq!(pairs.values().collect::<Vec<_>>(), [&1.into()]);
    /// ```
    pub fn values(&self) -> impl ExactSizeIterator<Item = &Value> {
        self.iter().map(|(_, value)| value)
    }

    /// Removes the values, and returns them.
    pub(crate) fn take_values(&mut self) -> impl Iterator<Item = Value> {
        self.index = None;
        mem::take(&mut self.pairs)
            .into_iter()
            .map(|(_, value)| value)
    }

    fn position(&self, key: &str) -> Option<usize> {
        match &self.index {
            Some(index) => index.position(&self.pairs, key),
            None => self.pairs.iter().position(|(other, _)| other == key),
        }
    }

    /// Puts the last pair into the index, if there has to be one.
    fn index_last(&mut self) {
        match &mut self.index {
            Some(index) => index.add_last(&self.pairs),
            None if self.pairs.len() > FEW => self.index = Some(Box::new(Index::of(&self.pairs))),
            None => {}
        }
    }
}

/// Two dictionaries are equal if they have the same pairs, in whatever order.
impl PartialEq for Dictionary {
    fn eq(&self, other: &Dictionary) -> bool {
        crate::value::are_equal(self.iter().map(|(key, value)| (value, other.get(key))))
            && self.len() == other.len()
    }
}

impl Eq for Dictionary {}

impl fmt::Debug for Dictionary {
    fn fmt(&self, f: &mut fmt::Formatter<'_>) -> fmt::Result {
        crate::value::Shown::dictionary(self).fmt(f)
    }
}

/// Dropping a dictionary uses little of the call stack, however deep its values nest.
impl Drop for Dictionary {
    fn drop(&mut self) {
        if self.values().any(Value::has_items) {
            drop_all(self.take_values().collect());
        }
    }
}

impl Extend<(String, Value)> for Dictionary {
    fn extend<I: IntoIterator<Item = (String, Value)>>(&mut self, pairs: I) {
        for (key, value) in pairs {
            self.insert(key, value);
        }
    }
}

impl FromIterator<(String, Value)> for Dictionary {
    fn from_iter<I: IntoIterator<Item = (String, Value)>>(pairs: I) -> Dictionary {
        let mut dictionary = Dictionary::new();
        dictionary.extend(pairs);
        dictionary
    }
}

impl IntoIterator for Dictionary {
    type Item = (String, Value);
    type IntoIter = vec::IntoIter<(String, Value)>;

    fn into_iter(mut self) -> Self::IntoIter {
        mem::take(&mut self.pairs).into_iter()
    }
}

impl<'a> IntoIterator for &'a Dictionary {
    type Item = (&'a str, &'a Value);
    type IntoIter = Iter<'a>;

    fn into_iter(self) -> Iter<'a> {
        self.iter()
    }
}

/// An iterator over the pairs of a [`Dictionary`].
///
/// ```
/// use sizhetom::Dictionary;
///
/// let pairs: Dictionary = [("a".to_owned(), 1.into())].into_iter().collect();
/// assert_eq!(pairs.iter().next(), Some(("a", &1.into())));
/// ```
#[derive(Clone, Debug)]
pub struct Iter<'a> {
    pairs: slice::Iter<'a, (String, Value)>,
}

impl<'a> Iterator for Iter<'a> {
    type Item = (&'a str, &'a Value);

    fn next(&mut self) -> Option<Self::Item> {
        self.pairs.next().map(|(key, value)| (key.as_str(), value))
    }

    fn size_hint(&self) -> (usize, Option<usize>) {
        self.pairs.size_hint()
    }
}

impl DoubleEndedIterator for Iter<'_> {
    fn next_back(&mut self) -> Option<Self::Item> {
        self.pairs
            .next_back()
            .map(|(key, value)| (key.as_str(), value))
    }
}

impl ExactSizeIterator for Iter<'_> {}

/// A hash table of the positions of pairs. Its hashes have a random key, so nobody can choose keys
/// that collide.
#[derive(Clone)]
struct Index {
    hasher: RandomState,
    // The position of a pair, `EMPTY` or `REMOVED`.
    slots: Vec<usize>,
    // How many slots aren't `EMPTY`.
    used: usize,
}

/// A slot that never had a pair since the slots were made.
const EMPTY: usize = usize::MAX;

/// A slot whose pair was removed.
const REMOVED: usize = usize::MAX - 1;

impl Index {
    /// Makes the index of these pairs.
    fn of(pairs: &[(String, Value)]) -> Index {
        let mut index = Index {
            hasher: RandomState::new(),
            slots: Vec::new(),
            used: 0,
        };
        index.rebuild(pairs);
        index
    }

    /// Puts all pairs into new slots, of which at most a quarter are then used.
    fn rebuild(&mut self, pairs: &[(String, Value)]) {
        let count = (4 * pairs.len()).next_power_of_two();
        self.slots.clear();
        self.slots.resize(count, EMPTY);
        self.used = pairs.len();
        for (at, (key, _)) in pairs.iter().enumerate() {
            self.add(key, at);
        }
    }

    /// Returns the numbers of the slots in which a key may be, in order. There is always an empty
    /// one among them.
    fn slots_of(&self, key: &str) -> impl Iterator<Item = usize> + use<> {
        let mask = self.slots.len() - 1;
        let start = self.hasher.hash_one(key) as usize;
        (0..).map(move |step| start.wrapping_add(step) & mask)
    }

    fn position(&self, pairs: &[(String, Value)], key: &str) -> Option<usize> {
        for slot in self.slots_of(key) {
            match self.slots[slot] {
                EMPTY => return None,
                REMOVED => {}
                at if pairs[at].0 == key => return Some(at),
                _ => {}
            }
        }
        None
    }

    fn add(&mut self, key: &str, at: usize) {
        let is_empty = |slot: &usize| self.slots[*slot] == EMPTY;
        if let Some(slot) = self.slots_of(key).find(is_empty) {
            self.slots[slot] = at;
        }
    }

    /// Adds the last of these pairs.
    fn add_last(&mut self, pairs: &[(String, Value)]) {
        if 2 * (self.used + 1) > self.slots.len() {
            return self.rebuild(pairs);
        }
        self.used += 1;
        let last = pairs.len() - 1;
        self.add(&pairs[last].0, last);
    }

    /// Removes a pair whose place the last one takes.
    fn remove(&mut self, pairs: &[(String, Value)], at: usize) {
        let last = pairs.len() - 1;
        self.replace(&pairs[at].0, at, REMOVED);
        if at != last {
            self.replace(&pairs[last].0, last, at);
        }
    }

    fn replace(&mut self, key: &str, at: usize, new: usize) {
        let has_pair = |slot: &usize| self.slots[*slot] == at;
        if let Some(slot) = self.slots_of(key).find(has_pair) {
            self.slots[slot] = new;
        }
    }
}
