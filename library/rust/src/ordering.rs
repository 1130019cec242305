//! Keys in order: of two keys the first byte that differs decides, and else the shorter one comes first.

use crate::error::Result;
use crate::{sys, Entry, Store, MAX_KEY};
use std::iter::FusedIterator;
use std::ops::{Bound, RangeBounds};

impl Store {
    /// The least key from this one on, which may be itself, or `None`. `from` may have any length: with 0 bytes it
    /// comes before all keys, and a key with a 0 byte more behind it comes right behind the key.
    ///
    /// A call takes about as long however many keys there are, and keys may be put and deleted between two.
    ///
    /// # Errors
    /// None that the header knows of an open store.
    pub fn next_key(&self, from: &[u8]) -> Result<Option<Entry>> {
        Entry::told_by(|key, key_length, value_length| {
            let (at, length) = (from.as_ptr().cast(), from.len());
            // SAFETY: the handle is this store's alone, each buffer is as long as is said, and the places are apart.
            unsafe { sys::fstch_next(self.handle(), at, length, key, MAX_KEY, key_length, value_length) }
        })
    }

    /// The greatest key that comes before this one, which may have any length, or `None`.
    ///
    /// # Errors
    /// None that the header knows of an open store.
    pub fn previous_key(&self, before: &[u8]) -> Result<Option<Entry>> {
        Entry::told_by(|key, key_length, value_length| {
            let (at, length) = (before.as_ptr().cast(), before.len());
            // SAFETY: the handle is this store's alone, each buffer is as long as is said, and the places are apart.
            unsafe { sys::fstch_previous(self.handle(), at, length, key, MAX_KEY, key_length, value_length) }
        })
    }

    /// The greatest key of all, or `None`.
    ///
    /// # Errors
    /// None that the header knows of an open store.
    pub fn last_key(&self) -> Result<Option<Entry>> {
        Entry::told_by(|key, key_length, value_length| {
            // SAFETY: the handle is this store's alone, the buffer is as long as is said, and the places are apart.
            unsafe { sys::fstch_last(self.handle(), key, MAX_KEY, key_length, value_length) }
        })
    }

    /// The entries of the keys in a range, in order, from either end. Its bounds may have any length, and one that ends
    /// before it begins has no keys. They borrow the store, so that no key is put or deleted meanwhile.
    ///
    /// ```
    /// # use fstch::{Geometry, Store};
    /// # let path = std::env::temp_dir().join(format!("fstch-range-{}", std::process::id()));
    /// # Store::make(&path, Geometry { index_blocks: 1, extents: 4, extent_blocks: 0 })?;
    /// # let mut store = Store::open(&path)?;
    /// for key in ["b", "a", "ab", "c"] {
    ///     store.put(key.as_bytes(), b"value")?;
    /// }
    /// let (first, end): (&[u8], &[u8]) = (b"ab", b"c");
    /// let keys: Vec<_> = store.range(first..end).map(|entry| entry.key().to_vec()).collect();
    /// assert_eq!(keys, [&b"ab"[..], b"b"]);
    /// assert_eq!(store.range(..).rev().next().unwrap().key(), b"c");
    /// # drop(store);
    /// # std::fs::remove_file(&path)?;
    /// # Ok::<(), Box<dyn std::error::Error>>(())
    /// ```
    ///
    /// ```compile_fail,E0502
    /// fn clear(store: &mut fstch::Store) -> fstch::Result<()> {
    ///     for entry in store.range(..) {
    ///         store.delete(entry.key())?;
    ///     }
    ///     Ok(())
    /// }
    /// ```
    pub fn range<'k>(&self, range: impl RangeBounds<&'k [u8]>) -> KeyRange<'_> {
        let from = match range.start_bound() {
            Bound::Included(key) => Place::of(key),
            Bound::Excluded(key) => Place::behind(key),
            Bound::Unbounded => Place::of(&[]),
        };
        let before = match range.end_bound() {
            Bound::Included(key) => Some(Place::behind(key)),
            Bound::Excluded(key) => Some(Place::of(key)),
            Bound::Unbounded => None,
        };
        KeyRange { store: self, from, before }
    }
}

/// A place in the order of keys: bytes, of which one more than the longest key has are enough to tell which keys come
/// before them.
#[derive(Clone, Copy, Debug)]
struct Place {
    bytes: [u8; MAX_KEY + 1],
    length: usize,
}

impl Place {
    /// Where this key is, or would be.
    fn of(key: &[u8]) -> Place {
        let mut place = Place { bytes: [0; MAX_KEY + 1], length: key.len().min(MAX_KEY + 1) };
        place.bytes.iter_mut().zip(key).for_each(|(into, byte)| *into = *byte);
        place
    }

    /// Right behind it: a 0 byte more is there already. (No key is equal to a longer one than the longest.)
    fn behind(key: &[u8]) -> Place {
        let Place { bytes, length } = Place::of(key);
        Place { bytes, length: (length + 1).min(MAX_KEY + 1) }
    }

    fn bytes(&self) -> &[u8] {
        self.bytes.get(..self.length).unwrap_or(&self.bytes)
    }
}

/// The entries of a range of keys, in order, of [`Store::range`].
#[derive(Clone, Debug)]
pub struct KeyRange<'a> {
    store: &'a Store,
    /// No key before this is left.
    from: Place,
    /// No key from this on is left.
    before: Option<Place>,
}

// (the header has no refusal of an open store but that there is no such key)
impl Iterator for KeyRange<'_> {
    type Item = Entry;

    fn next(&mut self) -> Option<Entry> {
        let entry = self.store.next_key(self.from.bytes()).ok().flatten()?;
        let is_left = self.before.map_or(true, |before| entry.key() < before.bytes());
        self.from = Place::behind(entry.key());
        is_left.then_some(entry)
    }
}

impl DoubleEndedIterator for KeyRange<'_> {
    fn next_back(&mut self) -> Option<Entry> {
        let found = match self.before {
            Some(before) => self.store.previous_key(before.bytes()),
            None => self.store.last_key(),
        };
        let entry = found.ok().flatten()?;
        let is_left = self.from.bytes() <= entry.key();
        self.before = Some(Place::of(entry.key()));
        is_left.then_some(entry)
    }
}

impl FusedIterator for KeyRange<'_> {}
