//! What a store holds: how many keys, which ones by their numbers, and how full its extents are; and what its syncs have
//! done.

use crate::error::{done, Result};
use crate::{sys, Store, MAX_KEY};
use std::fmt;
use std::iter::FusedIterator;
use std::ops::Range;
use std::os::raw::c_void;

/// How much a store holds.
#[derive(Clone, Copy, Debug, PartialEq, Eq, Hash)]
pub struct Counts {
    /// How many keys have a value.
    pub entries: u32,
    /// How many extents there are.
    pub extents: u32,
}

/// A key, and how long its value is.
#[derive(Clone, Copy, PartialEq, Eq, Hash)]
pub struct Entry {
    key: [u8; MAX_KEY],
    key_length: usize,
    value_length: usize,
}

impl Entry {
    /// The key.
    pub fn key(&self) -> &[u8] {
        self.key.get(..self.key_length).unwrap_or(&self.key)
    }

    /// How many bytes the value has.
    pub fn value_length(&self) -> usize {
        self.value_length
    }

    /// The entry that a call tells, or `None`: it is handed a place for the longest key, and one for each length.
    pub(crate) fn told_by(call: impl FnOnce(*mut c_void, &mut usize, &mut usize) -> i32) -> Result<Option<Entry>> {
        let mut entry = Entry { key: [0; MAX_KEY], key_length: 0, value_length: 0 };
        match call(entry.key.as_mut_ptr().cast(), &mut entry.key_length, &mut entry.value_length) {
            sys::FSTCH_ABSENT => Ok(None),
            answer => done(answer).map(|()| Some(entry)),
        }
    }
}

impl fmt::Debug for Entry {
    fn fmt(&self, out: &mut fmt::Formatter<'_>) -> fmt::Result {
        out.debug_struct("Entry").field("key", &self.key()).field("value_length", &self.value_length).finish()
    }
}

/// How full an extent is. A reclaim copies the live bytes, and frees the others.
#[derive(Clone, Copy, Debug, PartialEq, Eq, Hash)]
pub struct Extent {
    /// How many of the appended bytes hold a key with the value that it has.
    pub live: u32,
    /// How many bytes were appended since it was made or won back.
    pub filled: u32,
}

/// What a store holds, and what its syncs have done.
#[derive(Clone, Copy, Debug, PartialEq, Eq, Hash)]
pub struct Statistics {
    /// How many keys have a value.
    pub keys: u32,
    /// How many pieces of changes haven't reached the file, as of [`Store::unsynced`].
    pub unsynced: u32,
    /// How many bytes keys and values take in the extents, with 16 more each.
    pub live_bytes: u64,
    /// How many bytes the file has.
    pub file_bytes: u64,
    /// How many extents there are.
    pub extents: u32,
    /// How many extents have nothing in them.
    pub empty_extents: u32,
    /// How many syncs were done since the store was opened.
    pub syncs: u64,
    /// How many waves these syncs wrote.
    pub waves: u64,
}

impl From<sys::fstch_statistics> for Statistics {
    fn from(told: sys::fstch_statistics) -> Statistics {
        Statistics {
            keys: told.keys,
            unsynced: told.unsynced,
            live_bytes: told.live_bytes,
            file_bytes: told.file_bytes,
            extents: told.extents,
            empty_extents: told.empty_extents,
            syncs: told.syncs,
            waves: told.waves,
        }
    }
}

impl Store {
    /// How many keys have a value, and how many extents there are.
    ///
    /// # Errors
    /// [`OutOfMemory`](crate::Error::OutOfMemory).
    pub fn check(&self) -> Result<Counts> {
        let mut counts = Counts { entries: 0, extents: 0 };
        // SAFETY: the handle is this store's alone, and the two places are apart.
        done(unsafe { sys::fstch_check(self.handle(), &mut counts.entries, &mut counts.extents) })?;
        Ok(counts)
    }

    /// The entry of this number, from 0 to one less than [`Store::check`] counts; or `None`. The numbers stay while no
    /// new key is put and none is deleted.
    ///
    /// # Errors
    /// None that the header knows of an open store.
    pub fn entry(&self, number: u32) -> Result<Option<Entry>> {
        Entry::told_by(|key, key_length, value_length| {
            // SAFETY: the handle is this store's alone, the buffer is as long as is said, and the places are apart.
            unsafe { sys::fstch_entry(self.handle(), number, key, MAX_KEY, key_length, value_length) }
        })
    }

    /// All entries, in the order of their numbers. They borrow the store, so that no key is put or deleted meanwhile:
    ///
    /// ```compile_fail,E0502
    /// fn clear(store: &mut fstch::Store) -> fstch::Result<()> {
    ///     for entry in store.entries() {
    ///         store.delete(entry.key())?;
    ///     }
    ///     Ok(())
    /// }
    /// ```
    pub fn entries(&self) -> Entries<'_> {
        Entries { store: self, numbers: 0..u32::MAX }
    }

    /// How full an extent is. Extents are numbered from 0.
    ///
    /// # Errors
    /// [`NoSuchExtent`](crate::Error::NoSuchExtent).
    pub fn extent(&self, extent: u32) -> Result<Extent> {
        let mut found = Extent { live: 0, filled: 0 };
        // SAFETY: the handle is this store's alone, and the two places are apart.
        done(unsafe { sys::fstch_extent(self.handle(), extent, &mut found.live, &mut found.filled) })?;
        Ok(found)
    }

    /// How full each extent is, from extent 0 on. They borrow the store.
    pub fn extents(&self) -> Extents<'_> {
        Extents { store: self, numbers: 0..u32::MAX }
    }

    /// How many pieces of changes haven't reached the file: 0 where a sync has nothing to do. A put has several pieces.
    ///
    /// # Errors
    /// None that the header knows of an open store.
    pub fn unsynced(&self) -> Result<u32> {
        let mut changes = 0;
        // SAFETY: the handle is this store's alone, and the place is apart from it.
        done(unsafe { sys::fstch_unsynced(self.handle(), &mut changes) })?;
        Ok(changes)
    }

    /// What the store holds, and what its syncs have done. It takes no memory, and about as long as there are extents.
    ///
    /// # Errors
    /// None that the header knows of an open store.
    pub fn statistics(&self) -> Result<Statistics> {
        let mut told = sys::fstch_statistics::default();
        // SAFETY: the handle is this store's alone, and the place is apart from it.
        done(unsafe { sys::fstch_stats(self.handle(), &mut told) })?;
        Ok(told.into())
    }
}

/// The entries of a store, of [`Store::entries`].
#[derive(Debug)]
pub struct Entries<'a> {
    store: &'a Store,
    numbers: Range<u32>,
}

impl Iterator for Entries<'_> {
    type Item = Entry;

    fn next(&mut self) -> Option<Entry> {
        let number = self.numbers.next()?;
        // (the first number that has no entry is past the last one, and the header has no other refusal of an open
        // store)
        self.store.entry(number).ok().flatten()
    }
}

impl FusedIterator for Entries<'_> {}

/// The extents of a store, of [`Store::extents`].
#[derive(Debug)]
pub struct Extents<'a> {
    store: &'a Store,
    numbers: Range<u32>,
}

impl Iterator for Extents<'_> {
    type Item = Extent;

    fn next(&mut self) -> Option<Extent> {
        let number = self.numbers.next()?;
        // (as of entries: the first refusal is that of a number past the last one)
        self.store.extent(number).ok()
    }
}

impl FusedIterator for Extents<'_> {}
