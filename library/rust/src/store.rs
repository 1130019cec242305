//! A store: its file, and its values.

use crate::error::{done, telling, Error, Result};
use crate::options::{Geometry, Options};
use crate::{sys, MAX_KEY, NO_WRITER};
use std::cell::UnsafeCell;
use std::ffi::CString;
use std::os::raw::c_char;
use std::os::unix::ffi::OsStrExt;
use std::path::Path;
use std::{fmt, io};

/// An open store. It is closed when it is dropped, without a sync.
///
/// Any thread may make its calls, one at a time: so it is `Send` and not `Sync`, and a `Mutex<Store>` is what threads
/// share. Two threads may each have a store of their own at the same time.
///
/// ```
/// # use fstch::{Geometry, Store};
/// # use std::sync::Mutex;
/// # let path = std::env::temp_dir().join(format!("fstch-store-{}", std::process::id()));
/// Store::make(&path, Geometry { index_blocks: 1, extents: 4, extent_blocks: 0 })?;
/// let store = Mutex::new(Store::open(&path)?);
/// std::thread::scope(|threads| {
///     for key in [b"one", b"two"] {
///         let store = &store;
///         threads.spawn(move || store.lock().unwrap().put(key, b"value").unwrap());
///     }
/// });
/// let mut store = store.into_inner()?;
/// store.sync()?;
/// assert_eq!(store.check()?.entries, 2);
/// # drop(store);
/// # std::fs::remove_file(&path)?;
/// # Ok::<(), Box<dyn std::error::Error>>(())
/// ```
///
/// Two threads can't have one without a lock:
///
/// ```compile_fail,E0277
/// fn share(store: &fstch::Store) {
///     std::thread::scope(|threads| {
///         threads.spawn(|| store.get(b"key"));
///     });
/// }
/// ```
///
/// What is closed is not used any more:
///
/// ```compile_fail,E0382
/// fn close_and_read(store: fstch::Store) -> fstch::Result<()> {
///     store.close()?;
///     store.get(b"key")?;
///     Ok(())
/// }
/// ```
pub struct Store {
    /// In a cell, since the calls that take a const store write to its bytes too, while they last.
    handle: UnsafeCell<sys::fstch_store>,
}

// SAFETY: any thread may make calls on a store, as the header says, with a lock between where there are several:
// whoever brings a store to another thread has that.
unsafe impl Send for Store {}

impl Store {
    /// Makes a file that holds an empty store, and doesn't open it. What has the name already is left alone, and a file
    /// that can't be finished is removed. The file and the directory that it stands in are synced, so that the name
    /// lasts too.
    ///
    /// The file is made under another name, `.fstch-` with two digits in the same directory, and linked to its own when
    /// it is whole. It is given room for all its blocks, so that no later sync needs more.
    ///
    /// # Errors
    /// [`Geometry`](Error::Geometry), [`OutOfMemory`](Error::OutOfMemory), [`Disk`](Error::Disk).
    pub fn make(path: impl AsRef<Path>, geometry: Geometry) -> Result<()> {
        let Geometry { index_blocks, extents, extent_blocks } = geometry;
        let path = name_of(path.as_ref())?;
        // SAFETY: the path ends with a 0 byte.
        done(unsafe { sys::fstch_make(path.as_ptr(), index_blocks, extents, extent_blocks) })
    }

    /// Opens the store of a file, and locks the file until it is closed or the program ends. The file is synced, so
    /// that what it shows lasts, and then read whole from the disk. An open store takes as much memory as the file
    /// has bytes, and more for what is not synced; opening takes twice as much, and a sync as much again as it writes.
    ///
    /// # Errors
    /// [`Disk`](Error::Disk), [`InUse`](Error::InUse), [`FileSize`](Error::FileSize),
    /// [`OutOfMemory`](Error::OutOfMemory), [`BadSuper`](Error::BadSuper), [`BadPointer`](Error::BadPointer),
    /// [`BadSlot`](Error::BadSlot), [`BadFrame`](Error::BadFrame), [`DuplicateKey`](Error::DuplicateKey).
    pub fn open(path: impl AsRef<Path>) -> Result<Store> {
        Store::opened_by(path.as_ref(), |handle, path, slot| {
            // SAFETY: the handle is closed and nobody else's, the path ends with a 0 byte, and the slot is apart from
            // both.
            unsafe { sys::fstch_open(handle, path, slot) }
        })
    }

    /// As [`Store::open`], with flags.
    ///
    /// # Errors
    /// Those of [`Store::open`].
    pub fn open_with(path: impl AsRef<Path>, options: Options) -> Result<Store> {
        Store::opened_by(path.as_ref(), |handle, path, slot| {
            // SAFETY: as of fstch_open; and Options has no bits but those of the header's flags.
            unsafe { sys::fstch_open_with(handle, path, options.flags, slot) }
        })
    }

    fn opened_by(
        path: &Path,
        open: impl FnOnce(*mut sys::fstch_store, *const c_char, *mut u32) -> i32,
    ) -> Result<Store> {
        let path = name_of(path)?;
        let store = Store::closed();
        let mut slot = u32::MAX;
        telling(open(store.handle(), path.as_ptr(), &mut slot), slot)?;
        // (it moves from here to the caller, as the header allows)
        Ok(store)
    }

    fn closed() -> Store {
        Store { handle: UnsafeCell::new(sys::FSTCH_CLOSED) }
    }

    /// The handle, for one call. It is this store's alone, which is what the header wants of a store: nothing copies it
    /// but a move of the whole; one thread at a time has the store, since that is not `Sync`; and a call is over before
    /// another begins, since the library calls nothing that is given to it.
    pub(crate) fn handle(&self) -> *mut sys::fstch_store {
        self.handle.get()
    }

    /// Closes the store. It does not sync: what was not synced is lost.
    ///
    /// # Errors
    /// None that the header knows of an open store.
    pub fn close(self) -> Result<()> {
        // SAFETY: the handle is this store's alone. The drop behind it finds it closed.
        done(unsafe { sys::fstch_close(self.handle()) })
    }

    /// Brings all changes to the file, and waits until the system lets them last. They are written in waves, and the
    /// file is synced behind each wave: nothing is written before what it rests on lasts.
    ///
    /// Behind a sync the store begins anew where more than 1,048,576 changes or 512 groups were made since it was
    /// opened or last did, and each group is closed or was never engaged. So it is never spent. Nobody sees that but by
    /// the numbers of groups, which begin at 0 again: that of a closed group may come again, and there is no group any
    /// more that was never engaged.
    ///
    /// With `DeviceGaveUp`, `OutOfMemory` and `NoSync` some changes may have reached the file and others not, in their
    /// order. From then on the store answers each sync with `NoSync`: close it and open it again. The open reads
    /// what the disk has, and not what the system still shows of a sync that failed.
    ///
    /// # Errors
    /// [`IsReadOnly`](Error::IsReadOnly), [`OutOfMemory`](Error::OutOfMemory), [`DeviceGaveUp`](Error::DeviceGaveUp),
    /// [`NoSync`](Error::NoSync).
    pub fn sync(&mut self) -> Result<()> {
        // SAFETY: the handle is this store's alone.
        done(unsafe { sys::fstch_sync(self.handle()) })
    }

    /// Puts a value under a key, in place of the one that it had, by no writer. Room is won back as by
    /// [`Store::put_by`].
    ///
    /// # Errors
    /// Those of [`Store::put_by`].
    pub fn put(&mut self, key: &[u8], value: &[u8]) -> Result<()> {
        self.put_by(NO_WRITER, key, value)
    }

    /// Puts a value under a key, in place of the one that it had. The writer is 0 to 6, or [`NO_WRITER`].
    ///
    /// Where of 16 extents or more one at most is empty, or of 48 or more two, values of the one with the fewest live
    /// bytes may move elsewhere behind the put, ahead of the need for its room: eight at most, while the extent that is
    /// written to has room for all of them. Of 48 extents or more they move where an eighth of that one is dead, and all
    /// at once, where the extent that is written to is soon full, or has no room for them and two are empty. Where no
    /// extent has room for the put, that one is won back whole first, and where none was empty a second one. So a put
    /// may take as long as a reclaim. Neither is so in a store that was opened with [`Options::manual`]. Where an
    /// extent was empty one is so behind the put, unless there was no memory, and then
    /// [`NoSpace`](Error::NoSpace) comes of a full store alone: where [`Store::statistics`] tells more live bytes than
    /// (extents - 2) * (bytes of an extent - bytes of the value, its key and 16 more), or an extent can't be won back
    /// any more. With [`NoSpace`](Error::NoSpace), [`NumbersSpent`](Error::NumbersSpent),
    /// [`TooManyLive`](Error::TooManyLive) and [`OutOfMemory`](Error::OutOfMemory) extents may have been won back; each
    /// key has the value that it had.
    ///
    /// # Errors
    /// [`BadWriter`](Error::BadWriter), [`KeyLength`](Error::KeyLength), [`ValueLength`](Error::ValueLength),
    /// [`IndexFull`](Error::IndexFull), [`NoSpace`](Error::NoSpace), [`NumbersSpent`](Error::NumbersSpent),
    /// [`TooManyLive`](Error::TooManyLive), [`OutOfMemory`](Error::OutOfMemory).
    pub fn put_by(&mut self, writer: u32, key: &[u8], value: &[u8]) -> Result<()> {
        // A caller may give one slice as key and value, and the header wants buffers that don't overlap. Of a key that
        // is too long one byte too many is copied: it is refused like the whole.
        let mut copy = [0_u8; MAX_KEY + 1];
        let length = key.len().min(copy.len());
        copy.iter_mut().zip(key).for_each(|(into, byte)| *into = *byte);
        // SAFETY: the handle is this store's alone, each buffer is as long as is said, and the key's copy is apart from
        // the value.
        done(unsafe {
            sys::fstch_put(self.handle(), writer, copy.as_ptr().cast(), length, value.as_ptr().cast(), value.len())
        })
    }

    /// The value of a key, or `None` where it has none.
    ///
    /// # Errors
    /// [`KeyLength`](Error::KeyLength), [`OutOfMemory`](Error::OutOfMemory).
    pub fn get(&self, key: &[u8]) -> Result<Option<Vec<u8>>> {
        let mut value = Vec::new();
        Ok(self.get_into(key, &mut value)?.then_some(value))
    }

    /// Whether the key has a value. If so, `into` becomes the value, and its memory is used again as far as it is
    /// enough; else it stays, as it does where the call is refused.
    ///
    /// # Errors
    /// [`KeyLength`](Error::KeyLength), [`OutOfMemory`](Error::OutOfMemory).
    pub fn get_into(&self, key: &[u8], into: &mut Vec<u8>) -> Result<bool> {
        loop {
            let mut length = 0;
            // SAFETY: it is the memory of a vector that is borrowed mutably, all of it.
            match unsafe { self.get_raw(key, into.as_mut_ptr(), into.capacity(), &mut length) } {
                sys::FSTCH_DONE => {
                    // SAFETY: so many bytes were copied to the front, which has no fewer: else the answer would be
                    // FSTCH_BUFFER_TOO_SMALL.
                    unsafe { into.set_len(length) };
                    return Ok(true);
                }
                sys::FSTCH_ABSENT => return Ok(false),
                sys::FSTCH_BUFFER_TOO_SMALL => {
                    let more = length.saturating_sub(into.len());
                    into.try_reserve(more).map_err(|_| Error::OutOfMemory)?;
                }
                answer => return done(answer).map(|()| false),
            }
        }
    }

    /// How many bytes the value of a key has, or `None` where it has none.
    ///
    /// # Errors
    /// [`KeyLength`](Error::KeyLength), [`OutOfMemory`](Error::OutOfMemory).
    pub fn value_length(&self, key: &[u8]) -> Result<Option<usize>> {
        let mut length = 0;
        // SAFETY: it has no byte, and so may be anywhere.
        match unsafe { self.get_raw(key, std::ptr::NonNull::dangling().as_ptr(), 0, &mut length) } {
            sys::FSTCH_DONE | sys::FSTCH_BUFFER_TOO_SMALL => Ok(Some(length)),
            sys::FSTCH_ABSENT => Ok(None),
            answer => done(answer).map(|()| None),
        }
    }

    /// The answer of fstch_get.
    ///
    /// # Safety
    /// `into` isn't null, and has `room` bytes that may be written, apart from the key; what they hold isn't read.
    unsafe fn get_raw(&self, key: &[u8], into: *mut u8, room: usize, length: &mut usize) -> i32 {
        // SAFETY: the handle is this store's alone, the key is as long as is said, and `into` is as the caller owes it:
        // the call copies the value to its front, and leaves what is behind it.
        unsafe { sys::fstch_get(self.handle(), key.as_ptr().cast(), key.len(), into.cast(), room, length) }
    }

    /// Takes a key and its value away, by no writer. A put that needs the room wins it back, or [`Store::reclaim`].
    ///
    /// # Errors
    /// Those of [`Store::delete_by`].
    pub fn delete(&mut self, key: &[u8]) -> Result<()> {
        self.delete_by(NO_WRITER, key)
    }

    /// Takes a key and its value away. A put that needs the room wins it back, or [`Store::reclaim`]. The writer is 0
    /// to 6, or [`NO_WRITER`].
    ///
    /// # Errors
    /// [`BadWriter`](Error::BadWriter), [`KeyLength`](Error::KeyLength), [`NoKey`](Error::NoKey),
    /// [`NumbersSpent`](Error::NumbersSpent), [`TooManyLive`](Error::TooManyLive),
    /// [`OutOfMemory`](Error::OutOfMemory).
    pub fn delete_by(&mut self, writer: u32, key: &[u8]) -> Result<()> {
        // SAFETY: the handle is this store's alone, and the key is as long as is said.
        done(unsafe { sys::fstch_delete(self.handle(), writer, key.as_ptr().cast(), key.len()) })
    }

    /// Moves what is live in an extent elsewhere, and empties it. Extents are numbered from 0.
    ///
    /// # Errors
    /// [`NoSuchExtent`](Error::NoSuchExtent), [`EmptyExtent`](Error::EmptyExtent), [`OpenExtent`](Error::OpenExtent),
    /// [`GenerationSpent`](Error::GenerationSpent), [`NoSpace`](Error::NoSpace), [`NumbersSpent`](Error::NumbersSpent),
    /// [`TooManyLive`](Error::TooManyLive), [`OutOfMemory`](Error::OutOfMemory).
    pub fn reclaim(&mut self, extent: u32) -> Result<()> {
        // SAFETY: the handle is this store's alone.
        done(unsafe { sys::fstch_reclaim(self.handle(), extent) })
    }
}

impl Drop for Store {
    fn drop(&mut self) {
        // SAFETY: the handle is this store's alone. A forked child may close its store too. What is closed isn't used
        // any more.
        unsafe {
            if sys::fstch_is_open(self.handle()) {
                sys::fstch_close(self.handle());
            }
        }
    }
}

impl fmt::Debug for Store {
    fn fmt(&self, out: &mut fmt::Formatter<'_>) -> fmt::Result {
        out.debug_struct("Store").finish_non_exhaustive()
    }
}

/// A path as the library takes it. It would end at a 0 byte: so one that has such a byte is refused, as the files of
/// Rust refuse it.
fn name_of(path: &Path) -> Result<CString> {
    CString::new(path.as_os_str().as_bytes()).map_err(|why| Error::Disk(io::Error::from(why)))
}

#[cfg(test)]
mod tests {
    use super::*;

    /// A store that is closed, which no program can have.
    #[test]
    fn closed_stores_are_refused() {
        let mut store = Store::closed();
        assert!(matches!(store.sync(), Err(Error::NotOpen)));
        assert!(matches!(store.put(b"key", b"value"), Err(Error::NotOpen)));
        assert!(matches!(store.get(b"key"), Err(Error::NotOpen)));
        assert!(matches!(store.value_length(b"key"), Err(Error::NotOpen)));
        assert!(matches!(store.delete(b"key"), Err(Error::NotOpen)));
        assert!(matches!(store.reclaim(0), Err(Error::NotOpen)));
        assert!(matches!(store.check(), Err(Error::NotOpen)));
        assert!(matches!(store.entry(0), Err(Error::NotOpen)));
        assert!(matches!(store.next_key(b""), Err(Error::NotOpen)));
        assert!(matches!(store.previous_key(b"key"), Err(Error::NotOpen)));
        assert!(matches!(store.last_key(), Err(Error::NotOpen)));
        assert!(matches!(store.extent(0), Err(Error::NotOpen)));
        assert!(matches!(store.unsynced(), Err(Error::NotOpen)));
        assert!(matches!(store.statistics(), Err(Error::NotOpen)));
        assert!(matches!(store.group(), Err(Error::NotOpen)));
        assert_eq!((store.entries().count(), store.extents().count()), (0, 0));
        assert_eq!((store.range(..).count(), store.range(..).rev().count()), (0, 0));
        assert!(matches!(store.close(), Err(Error::NotOpen)));
    }
}
