//! The patch cache itself, for a program that has its own layout of blocks and does its own reads and writes.
//!
//! ```
//! # use std::{fs::File, os::unix::fs::FileExt};
//! # let path = std::env::temp_dir().join(format!("fstch-cache-{}", std::process::id()));
//! # let file = File::options().read(true).write(true).create(true).open(&path)?;
//! # file.set_len(2 * 4096)?;
//! use fstch::cache::{Cache, BLOCK};
//!
//! let mut cache = Cache::open(2)?;
//! let mut bytes = [0; BLOCK];
//! for block in 0..2 {
//!     file.read_exact_at(&mut bytes, u64::from(block) * BLOCK as u64)?;
//!     cache.admit(block, &bytes)?;
//! }
//! let data = cache.patch(1, 0, b"data", &[])?;
//! cache.patch(0, 0, b"name", &[data])?; // reaches the file after the data
//! loop {
//!     let mut wave = Vec::new();
//!     while let Some(block) = cache.next()? {
//!         let flight = cache.send(block)?;
//!         file.write_all_at(flight.image(), u64::from(block) * BLOCK as u64)?;
//!         wave.push(flight);
//!     }
//!     if wave.is_empty() {
//!         break;
//!     }
//!     file.sync_data()?; // once for each wave, and before any of it is completed
//!     for flight in wave {
//!         cache.complete(flight)?;
//!     }
//! }
//! cache.close()?;
//! # file.read_exact_at(&mut bytes, 0)?;
//! # assert_eq!(&bytes[..4], b"name");
//! # std::fs::remove_file(&path)?;
//! # Ok::<(), Box<dyn std::error::Error>>(())
//! ```
//!
//! It does no I/O of its own. A disk is so many blocks of 4,096 bytes, of which the cache has those that it was handed. A
//! patch puts bytes into one block, and names patches that have to be on the disk before it. A block can be written
//! while some of its patches still wait for others: these are taken back in the image, and stay in the cache.
//!
//! Whenever the program ends or the power is cut, the disk has what it had when the cache was opened, with some of the
//! patches laid on it, in each block in the order of their making; and with each patch that it has all that this depends
//! on. It has all that are durable. That is so as long as the program keeps to this, which no type sees to:
//!
//! - A flight is completed when no later write can reach the disk before its image: behind an fsync or fdatasync that
//!   succeeded, where a system or a disk may put off writes or change their order.
//! - A write of a block is done whole or not at all, whenever the power is cut.
//! - What is admitted is what the disk has, and lasts there. Nobody else writes to a block.
//! - An image goes to its own block. Where the write failed, it is written again, or the cache is closed. Behind a sync
//!   that failed it is closed, and the blocks are read anew.
//! - [`Cache::renew`] begins to count patches, writes and groups from 0 again: no number from before it is used behind it.
//! - In a child that was forked while a cache was open nothing is done with it but that it is closed or dropped, and no
//!   call is made from a signal handler. Without `unsafe` no program of Rust has such a child or handler.
//!
//! Each method is a call of the header `fstch_cache.h`, and answers what that answers: [`Error`] has a variant for each
//! refusal.

mod error;
mod groups;

pub use error::{Error, Result};
pub use groups::Group;

use crate::sys;
use error::{done, telling};
use std::cell::UnsafeCell;
use std::fmt;

/// The bytes of a block.
pub const BLOCK: usize = sys::FSTCH_BLOCK;

/// The most blocks of a cache.
pub const MAX_BLOCKS: u32 = sys::FSTCH_MAX_BLOCKS;

/// The most patches that are in memory or in flight.
pub const MAX_LIVE: u32 = sys::FSTCH_MAX_LIVE;

/// Where a patch is.
#[derive(Clone, Copy, Debug, PartialEq, Eq, Hash)]
pub enum Mark {
    /// It waits in memory.
    Memory = sys::FSTCH_MARK_MEMORY as isize,
    /// Its write is under way.
    Flight = sys::FSTCH_MARK_FLIGHT as isize,
    /// The disk has it.
    Durable = sys::FSTCH_MARK_DURABLE as isize,
}

/// Whether a cache may forget the bytes that a patch overwrites.
#[derive(Clone, Copy, Debug, PartialEq, Eq, Hash)]
pub enum Undo {
    /// It keeps them.
    Keep,
    /// It may forget them where it never has to take the patch back: where all that the patch depends on is durable, or
    /// hard and of its own block. Such a patch is hard: it isn't merged, and can't be left out.
    MayDrop,
}

/// How many blocks and patches there are.
#[derive(Clone, Copy, Debug, Default, PartialEq, Eq, Hash)]
pub struct Counts {
    /// How many blocks there are, resident or not.
    pub blocks: u32,
    /// How many patches were made since the cache was opened or renewed.
    pub made: u32,
    /// How many of them are in memory or in flight.
    pub live: u32,
    /// A number below which all of them are durable.
    pub durable_below: u32,
}

/// A write that was begun, with its image. It is completed once, since [`Cache::complete`] takes it:
///
/// ```compile_fail,E0382
/// fn twice(cache: &mut fstch::cache::Cache, flight: fstch::cache::Flight) -> fstch::cache::Result<()> {
///     cache.complete(flight)?;
///     cache.complete(flight)
/// }
/// ```
///
/// To the cache it is two plain numbers. So it may be turned into these, kept elsewhere, and looked up again by
/// [`Cache::flight`]; one that is dropped is under way as before.
#[derive(Debug, PartialEq, Eq)]
#[must_use = "a write that is never completed is under way until the cache is closed"]
pub struct Flight {
    block: u32,
    number: u32,
    image: Vec<u8>,
}

impl Flight {
    /// The block that it writes.
    pub fn block(&self) -> u32 {
        self.block
    }

    /// How many writes of the cache had begun before it.
    pub fn number(&self) -> u32 {
        self.number
    }

    /// The [`BLOCK`] bytes that go to the block.
    pub fn image(&self) -> &[u8] {
        &self.image
    }

    /// Its block and its number, by which [`Cache::flight`] finds it again.
    pub fn into_numbers(self) -> (u32, u32) {
        (self.block, self.number)
    }
}

/// An open cache, with its groups and the writes that are under way. It is closed when it is dropped: what is in memory
/// or in flight then is lost.
///
/// Any thread may make its calls, one at a time: so it is `Send` and not `Sync`, and a `Mutex<Cache>` is what threads
/// share.
///
/// ```compile_fail,E0277
/// fn share(cache: &fstch::cache::Cache) {
///     std::thread::scope(|threads| {
///         threads.spawn(|| cache.next());
///     });
/// }
/// ```
pub struct Cache {
    /// In a cell, since the calls that only look write to its bytes too, while they last.
    handle: UnsafeCell<sys::fstch_cache>,
}

// SAFETY: any thread may make calls on a cache, as the header says, with a lock between where there are several:
// whoever brings a cache to another thread has that.
unsafe impl Send for Cache {}

impl Cache {
    /// Opens a cache of 1 to [`MAX_BLOCKS`] blocks, of which none is resident.
    ///
    /// # Errors
    /// [`FileSize`](Error::FileSize), [`OutOfMemory`](Error::OutOfMemory).
    pub fn open(blocks: u32) -> Result<Cache> {
        let cache = Cache::closed();
        // SAFETY: the handle is closed and nobody else's. (It moves from here to the caller, as the header allows.)
        done(unsafe { sys::fstch_cache_open(cache.handle(), blocks) })?;
        Ok(cache)
    }

    fn closed() -> Cache {
        Cache { handle: UnsafeCell::new(sys::CLOSED_CACHE) }
    }

    /// The handle, for one call. It is this cache's alone, which is what the header wants of a cache: nothing copies it
    /// but a move of the whole; one thread at a time has the cache, since that is not `Sync`; and a call is over before
    /// another begins, since the library calls nothing that is given to it.
    pub(crate) fn handle(&self) -> *mut sys::fstch_cache {
        self.handle.get()
    }

    /// Closes the cache, whatever is in memory or in flight: the disk has what a crash may leave.
    ///
    /// # Errors
    /// None that the header knows of an open cache.
    pub fn close(self) -> Result<()> {
        // SAFETY: the handle is this cache's alone. The drop behind it finds it closed.
        done(unsafe { sys::fstch_cache_close(self.handle()) })
    }

    /// Makes a block resident: `bytes` are what the disk has of it now. They are copied. Blocks are numbered from 0.
    ///
    /// # Errors
    /// [`NoSuchBlock`](Error::NoSuchBlock), [`IsResident`](Error::IsResident), [`OutOfMemory`](Error::OutOfMemory).
    pub fn admit(&mut self, block: u32, bytes: &[u8; BLOCK]) -> Result<()> {
        // SAFETY: the handle is this cache's alone, and the bytes are as many as the call reads.
        done(unsafe { sys::fstch_cache_admit(self.handle(), block, bytes.as_ptr().cast()) })
    }

    /// Lets a block go, and its memory, of which no patch is in memory or in flight.
    ///
    /// # Errors
    /// [`NoSuchBlock`](Error::NoSuchBlock), [`NotResident`](Error::NotResident), [`Live`](Error::Live).
    pub fn evict(&mut self, block: u32) -> Result<()> {
        // SAFETY: the handle is this cache's alone.
        done(unsafe { sys::fstch_cache_evict(self.handle(), block) })
    }

    /// Whether the block is resident.
    ///
    /// # Errors
    /// [`NoSuchBlock`](Error::NoSuchBlock).
    pub fn is_resident(&self, block: u32) -> Result<bool> {
        match self.read(block, 0, &mut []) {
            Err(Error::NotResident) => Ok(false),
            answer => answer.map(|()| true),
        }
    }

    /// Begins anew, where no patch is in memory or in flight and each group that a writer has ever engaged is closed. The
    /// next patch, the next write and the next group have the number 0; there are no others. Blocks stay as they are.
    ///
    /// # Errors
    /// [`Live`](Error::Live).
    pub fn renew(&mut self) -> Result<()> {
        // SAFETY: the handle is this cache's alone.
        done(unsafe { sys::fstch_cache_renew(self.handle()) })
    }

    /// How many blocks and patches there are.
    ///
    /// # Errors
    /// None that the header knows of an open cache.
    pub fn counts(&self) -> Result<Counts> {
        let mut it = Counts::default();
        // SAFETY: the handle is this cache's alone, and the four places are apart.
        done(unsafe {
            sys::fstch_cache_counts(self.handle(), &mut it.blocks, &mut it.made, &mut it.live, &mut it.durable_below)
        })?;
        Ok(it)
    }

    /// Makes a patch by no writer, which keeps the bytes that it overwrites. Else it is as [`Cache::patch_by`].
    ///
    /// # Errors
    /// Those of [`Cache::patch_by`].
    pub fn patch(&mut self, block: u32, start: usize, bytes: &[u8], after: &[u32]) -> Result<u32> {
        self.patch_by(crate::NO_WRITER, block, start, bytes, after, Undo::Keep)
    }

    /// Makes a patch, which puts 1 to [`BLOCK`] bytes into a block from `start` on, and answers its number, the next one:
    /// 0, 1, 2 and so on; there are 16,777,216 until the cache is renewed.
    ///
    /// It depends on the patches that `after` names, on each earlier patch of its block that shares a byte with it, and,
    /// of a writer from 0 to 6, on all patches of all groups that go before those which the writer has engaged. It joins
    /// these. By [`NO_WRITER`](crate::NO_WRITER) it joins none.
    ///
    /// # Errors
    /// [`BadWriter`](Error::BadWriter), [`NoSuchBlock`](Error::NoSuchBlock), [`NotResident`](Error::NotResident),
    /// [`EmptyPatch`](Error::EmptyPatch), [`OutOfBlock`](Error::OutOfBlock),
    /// [`UnknownDependency`](Error::UnknownDependency), [`NumbersSpent`](Error::NumbersSpent),
    /// [`TooManyLive`](Error::TooManyLive), [`OutOfMemory`](Error::OutOfMemory).
    pub fn patch_by(
        &mut self,
        writer: u32,
        block: u32,
        start: usize,
        bytes: &[u8],
        after: &[u32],
        undo: Undo,
    ) -> Result<u32> {
        let flags = match undo {
            Undo::Keep => 0,
            Undo::MayDrop => sys::FSTCH_MAY_DROP,
        };
        // The header wants lists that don't overlap, and a caller may have cast the one from the other.
        let copy = if overlap(bytes, after) { copied(after)? } else { Vec::new() };
        let after = if copy.is_empty() { after } else { &copy };
        let mut patch = 0;
        // SAFETY: the handle is this cache's alone, each of the two lists is as long as is said, and they and the place are
        // apart.
        done(unsafe {
            sys::fstch_cache_patch(
                self.handle(),
                writer,
                block,
                start,
                bytes.as_ptr().cast(),
                bytes.len(),
                after.as_ptr(),
                after.len(),
                flags,
                &mut patch,
            )
        })?;
        Ok(patch)
    }

    /// Makes one class of the classes of two patches of a block, which go to the disk together from then on, and answers
    /// its name, its least number. A patch that is never merged is a class of its own.
    ///
    /// # Errors
    /// [`Unknown`](Error::Unknown), [`NotInMemory`](Error::NotInMemory), [`Same`](Error::Same),
    /// [`OtherBlock`](Error::OtherBlock), [`Hard`](Error::Hard), [`Apart`](Error::Apart),
    /// [`WouldCycle`](Error::WouldCycle), [`OutOfMemory`](Error::OutOfMemory).
    pub fn merge(&mut self, a: u32, b: u32) -> Result<u32> {
        let (mut name, mut which) = (0, u32::MAX);
        // SAFETY: the handle is this cache's alone, and the two places are apart.
        let answer = unsafe { sys::fstch_cache_merge(self.handle(), a, b, &mut name, &mut which) };
        telling(answer, which)?;
        Ok(name)
    }

    /// Where a patch is.
    ///
    /// # Errors
    /// [`Unknown`](Error::Unknown).
    pub fn mark(&self, patch: u32) -> Result<Mark> {
        let mut mark = 0;
        // SAFETY: the handle is this cache's alone, and the place is apart from it.
        done(unsafe { sys::fstch_cache_mark(self.handle(), patch, &mut mark) })?;
        Ok(match mark {
            sys::FSTCH_MARK_MEMORY => Mark::Memory,
            sys::FSTCH_MARK_FLIGHT => Mark::Flight,
            _ => Mark::Durable,
        })
    }

    /// Copies bytes of a block, with all its patches, from `start` on: as many as `into` has.
    ///
    /// # Errors
    /// [`NoSuchBlock`](Error::NoSuchBlock), [`NotResident`](Error::NotResident), [`OutOfBlock`](Error::OutOfBlock).
    pub fn read(&self, block: u32, start: usize, into: &mut [u8]) -> Result<()> {
        // SAFETY: the handle is this cache's alone, and the buffer is as long as is said.
        done(unsafe { sys::fstch_cache_read(self.handle(), block, start, into.len(), into.as_mut_ptr().cast()) })
    }

    /// The same without the classes of these patches, which are left out one after another: each behind those of its block
    /// that depend on it.
    ///
    /// # Errors
    /// [`OutOfMemory`](Error::OutOfMemory), [`NoSuchBlock`](Error::NoSuchBlock), [`NotResident`](Error::NotResident),
    /// [`OutOfBlock`](Error::OutOfBlock); and of the first patch that can't be left out [`Unknown`](Error::Unknown),
    /// [`Durable`](Error::Durable), [`InFlight`](Error::InFlight), [`Hard`](Error::Hard),
    /// [`AlreadyTaken`](Error::AlreadyTaken), [`DependentApplied`](Error::DependentApplied).
    pub fn without(&self, block: u32, patches: &[u32], start: usize, into: &mut [u8]) -> Result<()> {
        let mut which = u32::MAX;
        // SAFETY: the handle is this cache's alone, the list and the buffer are as long as is said, and the place is apart
        // from both.
        let answer = unsafe {
            sys::fstch_cache_without(
                self.handle(),
                block,
                patches.as_ptr(),
                patches.len(),
                start,
                into.len(),
                into.as_mut_ptr().cast(),
                &mut which,
            )
        };
        telling(answer, which)
    }

    /// The least block of which a write can begin now, or `None`.
    ///
    /// # Errors
    /// None that the header knows of an open cache.
    pub fn next(&self) -> Result<Option<u32>> {
        let mut block = 0;
        // SAFETY: the handle is this cache's alone, and the place is apart from it.
        match done(unsafe { sys::fstch_cache_next(self.handle(), &mut block) }) {
            Err(Error::NothingReady) => Ok(None),
            answer => answer.map(|()| Some(block)),
        }
    }

    /// Begins a write of a block, of all its classes that may go to the disk now. Its image has them, what is durable,
    /// and nothing else.
    ///
    /// # Errors
    /// [`NoSuchBlock`](Error::NoSuchBlock), [`NotResident`](Error::NotResident),
    /// [`AlreadyInFlight`](Error::AlreadyInFlight), [`NothingReady`](Error::NothingReady),
    /// [`OutOfMemory`](Error::OutOfMemory).
    pub fn send(&mut self, block: u32) -> Result<Flight> {
        let mut flight = Flight { block, number: 0, image: room(BLOCK)? };
        // SAFETY: the handle is this cache's alone, the buffer is as long as is said, and the place is apart from it.
        done(unsafe {
            sys::fstch_cache_send(
                self.handle(),
                block,
                &mut flight.number,
                flight.image.as_mut_ptr().cast(),
                flight.image.len(),
            )
        })?;
        Ok(flight)
    }

    /// The write that is under way of this block and number, with its image, byte for byte.
    ///
    /// # Errors
    /// [`Stranger`](Error::Stranger), [`OutOfMemory`](Error::OutOfMemory).
    pub fn flight(&self, block: u32, number: u32) -> Result<Flight> {
        let mut image: Vec<u8> = room(BLOCK)?;
        // SAFETY: the handle is this cache's alone, and the buffer is as long as is said.
        done(unsafe { sys::fstch_cache_image(self.handle(), block, number, image.as_mut_ptr().cast(), image.len()) })?;
        Ok(Flight { block, number, image })
    }

    /// The patches that a write makes durable, rising.
    ///
    /// # Errors
    /// [`Stranger`](Error::Stranger), [`OutOfMemory`](Error::OutOfMemory).
    pub fn patches_of(&self, flight: &Flight) -> Result<Vec<u32>> {
        let (mut patches, mut count) = (room(1)?, 0);
        loop {
            // SAFETY: the handle is this cache's alone, the list has the room that is said, and the place is apart from it.
            let answer = unsafe {
                sys::fstch_cache_flight(
                    self.handle(),
                    flight.block,
                    flight.number,
                    patches.as_mut_ptr(),
                    patches.len(),
                    &mut count,
                )
            };
            match done(answer) {
                Err(Error::BufferTooSmall) => patches = room(count)?,
                answer => {
                    answer?;
                    patches.truncate(count);
                    return Ok(patches);
                }
            }
        }
    }

    /// Ends a write that the disk has: its patches are durable. What is owed before it is told of the module.
    ///
    /// # Errors
    /// [`Stranger`](Error::Stranger), where the flight is another cache's, and this one has none of its numbers, or was
    /// looked up twice and is completed already.
    pub fn complete(&mut self, flight: Flight) -> Result<()> {
        // SAFETY: the handle is this cache's alone. Any numbers are those of a write or are refused.
        done(unsafe { sys::fstch_cache_complete(self.handle(), flight.block, flight.number) })
    }
}

impl Drop for Cache {
    fn drop(&mut self) {
        // SAFETY: the handle is this cache's alone. A closed one is refused, and harms nothing.
        let _ = unsafe { sys::fstch_cache_close(self.handle()) };
    }
}

impl fmt::Debug for Cache {
    fn fmt(&self, out: &mut fmt::Formatter<'_>) -> fmt::Result {
        out.debug_struct("Cache").finish_non_exhaustive()
    }
}

/// Whether some byte is in both.
fn overlap(bytes: &[u8], numbers: &[u32]) -> bool {
    let (one, other) = (bytes.as_ptr_range(), numbers.as_ptr_range());
    one.start < other.end.cast() && other.start.cast() < one.end
}

fn copied(numbers: &[u32]) -> Result<Vec<u32>> {
    let mut made = room(numbers.len())?;
    made.copy_from_slice(numbers);
    Ok(made)
}

/// Room for so many, which has no other use.
fn room<T: Clone + Default>(count: usize) -> Result<Vec<T>> {
    let mut made = Vec::new();
    made.try_reserve_exact(count).map_err(|_| Error::OutOfMemory)?;
    made.resize(count, T::default());
    Ok(made)
}

#[cfg(test)]
mod tests {
    use super::*;

    /// A cache that is closed, which no program can have.
    #[test]
    fn closed_caches_are_refused() {
        let mut cache = Cache::closed();
        let flight = || Flight { block: 0, number: 0, image: Vec::new() };
        assert_eq!(cache.admit(0, &[0; BLOCK]), Err(Error::NotOpen));
        assert_eq!(cache.evict(0), Err(Error::NotOpen));
        assert_eq!(cache.is_resident(0), Err(Error::NotOpen));
        assert_eq!(cache.renew(), Err(Error::NotOpen));
        assert_eq!(cache.counts(), Err(Error::NotOpen));
        assert_eq!(cache.patch(0, 0, b"x", &[]), Err(Error::NotOpen));
        assert_eq!(cache.merge(0, 1), Err(Error::NotOpen));
        assert_eq!(cache.mark(0), Err(Error::NotOpen));
        assert_eq!(cache.without(0, &[0], 0, &mut []), Err(Error::NotOpen));
        assert_eq!(cache.next(), Err(Error::NotOpen));
        assert_eq!(cache.send(0), Err(Error::NotOpen));
        assert_eq!(cache.flight(0, 0), Err(Error::NotOpen));
        assert_eq!(cache.patches_of(&flight()), Err(Error::NotOpen));
        assert_eq!(cache.complete(flight()), Err(Error::NotOpen));
        assert_eq!(cache.group(), Err(Error::NotOpen));
        assert_eq!(cache.close(), Err(Error::NotOpen));
    }
}
