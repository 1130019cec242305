//! Keys and values in one file that opens after every crash: the store of the C library `fstch`, by safe calls.
//!
//! ```
//! # let folder = std::env::temp_dir().join(format!("fstch-page-{}", std::process::id()));
//! # std::fs::create_dir(&folder)?;
//! # std::env::set_current_dir(&folder)?;
//! use fstch::{Geometry, Store};
//!
//! Store::make("names.disk", Geometry { index_blocks: 1, extents: 4, extent_blocks: 0 })?;
//! let mut store = Store::open("names.disk")?;
//! store.put(b"key", b"value")?;
//! let data = store.group()?;
//! store.group_engage(data, 0)?;
//! store.put_by(0, b"data", b"...")?; // by writer 0, so it is the group's
//! store.group_disengage(data, 0)?;
//! let name = store.group()?;
//! store.group_depend(name, data)?;
//! store.group_engage(name, 0)?;
//! store.put_by(0, b"name", b"data")?;
//! store.group_disengage(name, 0)?;
//! store.sync()?; // from here on all of it is there after every crash
//! for entry in store.range(..) { // in order of keys
//!     println!("{:?} has {} bytes", entry.key(), entry.value_length());
//! }
//! assert_eq!(store.get(b"name")?, Some(b"data".to_vec()));
//! assert_eq!(store.get(b"absent")?, None);
//! store.close()?;
//! # std::fs::remove_dir_all(&folder)?;
//! # Ok::<(), Box<dyn std::error::Error>>(())
//! ```
//!
//! A put or a delete changes the store in memory; [`Store::sync`] brings all changes to the file and lets them last
//! there. Whenever the program ends or the power is cut, the file opens again. It then has, of each key, what it had
//! after the last sync or after one of the later puts and deletes; where a write had reached the file, all that it
//! depends on had too. What was answered before a sync that succeeded is there. One premise is left to the system and
//! its disk: what was written to the file before an fsync or fdatasync that succeeded is there, and of what was written
//! since, each block of 4,096 bytes is old or new.
//!
//! [`cache`] is the cache below the store, for a program that has its own layout of blocks and does its own reads and writes.
//!
//! Each method is a call of the header `fstch.h`, and answers what that answers: [`Error`] has a variant for each
//! refusal. What the header leaves to its callers the types of this crate see to, but for this:
//!
//! - While a store is open nobody writes to its file, cuts it, removes it or gives its name to another file, but by
//!   these calls.
//! - SIGXFSZ is ignored or blocked where a limit of file sizes may be met: else it ends the program.
//! - No call is made from a signal handler, and in a child that was forked while a store was open nothing is done with
//!   it but that it is closed or dropped. Without `unsafe` no program of Rust has such a handler or child.
//!
//! A program that is run by another thread, as by `std::process::Command`, has the lock of each store that is open from
//! the fork to the exec: for that moment a file may be in use that its store was closed of.

#![deny(missing_docs)]
#![deny(unsafe_op_in_unsafe_fn)]

#[cfg(not(all(target_os = "linux", target_arch = "x86_64")))]
compile_error!("libfstch.a runs on Linux on x86-64");

mod answers;
pub mod cache;
mod error;
mod groups;
mod listing;
mod options;
mod ordering;
mod store;
mod sys;

pub use error::{Error, Result};
pub use groups::Group;
pub use listing::{Counts, Entries, Entry, Extent, Extents, Statistics};
pub use options::{Geometry, Options};
pub use ordering::KeyRange;
pub use store::Store;

/// The version of the header that this crate is written for: 10,000 for each major, 100 for each minor number, 1 for
/// each patch.
pub const VERSION: u32 = sys::FSTCH_VERSION;

/// Writers are numbered from 0 to 6. A put or delete by one belongs to all groups that the writer has engaged.
pub const WRITERS: u32 = sys::FSTCH_WRITERS;

/// A put or delete by no writer, which belongs to no group.
pub const NO_WRITER: u32 = sys::FSTCH_NO_WRITER;

/// The most bytes of a key, which has 1 at least.
pub const MAX_KEY: usize = sys::FSTCH_MAX_KEY;

/// The most bytes of a value of any store. One whose extents have 16 blocks has the lower limits of [`Geometry`].
pub const MAX_VALUE: usize = sys::FSTCH_MAX_VALUE;

/// The version of the library that is linked.
pub fn version() -> u32 {
    // SAFETY: it takes nothing, and no store.
    unsafe { sys::fstch_version() }
}
