//! How a file is divided, and how it is opened.

use crate::sys;

/// How a file is divided that [`Store::make`](crate::Store::make) makes. It has 4,096 blocks of 4,096 bytes at most: 2,
/// those of the index, and those of the extents.
#[derive(Clone, Copy, Debug, PartialEq, Eq, Hash)]
pub struct Geometry {
    /// 1 to 16. For each of them the store has 64 keys at most.
    pub index_blocks: u32,
    /// 2 to 254. Values are appended to them.
    pub extents: u32,
    /// With 0 an extent has 16 blocks, and a value at most 32,768 bytes. With 16 to 64 it has so many, and a value at
    /// most as many bytes as an extent less 48, and never more than [`MAX_VALUE`](crate::MAX_VALUE).
    pub extent_blocks: u32,
}

/// How [`Store::open_with`](crate::Store::open_with) opens a file: the flags of the header. Without any it is as
/// [`Store::open`](crate::Store::open).
///
/// ```
/// # use fstch::{Error, Geometry, Options, Store};
/// # let path = std::env::temp_dir().join(format!("fstch-options-{}", std::process::id()));
/// # Store::make(&path, Geometry { index_blocks: 1, extents: 2, extent_blocks: 0 })?;
/// let first = Store::open_with(&path, Options::new().read_only())?;
/// let second = Store::open_with(&path, Options::new().read_only())?;
/// assert!(matches!(Store::open(&path), Err(Error::InUse)));
/// # drop((first, second));
/// # std::fs::remove_file(&path)?;
/// # Ok::<(), Box<dyn std::error::Error>>(())
/// ```
#[derive(Clone, Copy, Debug, Default, PartialEq, Eq, Hash)]
#[must_use]
pub struct Options {
    pub(crate) flags: u32,
}

impl Options {
    /// No flag.
    pub const fn new() -> Options {
        Options { flags: 0 }
    }

    /// The syncs of the file inside [`Store::sync`](crate::Store::sync) are passed over, but for one behind all writes.
    /// Then the file opens again whenever the program ends and the system goes on; if the power is cut, or the
    /// system stops, during a sync, it may not.
    pub const fn no_barriers(self) -> Options {
        Options { flags: self.flags | sys::FSTCH_NO_BARRIERS }
    }

    /// The file is opened to be read alone. So it may be one that the program has no right to write, or stand on a
    /// read-only file system; and several stores, of one program or of several, may have it open with this flag at
    /// once, while none has it open without: else the one that comes later is answered
    /// [`Error::InUse`](crate::Error::InUse).
    ///
    /// Puts, deletes, reclaims and groups are answered as by any store, and change this one in memory alone. A sync
    /// answers [`Error::IsReadOnly`](crate::Error::IsReadOnly), and the store goes on.
    ///
    /// The open syncs the file as without the flag. Where the file system is read-only and has no sync, the file is
    /// taken as it is. Each other refusal of the sync is answered [`Error::Disk`](crate::Error::Disk).
    pub const fn read_only(self) -> Options {
        Options { flags: self.flags | sys::FSTCH_READ_ONLY }
    }

    /// Extents are won back by [`Store::reclaim`](crate::Store::reclaim) alone, which the program calls where a put is
    /// answered [`Error::NoSpace`](crate::Error::NoSpace). Without it [`Store::put`](crate::Store::put) does so by
    /// itself.
    pub const fn manual(self) -> Options {
        Options { flags: self.flags | sys::FSTCH_MANUAL }
    }
}
