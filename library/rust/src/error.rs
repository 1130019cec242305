//! Why a call was refused.

use crate::answers::answers;
use std::io;

/// What a call comes to.
pub type Result<T> = std::result::Result<T, Error>;

/// Why a call was refused: a variant for each answer of the header but `FSTCH_DONE`. A refused call changes nothing,
/// but where its own page says so.
///
/// Its text is the library's own. Behind [`Disk`](Error::Disk) and [`DeviceGaveUp`](Error::DeviceGaveUp) its source
/// says why the system refused a call.
///
/// ```
/// use fstch::{Error, Store};
/// use std::io::ErrorKind;
///
/// match Store::open("no such file") {
///     Err(Error::Disk(why)) if why.kind() == ErrorKind::NotFound => println!("make it first"),
///     Err(Error::InUse) => println!("another store has it open"),
///     Err(why) => println!("{why}"),
///     Ok(store) => store.close()?,
/// }
/// # Ok::<(), Error>(())
/// ```
#[derive(Debug)]
#[non_exhaustive]
pub enum Error {
    /// There was no memory. Each key has the value that it had.
    OutOfMemory,
    /// The file can't be opened, made, read or written, and why. Of a path that has a 0 byte, which the system isn't
    /// asked for, the kind is [`InvalidInput`](io::ErrorKind::InvalidInput).
    Disk(io::Error),
    /// The file's length isn't 1 to 4,096 whole blocks of 4,096 bytes, or not what its first block says.
    FileSize,
    /// 16,777,216 changes were made since the store was opened or began anew: close its groups and sync.
    NumbersSpent,
    /// 65,536 changes are in memory: a sync makes room.
    TooManyLive,
    /// The store has no group of this number, or it was closed.
    NoSuchGroup,
    /// A group can't go after itself.
    SameGroup,
    /// The group was engaged before, so it goes after no more groups.
    Started,
    /// A group goes after it, so it takes no more writers and goes after no more groups.
    Sealed,
    /// The writer has engaged the group already; or one has engaged a group that has to be free.
    Engaged,
    /// The writer hasn't engaged the group.
    NotEngaged,
    /// 1,024 groups were made since the store was opened or began anew, closed ones counted: close all and sync.
    TooManyGroups,
    /// The store has no extent of this number.
    NoSuchExtent,
    /// The extent was won back as often as can be counted.
    GenerationSpent,
    /// The key has no byte, or more than [`MAX_KEY`](crate::MAX_KEY).
    KeyLength,
    /// The value is longer than the store allows.
    ValueLength,
    /// The key to be deleted has no value.
    NoKey,
    /// The key is new, and the store has as many keys as it can.
    IndexFull,
    /// No extent has room: delete, and with [`Options::manual`](crate::Options::manual) reclaim.
    NoSpace,
    /// Puts append to the extent, and values in it are live.
    OpenExtent,
    /// Nothing was appended to the extent since it was won back.
    EmptyExtent,
    /// No store is divided like this.
    Geometry,
    /// The file holds no store: its first block doesn't say what it must.
    BadSuper,
    /// The file holds no store: the block of the extents' pointers doesn't say what it must.
    BadPointer,
    /// The file holds no store: a slot of the index doesn't say what it must.
    BadSlot {
        /// The first slot that is wrong.
        slot: u32,
    },
    /// The file holds no store: a slot of the index doesn't name the value of its key.
    BadFrame {
        /// The first slot that is wrong.
        slot: u32,
    },
    /// The file holds no store: a slot of the index has the key of a lower one.
    DuplicateKey {
        /// The first slot that is wrong.
        slot: u32,
    },
    /// The file refused the write of a block, each time that it was tried, and why it did so last. Close the store and
    /// open it again.
    DeviceGaveUp(io::Error),
    /// The store isn't open. A [`Store`](crate::Store) is, so no call of this crate answers it.
    NotOpen,
    /// The store is open already. An open makes a new [`Store`](crate::Store), so no call of this crate answers it.
    IsOpen,
    /// What was asked for is longer than the buffer. This crate asks again with a longer one, so no call of it answers
    /// this.
    BufferTooSmall,
    /// The key has no value, or there is no entry of this number: `None` or `false` by the calls of this crate.
    Absent,
    /// Another store, of this program or another, has the file open, and one of the two may change it.
    InUse,
    /// The system didn't let last what was written, and nothing was written behind that; or an earlier sync was
    /// refused. What the system shows of the file then may be lost with the power. Close the store and open it
    /// again: the open reads what the disk has.
    NoSync,
    /// The number of a writer is [`WRITERS`](crate::WRITERS) or more.
    BadWriter,
    /// The store was opened to be read alone.
    IsReadOnly,
    /// An answer that this crate doesn't know, by its number.
    Unknown(i32),
}

answers! {
    set: slot, other: Unknown,
    OutOfMemory = FSTCH_OUT_OF_MEMORY,
    Disk(io::Error::last_os_error()) = FSTCH_DISK,
    FileSize = FSTCH_FILE_SIZE,
    NumbersSpent = FSTCH_NUMBERS_SPENT,
    TooManyLive = FSTCH_TOO_MANY_LIVE,
    NoSuchGroup = FSTCH_NO_SUCH_GROUP,
    SameGroup = FSTCH_SAME_GROUP,
    Started = FSTCH_STARTED,
    Sealed = FSTCH_SEALED,
    Engaged = FSTCH_ENGAGED,
    NotEngaged = FSTCH_NOT_ENGAGED,
    TooManyGroups = FSTCH_TOO_MANY_GROUPS,
    NoSuchExtent = FSTCH_NO_SUCH_EXTENT,
    GenerationSpent = FSTCH_GENERATION_SPENT,
    KeyLength = FSTCH_KEY_LENGTH,
    ValueLength = FSTCH_VALUE_LENGTH,
    NoKey = FSTCH_NO_KEY,
    IndexFull = FSTCH_INDEX_FULL,
    NoSpace = FSTCH_NO_SPACE,
    OpenExtent = FSTCH_OPEN_EXTENT,
    EmptyExtent = FSTCH_EMPTY_EXTENT,
    Geometry = FSTCH_GEOMETRY,
    BadSuper = FSTCH_BAD_SUPER,
    BadPointer = FSTCH_BAD_POINTER,
    BadSlot { slot } = FSTCH_BAD_SLOT,
    BadFrame { slot } = FSTCH_BAD_FRAME,
    DuplicateKey { slot } = FSTCH_DUPLICATE_KEY,
    DeviceGaveUp(io::Error::last_os_error()) = FSTCH_DEVICE_GAVE_UP,
    NotOpen = FSTCH_NOT_OPEN,
    IsOpen = FSTCH_IS_OPEN,
    BufferTooSmall = FSTCH_BUFFER_TOO_SMALL,
    Absent = FSTCH_ABSENT,
    InUse = FSTCH_IN_USE,
    NoSync = FSTCH_NO_SYNC,
    BadWriter = FSTCH_BAD_WRITER,
    IsReadOnly = FSTCH_IS_READ_ONLY,
}

impl std::error::Error for Error {
    fn source(&self) -> Option<&(dyn std::error::Error + 'static)> {
        match self {
            Error::Disk(why) | Error::DeviceGaveUp(why) => Some(why),
            _ => None,
        }
    }
}

#[cfg(test)]
mod tests {
    use super::*;
    use crate::sys;

    #[test]
    fn each_number_has_a_variant_and_a_text() {
        let mut known = 0;
        for number in -100..100 {
            let error = Error::of(number, 3);
            assert_eq!(error.number(), number);
            if !matches!(error, Error::Unknown(_)) {
                assert_ne!(error.to_string(), "unknown answer");
                known += 1;
            }
        }
        assert_eq!(known, 36);
        assert_eq!(Error::of(100, 3).to_string(), "unknown answer");
    }

    #[test]
    fn a_slot_stands_where_the_header_says() {
        assert!(matches!(Error::of(sys::FSTCH_BAD_SLOT, 3), Error::BadSlot { slot: 3 }));
        assert!(matches!(Error::of(sys::FSTCH_BAD_FRAME, 4), Error::BadFrame { slot: 4 }));
        assert!(matches!(Error::of(sys::FSTCH_DUPLICATE_KEY, 5), Error::DuplicateKey { slot: 5 }));
    }
}
