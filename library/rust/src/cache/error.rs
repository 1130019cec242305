//! Why a call on a cache was refused.

use crate::answers::answers;

/// What a call on a cache comes to.
pub type Result<T> = std::result::Result<T, Error>;

/// Why a call on a cache was refused: a variant for each answer of the header but `FSTCH_DONE`. A refused call changes
/// nothing. Its text is the library's own.
///
/// ```
/// use fstch::cache::{Cache, Error, BLOCK};
///
/// let mut cache = Cache::open(1)?;
/// assert_eq!(cache.patch(0, 0, b"bytes", &[]), Err(Error::NotResident));
/// cache.admit(0, &[0; BLOCK])?;
/// assert_eq!(cache.patch(0, 0, b"bytes", &[7]), Err(Error::UnknownDependency));
/// assert_eq!(cache.patch(0, 0, b"bytes", &[]), Ok(0));
/// # Ok::<(), Error>(())
/// ```
#[derive(Clone, Debug, PartialEq, Eq)]
#[non_exhaustive]
pub enum Error {
    /// There was no memory.
    OutOfMemory,
    /// The cache has no block of this number.
    NoSuchBlock,
    /// A cache is to have no blocks, or more than [`MAX_BLOCKS`](super::MAX_BLOCKS).
    FileSize,
    /// No patch has the number; or, where it is to be left out, one that isn't durable, of another block.
    Unknown,
    /// The patch is on the disk, so it can't be left out.
    Durable,
    /// The patch's write is under way, so it can't be left out.
    InFlight,
    /// The patch is hard, so it is neither merged nor left out.
    Hard {
        /// Of a merge, which one it is.
        patch: Option<u32>,
    },
    /// The class of the patch is left out already.
    AlreadyTaken,
    /// Another class of the block depends on the patch's, and isn't left out.
    DependentApplied {
        /// Its name.
        class: u32,
    },
    /// The patch is to have no bytes.
    EmptyPatch,
    /// The bytes pass the end of the block.
    OutOfBlock,
    /// The patch names a number that no patch has.
    UnknownDependency,
    /// 16,777,216 patches were made since the cache was opened or renewed: renew it.
    NumbersSpent,
    /// [`MAX_LIVE`](super::MAX_LIVE) patches are in memory or in flight: complete some writes.
    TooManyLive,
    /// The patch isn't in memory any more.
    NotInMemory {
        /// Which one it is.
        patch: u32,
    },
    /// The two patches are of one class already.
    Same,
    /// The two patches are of two blocks.
    OtherBlock,
    /// The bytes of the two classes neither overlap nor touch.
    Apart,
    /// A third class goes after one of the two and before the other.
    WouldCycle {
        /// Its name.
        class: u32,
    },
    /// A write of the block is under way.
    AlreadyInFlight,
    /// Nothing of the block may go to the disk now.
    NothingReady,
    /// No such write is under way: it was completed, or never begun.
    Stranger,
    /// The cache has no group of this number, or it was closed.
    NoSuchGroup,
    /// A group can't go after itself.
    SameGroup,
    /// The group was engaged before, so it goes after no more groups.
    Started,
    /// A group goes after it, so it takes no more writers and goes after no more groups.
    Sealed,
    /// The writer has engaged the group already; or one has engaged a group that has to be free.
    Engaged,
    /// The writer hasn't engaged the group.
    NotEngaged,
    /// 1,024 groups were made since the cache was opened or renewed, closed ones counted.
    TooManyGroups,
    /// A patch is in memory or in flight, or a group is in use.
    Live,
    /// The block isn't resident: it wasn't admitted, or it was let go.
    NotResident,
    /// The cache isn't open. A [`Cache`](super::Cache) is, so no call of this crate answers it.
    NotOpen,
    /// The cache is open already. An open makes a new [`Cache`](super::Cache), so no call of this crate answers it.
    IsOpen,
    /// What was asked for is longer than the buffer. This crate asks with a longer one, so no call of it answers this.
    BufferTooSmall,
    /// The number of a writer is [`WRITERS`](crate::WRITERS) or more.
    BadWriter,
    /// The block is resident already.
    IsResident,
    /// An answer that this crate doesn't know, by its number.
    Other(i32),
}

answers! {
    set: which, other: Other,
    OutOfMemory = FSTCH_OUT_OF_MEMORY,
    NoSuchBlock = FSTCH_NO_SUCH_BLOCK,
    FileSize = FSTCH_FILE_SIZE,
    Unknown = FSTCH_UNKNOWN,
    Durable = FSTCH_DURABLE,
    InFlight = FSTCH_IN_FLIGHT,
    Hard { patch: Some(which).filter(|patch| *patch != u32::MAX) } = FSTCH_HARD,
    AlreadyTaken = FSTCH_ALREADY_TAKEN,
    DependentApplied { class: which } = FSTCH_DEPENDENT_APPLIED,
    EmptyPatch = FSTCH_EMPTY_PATCH,
    OutOfBlock = FSTCH_OUT_OF_BLOCK,
    UnknownDependency = FSTCH_UNKNOWN_DEPENDENCY,
    NumbersSpent = FSTCH_NUMBERS_SPENT,
    TooManyLive = FSTCH_TOO_MANY_LIVE,
    NotInMemory { patch: which } = FSTCH_NOT_IN_MEMORY,
    Same = FSTCH_SAME,
    OtherBlock = FSTCH_OTHER_BLOCK,
    Apart = FSTCH_APART,
    WouldCycle { class: which } = FSTCH_WOULD_CYCLE,
    AlreadyInFlight = FSTCH_ALREADY_IN_FLIGHT,
    NothingReady = FSTCH_NOTHING_READY,
    Stranger = FSTCH_STRANGER,
    NoSuchGroup = FSTCH_NO_SUCH_GROUP,
    SameGroup = FSTCH_SAME_GROUP,
    Started = FSTCH_STARTED,
    Sealed = FSTCH_SEALED,
    Engaged = FSTCH_ENGAGED,
    NotEngaged = FSTCH_NOT_ENGAGED,
    TooManyGroups = FSTCH_TOO_MANY_GROUPS,
    Live = FSTCH_LIVE,
    NotResident = FSTCH_NOT_RESIDENT,
    NotOpen = FSTCH_NOT_OPEN,
    IsOpen = FSTCH_IS_OPEN,
    BufferTooSmall = FSTCH_BUFFER_TOO_SMALL,
    BadWriter = FSTCH_BAD_WRITER,
    IsResident = FSTCH_IS_RESIDENT,
}

impl std::error::Error for Error {}

#[cfg(test)]
mod tests {
    use super::*;
    use crate::sys;

    #[test]
    fn each_number_has_a_variant_and_a_text() {
        let mut known = 0;
        for number in -100..100 {
            let error = Error::of(number, 3);
            assert_eq!(error.number(), number);
            if !matches!(error, Error::Other(_)) {
                assert_ne!(error.to_string(), "unknown answer");
                known += 1;
            }
        }
        assert_eq!(known, 36);
    }

    #[test]
    fn a_patch_is_told_where_the_header_says() {
        assert_eq!(Error::of(sys::FSTCH_HARD, 3), Error::Hard { patch: Some(3) });
        assert_eq!(Error::of(sys::FSTCH_HARD, u32::MAX), Error::Hard { patch: None });
        assert_eq!(Error::of(sys::FSTCH_NOT_IN_MEMORY, 4), Error::NotInMemory { patch: 4 });
        assert_eq!(Error::of(sys::FSTCH_WOULD_CYCLE, 5), Error::WouldCycle { class: 5 });
        assert_eq!(Error::of(sys::FSTCH_DEPENDENT_APPLIED, 6), Error::DependentApplied { class: 6 });
    }
}
