//! Groups: an order in which patches reach the disk.

use super::error::{done, Result};
use super::Cache;
use crate::groups::groups;

groups! {
    /// The number of a group of patches, which [`Cache::group`] makes. A group has all patches of the writers that have
    /// engaged it. Whatever a crash leaves: where the disk has a patch of a group, it has all patches of the groups
    /// that go before it.
    ///
    /// It is a number and no more: a cache takes a group of another cache, or from before a renewal, for its own of
    /// that number.
    ///
    /// ```
    /// # use fstch::cache::{Cache, Undo, BLOCK};
    /// # let mut cache = Cache::open(2)?;
    /// # cache.admit(0, &[0; BLOCK])?;
    /// # cache.admit(1, &[0; BLOCK])?;
    /// let data = cache.group()?;
    /// cache.group_engage(data, 0)?;
    /// cache.patch_by(0, 1, 0, b"data", &[], Undo::Keep)?; // by writer 0, so it is the group's
    /// cache.group_disengage(data, 0)?;
    /// let name = cache.group()?;
    /// cache.group_depend(name, data)?;
    /// cache.group_engage(name, 0)?;
    /// cache.patch_by(0, 0, 0, b"name", &[], Undo::Keep)?;
    /// cache.group_disengage(name, 0)?;
    /// assert_eq!(cache.next()?, Some(1)); // block 0 waits
    /// assert_eq!(cache.group_pending(name)?, 1);
    /// # Ok::<(), fstch::cache::Error>(())
    /// ```
    pub struct Group;

    impl Cache {
        /// Makes a group. Numbers are counted from 0 until the cache is renewed.
        ///
        /// # Errors
        /// [`TooManyGroups`](super::Error::TooManyGroups), [`OutOfMemory`](super::Error::OutOfMemory).
        group = fstch_cache_group;

        /// Lets the writer's patches belong to the group from now on. [`NO_WRITER`](crate::NO_WRITER) engages none: it
        /// is refused with [`BadWriter`](super::Error::BadWriter).
        ///
        /// # Errors
        /// [`BadWriter`](super::Error::BadWriter), [`NoSuchGroup`](super::Error::NoSuchGroup),
        /// [`Sealed`](super::Error::Sealed), [`Engaged`](super::Error::Engaged),
        /// [`OutOfMemory`](super::Error::OutOfMemory).
        group_engage = fstch_cache_group_engage;

        /// Ends what [`Cache::group_engage`] began.
        ///
        /// # Errors
        /// [`BadWriter`](super::Error::BadWriter), [`NoSuchGroup`](super::Error::NoSuchGroup),
        /// [`NotEngaged`](super::Error::NotEngaged).
        group_disengage = fstch_cache_group_disengage;

        /// Lets the group `later` go to the disk after the group `earlier`. `later` was not engaged yet, and no group
        /// goes after it; nobody has `earlier` engaged, and nobody ever engages it again.
        ///
        /// # Errors
        /// [`NoSuchGroup`](super::Error::NoSuchGroup), [`SameGroup`](super::Error::SameGroup),
        /// [`Sealed`](super::Error::Sealed), [`Started`](super::Error::Started), [`Engaged`](super::Error::Engaged),
        /// [`OutOfMemory`](super::Error::OutOfMemory).
        group_depend = fstch_cache_group_depend;

        /// Ends the use of the group's number. Its patches stay, in their order.
        ///
        /// # Errors
        /// [`NoSuchGroup`](super::Error::NoSuchGroup), [`Engaged`](super::Error::Engaged).
        group_close = fstch_cache_group_close;

        /// How many patches of the group aren't durable: 0 where the disk has all of it.
        ///
        /// # Errors
        /// [`NoSuchGroup`](super::Error::NoSuchGroup).
        group_pending = fstch_cache_group_pending;
    }
}
