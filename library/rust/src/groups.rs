//! Groups: an order in which changes reach the file.

use crate::error::{done, Result};
use crate::Store;

/// Writes the type of a group's number, and the calls on groups of a store or a cache: each with its page, and by the
/// call of the header that it is. `Result` and `done` are those of the module that it stands in.
macro_rules! groups {
    (
        $(#[$group_page:meta])*
        pub struct Group;

        impl $Opened:ident {
            $(#[$make_page:meta])*
            group = $make:ident;

            $(#[$engage_page:meta])*
            group_engage = $engage:ident;

            $(#[$disengage_page:meta])*
            group_disengage = $disengage:ident;

            $(#[$depend_page:meta])*
            group_depend = $depend:ident;

            $(#[$close_page:meta])*
            group_close = $close:ident;

            $(#[$pending_page:meta])*
            group_pending = $pending:ident;
        }
    ) => {
        $(#[$group_page])*
        #[derive(Clone, Copy, Debug, PartialEq, Eq, Hash)]
        pub struct Group {
            number: u32,
        }

        impl Group {
            /// The number.
            pub fn number(self) -> u32 {
                self.number
            }
        }

        impl $Opened {
            $(#[$make_page])*
            pub fn group(&mut self) -> Result<Group> {
                let mut number = 0;
                // SAFETY: the handle is this store's or cache's alone, and the place is apart from it.
                done(unsafe { crate::sys::$make(self.handle(), &mut number) })?;
                Ok(Group { number })
            }

            $(#[$engage_page])*
            pub fn group_engage(&mut self, group: Group, writer: u32) -> Result<()> {
                // SAFETY: the handle is this store's or cache's alone. Any number is a group's or is refused.
                done(unsafe { crate::sys::$engage(self.handle(), group.number, writer) })
            }

            $(#[$disengage_page])*
            pub fn group_disengage(&mut self, group: Group, writer: u32) -> Result<()> {
                // SAFETY: as of group_engage.
                done(unsafe { crate::sys::$disengage(self.handle(), group.number, writer) })
            }

            $(#[$depend_page])*
            pub fn group_depend(&mut self, later: Group, earlier: Group) -> Result<()> {
                // SAFETY: as of group_engage.
                done(unsafe { crate::sys::$depend(self.handle(), later.number, earlier.number) })
            }

            $(#[$close_page])*
            pub fn group_close(&mut self, group: Group) -> Result<()> {
                // SAFETY: as of group_engage.
                done(unsafe { crate::sys::$close(self.handle(), group.number) })
            }

            $(#[$pending_page])*
            pub fn group_pending(&self, group: Group) -> Result<u32> {
                let mut changes = 0;
                // SAFETY: as of group_engage, and the place is apart from the handle.
                done(unsafe { crate::sys::$pending(self.handle(), group.number, &mut changes) })?;
                Ok(changes)
            }
        }
    };
}
pub(crate) use groups;

groups! {
    /// The number of a group of changes, which [`Store::group`] makes. A group has all changes of the writers that have
    /// engaged it. Whatever a crash leaves: where it has a change of a group, it has all changes of the groups that go
    /// before it.
    ///
    /// The order costs what its syncs of the file cost, which one [`Store::sync`] makes for all groups together: one
    /// for each wave, and changes that don't wait for one another share a wave.
    ///
    /// It is a number and no more: a store takes a group of another store for its own of that number.
    ///
    /// ```
    /// # use fstch::{Geometry, Store};
    /// # let path = std::env::temp_dir().join(format!("fstch-group-{}", std::process::id()));
    /// # Store::make(&path, Geometry { index_blocks: 1, extents: 4, extent_blocks: 0 })?;
    /// # let mut store = Store::open(&path)?;
    /// let data = store.group()?;
    /// store.group_engage(data, 0)?;
    /// store.put_by(0, b"data", b"...")?;
    /// store.group_disengage(data, 0)?;
    /// let name = store.group()?;
    /// store.group_depend(name, data)?;
    /// store.group_engage(name, 0)?;
    /// store.put_by(0, b"name", b"data")?;
    /// store.group_disengage(name, 0)?;
    /// assert!(store.group_pending(name)? > 0);
    /// store.sync()?;
    /// assert_eq!(store.group_pending(name)?, 0);
    /// # drop(store);
    /// # std::fs::remove_file(&path)?;
    /// # Ok::<(), Box<dyn std::error::Error>>(())
    /// ```
    pub struct Group;

    impl Store {
        /// Makes a group. Numbers are counted from 0, and begin at 0 again where a sync lets the store begin anew.
        ///
        /// # Errors
        /// [`TooManyGroups`](crate::Error::TooManyGroups), [`OutOfMemory`](crate::Error::OutOfMemory).
        group = fstch_group;

        /// Lets the writer's changes belong to the group from now on. [`NO_WRITER`](crate::NO_WRITER) engages none: it
        /// is refused with [`BadWriter`](crate::Error::BadWriter).
        ///
        /// # Errors
        /// [`BadWriter`](crate::Error::BadWriter), [`NoSuchGroup`](crate::Error::NoSuchGroup),
        /// [`Sealed`](crate::Error::Sealed), [`Engaged`](crate::Error::Engaged),
        /// [`OutOfMemory`](crate::Error::OutOfMemory).
        group_engage = fstch_group_engage;

        /// Ends what [`Store::group_engage`] began.
        ///
        /// # Errors
        /// [`BadWriter`](crate::Error::BadWriter), [`NoSuchGroup`](crate::Error::NoSuchGroup),
        /// [`NotEngaged`](crate::Error::NotEngaged).
        group_disengage = fstch_group_disengage;

        /// Lets the group `later` go to the file after the group `earlier`. `later` was not engaged yet, and no group
        /// goes after it; nobody has `earlier` engaged, and nobody ever engages it again.
        ///
        /// # Errors
        /// [`NoSuchGroup`](crate::Error::NoSuchGroup), [`SameGroup`](crate::Error::SameGroup),
        /// [`Sealed`](crate::Error::Sealed), [`Started`](crate::Error::Started), [`Engaged`](crate::Error::Engaged),
        /// [`OutOfMemory`](crate::Error::OutOfMemory).
        group_depend = fstch_group_depend;

        /// Ends the use of the group's number. Its changes stay, in their order.
        ///
        /// # Errors
        /// [`NoSuchGroup`](crate::Error::NoSuchGroup), [`Engaged`](crate::Error::Engaged).
        group_close = fstch_group_close;

        /// How many pieces of the group's changes haven't reached the file. A put has several pieces.
        ///
        /// # Errors
        /// [`NoSuchGroup`](crate::Error::NoSuchGroup).
        group_pending = fstch_group_pending;
    }
}
