//! Tests that run themselves in processes of their own. A child has the locks of its parent's stores for a moment, so none
//! that opens a file again may stand beside them.

mod common;

use common::{file_of_process, run_alone, value_in, Folder};
use fstch::{Error, Geometry, Store};
use std::error::Error as _;
use std::{mem, process};

const EFBIG: i32 = 27;

/// The lock ends with the program.
#[test]
fn a_program_ends() {
    let folder = Folder::new("ended");
    let path = folder.made(4);
    run_alone("forgotten_at_the_end", &path, "");
    assert_eq!(value_in(&path, b"key"), Some(b"value".to_vec()));
}

#[test]
#[ignore = "run by a_program_ends"]
fn forgotten_at_the_end() {
    if let Some(path) = file_of_process() {
        let mut store = Store::open(path).unwrap();
        store.put(b"key", b"value").unwrap();
        store.sync().unwrap();
        store.put(b"key", b"lost").unwrap();
        mem::forget(store);
    }
}

/// A limit of file sizes refuses the writes of a sync.
#[test]
fn a_file_that_refuses_writes() {
    let folder = Folder::new("writes");
    run_alone("refused_by_a_limit", &folder.made(4), "trap '' XFSZ; ulimit -f 8");
}

#[test]
#[ignore = "run by a_file_that_refuses_writes"]
fn refused_by_a_limit() {
    let path = match file_of_process() {
        Some(path) => path,
        None => return,
    };
    let mut store = Store::open(&path).unwrap();
    store.put(b"key", b"value").unwrap();
    let error = store.sync().unwrap_err();
    assert!(matches!(&error, Error::DeviceGaveUp(why) if why.raw_os_error() == Some(EFBIG)), "{error:?}");
    assert!(error.source().is_some());
    refused!(store.sync(), Error::NoSync);
    assert_eq!(store.get(b"key").unwrap(), Some(b"value".to_vec()));
    store.close().unwrap();
    let store = Store::open(&path).unwrap();
    assert_eq!(store.get(b"key").unwrap(), None);
}

/// A limit of memory that has no room for an open file of 16 MiB, of which the library asks for two times as much.
#[test]
fn memory_that_is_short() {
    let folder = Folder::new("short");
    let path = folder.file("test.disk");
    Store::make(&path, Geometry { index_blocks: 16, extents: 63, extent_blocks: 64 }).unwrap();
    run_alone("refused_by_memory", &path, "ulimit -v 32768");
    Store::open(&path).unwrap().close().unwrap();
}

#[test]
#[ignore = "run by memory_that_is_short"]
fn refused_by_memory() {
    if let Some(path) = file_of_process() {
        for _ in 0..2 {
            if !matches!(Store::open(&path), Err(Error::OutOfMemory)) {
                process::abort(); // (a panic asks for memory, and may wait for ever where there is none)
            }
        }
    }
}
