//! Each refusal that a program can bring about.

mod common;

use common::Folder;
use fstch::{Error, Geometry, Options, Store, MAX_KEY, MAX_VALUE, NO_WRITER, WRITERS};
use std::error::Error as _;
use std::fs::{self, File};
use std::io;
use std::os::unix::fs::FileExt;
use std::path::Path;

const BLOCK: u64 = 4096;

// Why the system refuses a call, by its numbers.
const ENOENT: i32 = 2;
const EEXIST: i32 = 17;
const EISDIR: i32 = 21;
const ENAMETOOLONG: i32 = 36;

fn make(path: &Path, index_blocks: u32, extents: u32, extent_blocks: u32) -> fstch::Result<()> {
    Store::make(path, Geometry { index_blocks, extents, extent_blocks })
}

/// What stands behind a refusal of the disk.
fn why<T>(comes_to: fstch::Result<T>) -> io::Error {
    match comes_to {
        Err(error @ Error::Disk(_)) => {
            assert_eq!(error.to_string(), "the file can't be opened, made, read or written");
            assert!(error.source().map_or(false, |source| source.is::<io::Error>()));
            match error {
                Error::Disk(source) => source,
                _ => unreachable!(),
            }
        }
        Err(other) => panic!("it comes to {other:?}"),
        Ok(_) => panic!("it is done"),
    }
}

#[test]
fn files_that_are_missing_or_taken() {
    let folder = Folder::new("missing");
    assert_eq!(why(Store::open(folder.file("nothing"))).raw_os_error(), Some(ENOENT));
    assert_eq!(why(Store::open("")).raw_os_error(), Some(ENOENT));
    assert_eq!(why(Store::open(folder.file(""))).raw_os_error(), Some(EISDIR));
    assert_eq!(why(Store::open_with(folder.file(""), Options::new().read_only())).raw_os_error(), Some(EISDIR));
    assert_eq!(why(make(&folder.file("no such folder/test.disk"), 1, 4, 0)).raw_os_error(), Some(ENOENT));
    let path = folder.made(4);
    assert_eq!(why(make(&path, 16, 100, 0)).raw_os_error(), Some(EEXIST));
    assert_eq!(why(make(&folder.file(""), 1, 4, 0)).raw_os_error(), Some(EEXIST));
    Store::open(path).unwrap().close().unwrap();
}

#[test]
fn paths_with_a_zero_byte() {
    assert_eq!(why(Store::open("with\0zero")).kind(), io::ErrorKind::InvalidInput);
    assert_eq!(why(Store::open("\0")).kind(), io::ErrorKind::InvalidInput);
    assert_eq!(why(make(Path::new("with\0zero"), 1, 4, 0)).kind(), io::ErrorKind::InvalidInput);
}

#[test]
fn paths_that_are_too_long() {
    let path = "x".repeat(100_000);
    assert_eq!(why(Store::open(&path)).raw_os_error(), Some(ENAMETOOLONG));
    assert_eq!(why(make(Path::new(&path), 1, 4, 0)).raw_os_error(), Some(ENAMETOOLONG));
}

#[test]
fn geometries() {
    let folder = Folder::new("geometries");
    let path = folder.file("test.disk");
    let most = u32::MAX;
    let wrong =
        [(0, 4, 0), (17, 4, 0), (1, 1, 0), (1, 255, 0), (most, most, most), (1, 4, 15), (1, 4, 65), (1, 254, 64)];
    for (index_blocks, extents, extent_blocks) in wrong {
        refused!(make(&path, index_blocks, extents, extent_blocks), Error::Geometry);
    }
    assert!(!path.exists());
}

#[test]
fn files_that_are_in_use() {
    let folder = Folder::new("use");
    let path = folder.made(4);
    let store = Store::open(&path).unwrap();
    refused!(Store::open(&path), Error::InUse);
    refused!(Store::open_with(&path, Options::new().no_barriers()), Error::InUse);
    refused!(Store::open_with(&path, Options::new().read_only()), Error::InUse);
    store.close().unwrap();
    let store = Store::open_with(&path, Options::new().read_only()).unwrap();
    refused!(Store::open(&path), Error::InUse);
    store.close().unwrap();
    Store::open(&path).unwrap().close().unwrap();
}

#[test]
fn stores_that_are_read_alone() {
    let folder = Folder::new("read");
    let mut store = Store::open_with(folder.made(4), Options::new().read_only()).unwrap();
    refused!(store.sync(), Error::IsReadOnly);
    store.put(b"key", b"value").unwrap();
    refused!(store.sync(), Error::IsReadOnly);
    assert_eq!(store.get(b"key").unwrap(), Some(b"value".to_vec()));
}

#[test]
fn keys_and_values() {
    let folder = Folder::new("keys");
    let mut store = folder.store(4);
    let long = vec![b'k'; MAX_VALUE + 1];
    for key in [&[][..], &long[..MAX_KEY + 1], &long[..MAX_KEY + 2], &long] {
        refused!(store.put(key, b"value"), Error::KeyLength);
        refused!(store.put(key, key), Error::KeyLength);
        refused!(store.get(key), Error::KeyLength);
        refused!(store.value_length(key), Error::KeyLength);
        refused!(store.delete(key), Error::KeyLength);
        refused!(store.put_by(WRITERS, key, &long), Error::BadWriter);
    }
    refused!(store.put(b"key", &long), Error::ValueLength);
    refused!(store.put(b"key", &long[..32769]), Error::ValueLength);
    for writer in [WRITERS, NO_WRITER - 1] {
        refused!(store.put_by(writer, b"key", b"value"), Error::BadWriter);
        refused!(store.delete_by(writer, b"key"), Error::BadWriter);
    }
    refused!(store.delete(b"key"), Error::NoKey);
    assert_eq!(store.check().unwrap().entries, 0);
}

#[test]
fn an_index_that_is_full() {
    let folder = Folder::new("index");
    let mut store = folder.store(4);
    for number in 0..64_u8 {
        store.put(&[number], b"value").unwrap();
    }
    refused!(store.put(b"more", b"value"), Error::IndexFull);
    store.put(&[63], b"another").unwrap();
    store.delete(&[0]).unwrap();
    store.put(b"more", b"value").unwrap();
}

#[test]
fn extents() {
    let folder = Folder::new("extents");
    let mut store = folder.store_by_hand(3);
    refused!(store.extent(3), Error::NoSuchExtent);
    refused!(store.extent(u32::MAX), Error::NoSuchExtent);
    refused!(store.reclaim(3), Error::NoSuchExtent);
    refused!(store.reclaim(0), Error::EmptyExtent);
    store.put(b"short", b"value").unwrap();
    refused!(store.reclaim(0), Error::OpenExtent);
    for value in [vec![1; 32768], vec![2; 32768]] {
        store.put(b"long", &value).unwrap();
    }
    refused!(store.put(b"other", &[0; 32768]), Error::NoSpace);
    assert_eq!(store.get(b"other").unwrap(), None);
}

/// Three of the longest values: none of their extents has room for another.
#[test]
fn a_store_that_is_full() {
    let folder = Folder::new("full");
    let mut store = folder.store(4);
    let values = [vec![1; 32768], vec![2; 32768], vec![3; 32768]];
    for (key, value) in [b"a", b"b", b"c"].into_iter().zip(&values) {
        store.put(key, value).unwrap();
    }
    refused!(store.put(b"d", &values[0]), Error::NoSpace);
    refused!(store.put(b"a", &values[1]), Error::NoSpace);
    assert!(store.statistics().unwrap().live_bytes > 2 * (65536 - 32768 - 1 - 16));
    assert_eq!(store.get(b"d").unwrap(), None);
    for (key, value) in [b"a", b"b", b"c"].into_iter().zip(&values) {
        assert_eq!(store.get(key).unwrap().as_ref(), Some(value));
    }
    for (old, new) in [(b"a", b"d"), (b"b", b"a"), (b"c", b"b")] {
        store.delete(old).unwrap();
        store.put(new, &values[0]).unwrap();
    }
    assert_eq!(store.get(b"d").unwrap().as_ref(), Some(&values[0]));
    assert_eq!(store.get(b"b").unwrap().as_ref(), Some(&values[0]));
}

#[test]
fn changes_in_memory() {
    let folder = Folder::new("changes");
    let mut store = folder.store(32);
    let refusal = (0..65536).find_map(|_| store.put(b"key", b"value").err()).unwrap();
    assert!(matches!(refusal, Error::TooManyLive));
    store.sync().unwrap();
    store.put(b"key", b"last").unwrap();
    assert_eq!(store.get(b"key").unwrap(), Some(b"last".to_vec()));
}

#[test]
fn groups() {
    let folder = Folder::new("groups");
    let mut store = folder.store(4);
    let (first, second) = (store.group().unwrap(), store.group().unwrap());
    refused!(store.group_engage(first, WRITERS), Error::BadWriter);
    refused!(store.group_engage(first, NO_WRITER), Error::BadWriter);
    refused!(store.group_disengage(first, WRITERS), Error::BadWriter);
    refused!(store.group_disengage(first, 0), Error::NotEngaged);
    store.group_engage(first, 0).unwrap();
    refused!(store.group_engage(first, 0), Error::Engaged);
    refused!(store.group_depend(second, first), Error::Engaged);
    refused!(store.group_close(first), Error::Engaged);
    store.group_disengage(first, 0).unwrap();
    refused!(store.group_depend(first, first), Error::SameGroup);
    refused!(store.group_depend(first, second), Error::Started);
    store.group_depend(second, first).unwrap();
    refused!(store.group_engage(first, 0), Error::Sealed);
    store.group_close(first).unwrap();
    refused!(store.group_close(first), Error::NoSuchGroup);
    refused!(store.group_engage(first, 0), Error::NoSuchGroup);
    refused!(store.group_disengage(first, 0), Error::NoSuchGroup);
    refused!(store.group_depend(second, first), Error::NoSuchGroup);
    refused!(store.group_pending(first), Error::NoSuchGroup);
    for _ in 2..1024 {
        store.group().unwrap();
    }
    refused!(store.group(), Error::TooManyGroups);
}

/// Block 1 is the index, block 2 has the pointers, and the extents begin at block 3.
#[test]
fn files_that_are_damaged() {
    let folder = Folder::new("damaged");
    let path = folder.made(4);
    let mut store = Store::open(&path).unwrap();
    store.put(b"key", b"value").unwrap();
    store.sync().unwrap();
    store.close().unwrap();
    let whole = fs::read(&path).unwrap();
    let damaged = |bytes: &[u8], place| {
        fs::write(&path, &whole).unwrap();
        File::options().write(true).open(&path).unwrap().write_all_at(bytes, place).unwrap();
        Store::open(&path)
    };
    refused!(damaged(&[0xff; 8], 0), Error::BadSuper);
    refused!(damaged(&[0xff], BLOCK), Error::BadSlot { slot: 0 });
    refused!(damaged(&[0xff; 8], 2 * BLOCK), Error::BadPointer);
    refused!(damaged(&[0xff; 8], 3 * BLOCK), Error::BadFrame { slot: 0 });
    let slot = &whole[4096..4096 + 64];
    refused!(damaged(slot, BLOCK + 64), Error::DuplicateKey { slot: 1 });
    refused!(damaged(&[0], whole.len() as u64), Error::FileSize);
    for length in [0, 5, 4096, whole.len() - 1] {
        fs::write(&path, &whole[..length]).unwrap();
        refused!(Store::open(&path), Error::FileSize);
    }
    fs::write(&path, &whole).unwrap();
    Store::open(&path).unwrap().close().unwrap();
}
