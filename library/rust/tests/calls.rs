//! What each call does.

mod common;

use common::{value_in, Folder};
use fstch::{Counts, Entry, Extent, Geometry, Options, Statistics, Store};
use fstch::{MAX_KEY, MAX_VALUE, NO_WRITER, VERSION, WRITERS};
use std::collections::BTreeMap;
use std::ffi::OsStr;
use std::ops::{Bound, RangeBounds};
use std::os::unix::ffi::OsStrExt;

#[test]
fn the_library_is_of_the_version() {
    assert_eq!(fstch::version() / 100, VERSION / 100);
}

#[test]
fn files_are_made_and_opened() {
    let folder = Folder::new("made");
    let path = folder.made(4);
    let store = Store::open(&path).unwrap();
    assert_eq!(store.check().unwrap(), Counts { entries: 0, extents: 4 });
    assert_eq!(format!("{store:?}"), "Store { .. }");
    store.close().unwrap();
    Store::open(&path).unwrap().close().unwrap();
}

#[test]
fn names_are_any_bytes() {
    let folder = Folder::new("names");
    let path = folder.file("").join(OsStr::from_bytes(b"\xff\xc3.disk"));
    Store::make(&path, Geometry { index_blocks: 1, extents: 2, extent_blocks: 0 }).unwrap();
    Store::open(&path).unwrap().close().unwrap();
}

#[test]
fn values_are_kept() {
    let folder = Folder::new("values");
    let mut store = folder.store(4);
    assert_eq!(store.get(b"key").unwrap(), None);
    assert_eq!(store.value_length(b"key").unwrap(), None);
    store.put(b"key", b"first").unwrap();
    store.put_by(0, b"key", b"value").unwrap();
    assert_eq!(store.get(b"key").unwrap(), Some(b"value".to_vec()));
    assert_eq!(store.value_length(b"key").unwrap(), Some(5));
    store.put_by(NO_WRITER, b"k\0y", b"").unwrap();
    assert_eq!(store.get(b"k\0y").unwrap(), Some(Vec::new()));
    assert_eq!(store.value_length(b"k\0y").unwrap(), Some(0));
    assert_eq!(store.get(b"k").unwrap(), None);
    store.delete(b"key").unwrap();
    store.delete_by(WRITERS - 1, b"k\0y").unwrap();
    assert_eq!(store.get(b"key").unwrap(), None);
    assert_eq!(store.check().unwrap().entries, 0);
}

#[test]
fn memory_is_used_again() {
    let folder = Folder::new("memory");
    let mut store = folder.store(4);
    store.put(b"long", &[7; 1000]).unwrap();
    store.put(b"short", b"value").unwrap();
    store.put(b"empty", b"").unwrap();
    let mut into = b"before".to_vec();
    assert!(!store.get_into(b"absent", &mut into).unwrap());
    assert!(store.get_into(b"", &mut into).is_err());
    assert_eq!(into, b"before");
    assert!(store.get_into(b"long", &mut into).unwrap());
    assert_eq!(into, [7; 1000]);
    let (place, room) = (into.as_ptr(), into.capacity());
    assert!(store.get_into(b"short", &mut into).unwrap());
    assert_eq!(into, b"value");
    assert!(store.get_into(b"empty", &mut into).unwrap());
    assert_eq!(into, b"");
    assert!(store.get_into(b"long", &mut into).unwrap());
    assert_eq!(into, [7; 1000]);
    assert_eq!((place, room), (into.as_ptr(), into.capacity()));
}

#[test]
fn the_longest_are_kept() {
    let folder = Folder::new("longest");
    let path = folder.file("test.disk");
    Store::make(&path, Geometry { index_blocks: 1, extents: 4, extent_blocks: 64 }).unwrap();
    let mut store = Store::open(&path).unwrap();
    let (key, value) = ([b'k'; MAX_KEY], vec![b'v'; MAX_VALUE]);
    store.put(&key, &value).unwrap();
    assert_eq!(store.get(&key).unwrap(), Some(value));
}

/// The header wants buffers that don't overlap, and a caller of the crate may give one slice twice.
#[test]
fn a_slice_is_key_and_value() {
    let folder = Folder::new("slice");
    let mut store = folder.store(4);
    let bytes = b"both the key and its value";
    store.put(bytes, bytes).unwrap();
    store.put(&bytes[..8], &bytes[4..]).unwrap();
    assert_eq!(store.get(bytes).unwrap(), Some(bytes.to_vec()));
    assert_eq!(store.get(b"both the").unwrap(), Some(bytes[4..].to_vec()));
}

#[test]
fn syncs_make_changes_last() {
    let folder = Folder::new("syncs");
    let path = folder.made(4);
    let mut store = Store::open(&path).unwrap();
    assert_eq!(store.unsynced().unwrap(), 0);
    store.put(b"kept", b"value").unwrap();
    store.put(b"deleted", b"value").unwrap();
    assert!(store.unsynced().unwrap() > 0);
    store.sync().unwrap();
    assert_eq!(store.unsynced().unwrap(), 0);
    store.delete(b"deleted").unwrap();
    store.sync().unwrap();
    store.sync().unwrap(); // nothing is left to be written
    store.put(b"kept", b"lost").unwrap();
    store.put(b"new", b"lost").unwrap();
    store.close().unwrap();
    assert_eq!(value_in(&path, b"kept"), Some(b"value".to_vec()));
    assert_eq!(value_in(&path, b"deleted"), None);
    assert_eq!(value_in(&path, b"new"), None);
}

#[test]
fn files_are_opened_with_flags() {
    let folder = Folder::new("flags");
    let path = folder.made(4);
    let mut store = Store::open_with(&path, Options::new().no_barriers()).unwrap();
    store.put(b"key", b"value").unwrap();
    store.sync().unwrap();
    store.close().unwrap();
    let first = Store::open_with(&path, Options::new().read_only()).unwrap();
    let mut second = Store::open_with(&path, Options::new().no_barriers().read_only()).unwrap();
    second.put(b"key", b"other").unwrap();
    assert_eq!(first.get(b"key").unwrap(), Some(b"value".to_vec()));
    assert_eq!(second.get(b"key").unwrap(), Some(b"other".to_vec()));
    drop((first, second));
    let store = Store::open_with(&path, Options::default()).unwrap();
    assert_eq!(store.get(b"key").unwrap(), Some(b"value".to_vec()));
}

#[test]
fn entries_are_told() {
    let folder = Folder::new("entries");
    let mut store = folder.store(4);
    assert_eq!(store.entries().next(), None);
    let keys: [&[u8]; 3] = [b"a", b"bc", b"the longest key that may be here"];
    for (length, key) in keys.iter().enumerate() {
        store.put(key, &vec![0; length]).unwrap();
    }
    let entries: Vec<_> = store.entries().collect();
    let mut told: Vec<_> = entries.iter().map(|entry| (entry.value_length(), entry.key())).collect();
    told.sort_unstable();
    assert_eq!(told, keys.into_iter().enumerate().collect::<Vec<_>>());
    for (number, entry) in (0..).zip(&entries) {
        assert_eq!(store.entry(number).unwrap().as_ref(), Some(entry));
        assert_eq!(store.value_length(entry.key()).unwrap(), Some(entry.value_length()));
    }
    assert_eq!(store.entry(3).unwrap(), None);
    assert_eq!(store.entry(u32::MAX).unwrap(), None);
    let mut over = store.entries();
    assert_eq!(over.by_ref().count(), 3);
    assert_eq!((over.next(), over.next()), (None, None));
}

/// Keys in no order, of which some begin alike.
const KEYS: [&[u8]; 11] =
    [b"b", b"ab\0", b"\xff\xff", b"a", &[b'k'; MAX_KEY], b"\0", b"abc", &[b'k'; MAX_KEY - 1], b"\xff", b"ab", b"k"];

/// A store that has these keys and had others, and a map of the lengths of their values.
fn store_and_map(folder: &Folder) -> (Store, BTreeMap<Vec<u8>, usize>) {
    let mut store = folder.store(4);
    let mut map = BTreeMap::new();
    for (length, key) in KEYS.iter().enumerate() {
        store.put(key, &vec![0; length]).unwrap();
        map.insert(key.to_vec(), length);
    }
    for key in [&b"aa"[..], b"\xff\xff\xff"] {
        store.put(key, b"value").unwrap();
        store.delete(key).unwrap();
    }
    (store, map)
}

/// Where a range may begin or end: at each key, right behind it and right before, and where a key can't be.
fn places() -> Vec<Vec<u8>> {
    let mut places = vec![Vec::new(), vec![b'k'; MAX_KEY + 1], vec![b'k'; 40], vec![0xff; 40]];
    for key in KEYS {
        let (last, begin) = key.split_last().unwrap();
        places.extend([key.to_vec(), [key, b"\0"].concat(), begin.to_vec()]);
        places.extend(last.checked_sub(1).map(|less| [begin, &[less], &[0xff; MAX_KEY]].concat()));
    }
    places
}

fn told(entry: Entry) -> (Vec<u8>, usize) {
    (entry.key().to_vec(), entry.value_length())
}

#[test]
fn keys_are_in_order() {
    let folder = Folder::new("order");
    let (store, map) = store_and_map(&folder);
    for place in places() {
        let next = map.range(place.clone()..).next().map(|(key, length)| (key.clone(), *length));
        assert_eq!(store.next_key(&place).unwrap().map(told), next, "from {place:?} on");
        let previous = map.range(..place.clone()).next_back().map(|(key, length)| (key.clone(), *length));
        assert_eq!(store.previous_key(&place).unwrap().map(told), previous, "before {place:?}");
    }
    assert_eq!(store.last_key().unwrap().map(told), map.into_iter().next_back());
}

#[test]
fn an_empty_store_has_no_key() {
    let folder = Folder::new("empty");
    let store = folder.store(4);
    assert_eq!(store.next_key(b"").unwrap(), None);
    assert_eq!(store.previous_key(&[0xff; 40]).unwrap(), None);
    assert_eq!(store.last_key().unwrap(), None);
    assert_eq!((store.range(..).next(), store.range(..).next_back()), (None, None));
}

/// What a range has, by turns from its two ends.
fn from_both_ends(mut entries: impl DoubleEndedIterator<Item = Entry>) -> Vec<(Vec<u8>, usize)> {
    let (mut front, mut back) = (Vec::new(), Vec::new());
    while let Some(entry) = entries.next() {
        front.push(told(entry));
        back.extend(entries.next_back().map(told));
    }
    assert_eq!((entries.next(), entries.next_back()), (None, None));
    back.reverse();
    front.extend(back);
    front
}

#[test]
fn ranges_have_bounds() {
    let folder = Folder::new("bounds");
    let (store, map) = store_and_map(&folder);
    let places = places();
    let bounds = |place| [Bound::Included(place), Bound::Excluded(place), Bound::Unbounded];
    for from in places.iter().flat_map(|place| bounds(place.as_slice())) {
        for to in places.iter().flat_map(|place| bounds(place.as_slice())) {
            let range = (from, to);
            let is_in = |key: &[u8]| RangeBounds::<&[u8]>::contains(&range, &key);
            let mut wanted: Vec<_> = map.clone().into_iter().filter(|(key, _)| is_in(key)).collect();
            assert_eq!(store.range(range).map(told).collect::<Vec<_>>(), wanted, "{range:?}");
            assert_eq!(from_both_ends(store.range(range)), wanted, "{range:?}");
            wanted.reverse();
            assert_eq!(store.range(range).rev().map(told).collect::<Vec<_>>(), wanted, "{range:?}");
        }
    }
}

#[test]
fn ranges_are_over_once() {
    let folder = Folder::new("ranges");
    let (store, map) = store_and_map(&folder);
    assert_eq!(store.range(..).map(told).collect::<BTreeMap<_, _>>(), map);
    let mut over = store.range(&b"a"[..]..=b"abc");
    assert_eq!(over.clone().map(told).map(|(key, _)| key).collect::<Vec<_>>(), [&b"a"[..], b"ab", b"ab\0", b"abc"]);
    assert_eq!(over.by_ref().count(), 4);
    assert_eq!((over.next(), over.next_back(), over.next()), (None, None, None));
    let mut back = store.range(&b"a"[..]..=b"abc").rev();
    assert_eq!(back.by_ref().count(), 4);
    assert_eq!((back.next(), back.next_back(), back.next()), (None, None, None));
}

/// The file has 67 blocks: 2, that of the index, and 16 for each extent. Puts are written in three waves, and a delete in
/// one.
#[test]
fn statistics_follow_a_store() {
    let folder = Folder::new("statistics");
    let path = folder.made(4);
    let mut store = Store::open(&path).unwrap();
    let mut wanted = Statistics {
        keys: 0,
        unsynced: 0,
        live_bytes: 0,
        file_bytes: 67 * 4096,
        extents: 4,
        empty_extents: 4,
        syncs: 0,
        waves: 0,
    };
    assert_eq!(store.statistics().unwrap(), wanted);
    store.put(b"key", b"value").unwrap();
    store.put(b"key", b"other").unwrap();
    store.put(b"more", b"").unwrap();
    let unsynced = store.unsynced().unwrap();
    assert!(unsynced > 0);
    wanted = Statistics { keys: 2, unsynced, live_bytes: 24 + 20, empty_extents: 3, ..wanted };
    assert_eq!(store.statistics().unwrap(), wanted);
    store.sync().unwrap();
    wanted = Statistics { unsynced: 0, syncs: 1, waves: 3, ..wanted };
    assert_eq!(store.statistics().unwrap(), wanted);
    store.delete(b"key").unwrap();
    store.sync().unwrap();
    wanted = Statistics { keys: 1, live_bytes: 20, syncs: 2, waves: 4, ..wanted };
    assert_eq!(store.statistics().unwrap(), wanted);
    store.sync().unwrap(); // nothing is left to be written
    assert_eq!(store.statistics().unwrap(), Statistics { syncs: 3, ..wanted });
    store.close().unwrap();
    let store = Store::open(&path).unwrap();
    assert_eq!(store.statistics().unwrap(), Statistics { syncs: 0, waves: 0, ..wanted });
}

/// A frame has 16 bytes beside its key and its value.
#[test]
fn extents_are_measured() {
    let folder = Folder::new("extents");
    let mut store = folder.store(4);
    store.put(b"key", b"value").unwrap();
    store.put(b"key", b"other").unwrap();
    store.put(b"more", b"").unwrap();
    let (full, empty) = (Extent { live: 24 + 20, filled: 24 + 24 + 20 }, Extent { live: 0, filled: 0 });
    assert_eq!(store.extents().collect::<Vec<_>>(), [full, empty, empty, empty]);
    assert_eq!(store.extent(0).unwrap(), full);
    assert_eq!(store.extent(3).unwrap(), empty);
}

/// Three extents of 65,536 bytes, of which one stays empty: two times a value of 32,768 bytes with its frame, and a
/// short one.
#[test]
fn extents_are_won_back() {
    let folder = Folder::new("reclaim");
    let mut store = folder.store_by_hand(3);
    let value = vec![2; 32768];
    store.put(b"short", b"value").unwrap();
    store.put(b"long", &vec![1; 32768]).unwrap();
    store.put(b"long", &value).unwrap();
    assert!(store.put(b"other", &value).is_err());
    store.reclaim(0).unwrap();
    store.put(b"other", &value[..32000]).unwrap();
    store.sync().unwrap();
    assert_eq!(store.get(b"short").unwrap(), Some(b"value".to_vec()));
    assert_eq!(store.get(b"long").unwrap(), Some(value));
}

/// Four extents have room for 52 of these values. Some keys are overwritten often, and others never: these are moved.
#[test]
fn puts_win_room_back() {
    let folder = Folder::new("room");
    let path = folder.made(4);
    let mut store = Store::open(&path).unwrap();
    let mut map = BTreeMap::new();
    for key in 0..10_u8 {
        store.put(&[key], &[key; 5000]).unwrap();
        map.insert(vec![key], vec![key; 5000]);
    }
    for turn in 0..500_u32 {
        let (key, value) = ([(turn * turn % 10) as u8], vec![(turn % 251) as u8; 5000]);
        store.put(&key, &value).unwrap();
        assert!(store.statistics().unwrap().empty_extents > 0);
        map.insert(key.to_vec(), value);
    }
    store.sync().unwrap();
    assert_eq!(all_of(&store), map);
    store.close().unwrap();
    assert_eq!(all_of(&Store::open(&path).unwrap()), map);
}

/// All keys with their values.
fn all_of(store: &Store) -> BTreeMap<Vec<u8>, Vec<u8>> {
    store.entries().map(|entry| (entry.key().to_vec(), store.get(entry.key()).unwrap().unwrap())).collect()
}

#[test]
fn groups_are_kept_in_order() {
    let folder = Folder::new("groups");
    let mut store = folder.store(4);
    let (first, second) = (store.group().unwrap(), store.group().unwrap());
    assert_eq!((first.number(), second.number()), (0, 1));
    store.group_engage(first, 0).unwrap();
    store.group_engage(first, 1).unwrap();
    store.put_by(2, b"no group", b"value").unwrap();
    store.put(b"no writer", b"value").unwrap();
    assert_eq!(store.group_pending(first).unwrap(), 0);
    store.put_by(1, b"data", b"value").unwrap();
    assert!(store.group_pending(first).unwrap() > 0);
    store.group_disengage(first, 1).unwrap();
    store.group_disengage(first, 0).unwrap();
    store.group_depend(second, first).unwrap();
    store.group_engage(second, 0).unwrap();
    store.put_by(0, b"name", b"data").unwrap();
    store.group_disengage(second, 0).unwrap();
    store.group_close(first).unwrap();
    assert!(store.group_pending(second).unwrap() > 0);
    store.sync().unwrap();
    assert_eq!(store.group_pending(second).unwrap(), 0);
    store.group_close(second).unwrap();
    assert_eq!(store.get(b"name").unwrap(), Some(b"data".to_vec()));
}

/// Behind a sync, where more than 512 groups were made and each is closed or was never engaged.
#[test]
fn stores_begin_anew() {
    let folder = Folder::new("anew");
    let mut store = folder.store(4);
    let first = store.group().unwrap();
    store.group_engage(first, 0).unwrap();
    store.put_by(0, b"key", b"value").unwrap();
    store.group_disengage(first, 0).unwrap();
    let mut last = first;
    for _ in 1..513 {
        last = store.group().unwrap();
    }
    store.sync().unwrap();
    assert_eq!(store.group_pending(last).unwrap(), 0);
    store.group_close(first).unwrap();
    store.sync().unwrap();
    assert!(store.group_pending(last).is_err());
    assert_eq!(store.group().unwrap().number(), 0);
    assert_eq!(store.get(b"key").unwrap(), Some(b"value".to_vec()));
}
