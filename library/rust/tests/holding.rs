//! Who has a store: what is dropped, forgotten, moved, and used by several threads.

mod common;

use common::{value_in, Folder};
use fstch::{Error, Geometry, Store};
use std::sync::Mutex;
use std::{mem, thread};

#[test]
fn stores_are_sent() {
    fn is_send<T: Send>() {}
    is_send::<Store>();
    is_send::<Mutex<Store>>();
}

/// It is closed, without a sync.
#[test]
fn a_store_is_dropped() {
    let folder = Folder::new("dropped");
    let path = folder.made(4);
    {
        let mut store = Store::open(&path).unwrap();
        store.put(b"key", b"value").unwrap();
        store.sync().unwrap();
        store.put(b"key", b"lost").unwrap();
        refused!(Store::open(&path), Error::InUse);
    }
    assert_eq!(value_in(&path, b"key"), Some(b"value".to_vec()));
}

#[test]
fn a_store_is_forgotten() {
    let folder = Folder::new("forgotten");
    let path = folder.made(4);
    mem::forget(Store::open(&path).unwrap());
    refused!(Store::open(&path), Error::InUse);
}

/// A vector that grows moves what it has.
#[test]
fn stores_are_moved() {
    let folder = Folder::new("moved");
    let mut stores = Vec::with_capacity(1);
    for number in 0..20_u8 {
        let path = folder.file(&format!("{number}.disk"));
        Store::make(&path, Geometry { index_blocks: 1, extents: 2, extent_blocks: 0 }).unwrap();
        let mut store = Store::open(&path).unwrap();
        store.put(b"number", &[number]).unwrap();
        stores.push((path, store));
        stores.swap(0, usize::from(number) / 2);
    }
    for (_, store) in &mut stores {
        store.sync().unwrap();
    }
    stores.sort_by_key(|(_, store)| store.get(b"number").unwrap());
    for (number, (path, store)) in (0..).zip(stores) {
        assert_eq!(store.get(b"number").unwrap(), Some(vec![number]));
        store.close().unwrap();
        assert_eq!(value_in(&path, b"number"), Some(vec![number]));
    }
}

#[test]
fn threads_share_a_store() {
    let folder = Folder::new("shared");
    let path = folder.made(4);
    let store = Mutex::new(Store::open(&path).unwrap());
    let change = |name: u8| {
        for turn in 0..200_u8 {
            let mut held = store.lock().unwrap();
            held.put(&[name], &[turn]).unwrap();
            if turn % 50 == name {
                held.sync().unwrap();
            }
            drop(held);
            assert_eq!(store.lock().unwrap().get(&[name]).unwrap(), Some(vec![turn]));
        }
    };
    thread::scope(|threads| {
        threads.spawn(|| change(1));
        threads.spawn(|| change(2));
    });
    let mut store = store.into_inner().unwrap();
    store.sync().unwrap();
    store.close().unwrap();
    assert_eq!(value_in(&path, &[1]), Some(vec![199]));
    assert_eq!(value_in(&path, &[2]), Some(vec![199]));
}

/// It is opened by one thread, used by another, and closed by a third.
#[test]
fn threads_hand_a_store_on() {
    let folder = Folder::new("handed");
    let path = folder.made(4);
    let mut store = thread::scope(|threads| threads.spawn(|| Store::open(&path).unwrap()).join().unwrap());
    let store = thread::spawn(move || {
        store.put(b"key", b"value").unwrap();
        store.sync().unwrap();
        store
    });
    let store = store.join().unwrap();
    thread::spawn(move || store.close().unwrap()).join().unwrap();
    assert_eq!(value_in(&path, b"key"), Some(b"value".to_vec()));
}

#[test]
fn threads_have_a_store_each() {
    let folder = Folder::new("each");
    thread::scope(|threads| {
        for name in ["one.disk", "two.disk"] {
            let path = folder.file(name);
            threads.spawn(move || {
                Store::make(&path, Geometry { index_blocks: 1, extents: 16, extent_blocks: 0 }).unwrap();
                let mut store = Store::open(&path).unwrap();
                for turn in 0..200_u8 {
                    store.put(&[turn % 40], &name.as_bytes().repeat(turn.into())).unwrap();
                    if turn % 50 == 49 {
                        store.sync().unwrap();
                    }
                }
                store.close().unwrap();
                assert_eq!(value_in(&path, &[7]), Some(name.as_bytes().repeat(167)));
            });
        }
    });
}
