//! The cache: what each call does, and each refusal that a program can bring about.

mod common;

use fstch::cache::{Cache, Counts, Error, Mark, Undo, BLOCK, MAX_BLOCKS, MAX_LIVE};
use fstch::{NO_WRITER, WRITERS};
use std::sync::Mutex;
use std::thread;

/// A cache of so many blocks, all resident and zeros.
fn of(blocks: u32) -> Cache {
    let mut cache = Cache::open(blocks).unwrap();
    for block in 0..blocks {
        cache.admit(block, &[0; BLOCK]).unwrap();
    }
    cache
}

fn front<const COUNT: usize>(cache: &Cache, block: u32) -> [u8; COUNT] {
    let mut bytes = [0; COUNT];
    cache.read(block, 0, &mut bytes).unwrap();
    bytes
}

/// Begins and completes all writes, until there is none. How many there were.
fn write_all(cache: &mut Cache) -> usize {
    let mut count = 0;
    while let Some(block) = cache.next().unwrap() {
        let flight = cache.send(block).unwrap();
        cache.complete(flight).unwrap();
        count += 1;
    }
    count
}

#[test]
fn caches_are_opened() {
    refused!(Cache::open(0), Error::FileSize);
    refused!(Cache::open(MAX_BLOCKS + 1), Error::FileSize);
    let cache = Cache::open(MAX_BLOCKS).unwrap();
    assert_eq!(cache.counts(), Ok(Counts { blocks: MAX_BLOCKS, ..Counts::default() }));
    assert_eq!(format!("{cache:?}"), "Cache { .. }");
    cache.close().unwrap();
}

#[test]
fn blocks_come_and_go() {
    let mut cache = Cache::open(3).unwrap();
    assert_eq!(cache.is_resident(2), Ok(false));
    refused!(cache.is_resident(3), Error::NoSuchBlock);
    refused!(cache.admit(3, &[0; BLOCK]), Error::NoSuchBlock);
    cache.admit(2, &[7; BLOCK]).unwrap();
    assert_eq!(cache.is_resident(2), Ok(true));
    refused!(cache.admit(2, &[7; BLOCK]), Error::IsResident);
    assert_eq!(front::<4>(&cache, 2), [7; 4]);
    cache.patch(2, 1, b"x", &[]).unwrap();
    refused!(cache.evict(2), Error::Live);
    assert_eq!(write_all(&mut cache), 1);
    cache.evict(2).unwrap();
    refused!(cache.evict(2), Error::NotResident);
    refused!(cache.evict(3), Error::NoSuchBlock);
    refused!(cache.read(2, 0, &mut [0]), Error::NotResident);
    refused!(cache.patch(2, 1, b"x", &[]), Error::NotResident);
    refused!(cache.send(2), Error::NotResident);
}

#[test]
fn patches_are_in_order() {
    let mut cache = of(2);
    assert_eq!(cache.next(), Ok(None));
    let data = cache.patch(1, 0, b"data", &[]).unwrap();
    let name = cache.patch(0, 0, b"name", &[data]).unwrap();
    assert_eq!((data, name), (0, 1));
    assert_eq!(front(&cache, 0), *b"name");
    assert_eq!(cache.next(), Ok(Some(1)));
    refused!(cache.send(0), Error::NothingReady);
    let flight = cache.send(1).unwrap();
    assert_eq!((flight.block(), flight.number(), &flight.image()[..5]), (1, 0, &b"data\0"[..]));
    assert_eq!(cache.patches_of(&flight), Ok(vec![data]));
    assert_eq!((cache.mark(data), cache.mark(name)), (Ok(Mark::Flight), Ok(Mark::Memory)));
    refused!(cache.send(1), Error::AlreadyInFlight);
    refused!(cache.renew(), Error::Live);
    cache.complete(flight).unwrap();
    assert_eq!(cache.mark(data), Ok(Mark::Durable));
    refused!(cache.mark(2), Error::Unknown);
    assert_eq!(write_all(&mut cache), 1);
    assert_eq!(cache.counts().map(|it| (it.made, it.live)), Ok((2, 0)));
    cache.renew().unwrap();
    refused!(cache.patch(0, 0, b"x", &[0]), Error::UnknownDependency);
    assert_eq!(cache.patch(0, 0, b"x", &[]), Ok(0));
    assert_eq!(front(&cache, 0), *b"xame");
}

#[test]
fn flights_are_found_again() {
    let mut cache = of(1);
    for place in 0..100 {
        cache.patch(0, place, b"x", &[]).unwrap();
    }
    let flight = cache.send(0).unwrap();
    let (image, patches) = (flight.image().to_vec(), cache.patches_of(&flight).unwrap());
    assert_eq!(patches, (0..100).collect::<Vec<_>>());
    let (block, number) = flight.into_numbers();
    refused!(cache.flight(block, number + 1), Error::Stranger);
    let (one, other) = (cache.flight(block, number).unwrap(), cache.flight(block, number).unwrap());
    assert_eq!((&one, one.image()), (&other, &*image));
    cache.complete(one).unwrap();
    refused!(cache.complete(other), Error::Stranger);
    refused!(cache.flight(block, number), Error::Stranger);
}

#[test]
fn patches_are_refused() {
    let mut cache = of(1);
    refused!(cache.patch(1, 0, b"", &[0]), Error::NoSuchBlock);
    refused!(cache.patch(0, BLOCK, b"", &[0]), Error::EmptyPatch);
    refused!(cache.patch(0, BLOCK, b"x", &[0]), Error::OutOfBlock);
    refused!(cache.patch(0, usize::MAX, b"x", &[0]), Error::OutOfBlock);
    refused!(cache.patch(0, 0, &[0; BLOCK + 1], &[]), Error::OutOfBlock);
    for writer in [WRITERS, NO_WRITER - 1] {
        refused!(cache.patch_by(writer, 1, 0, b"x", &[], Undo::Keep), Error::BadWriter);
    }
    refused!(cache.read(0, BLOCK, &mut [0]), Error::OutOfBlock);
    refused!(cache.read(0, 1, &mut [0; BLOCK]), Error::OutOfBlock);
    for _ in 0..MAX_LIVE {
        cache.patch(0, 0, b"x", &[]).unwrap();
    }
    refused!(cache.patch(0, 0, b"x", &[]), Error::TooManyLive);
}

/// The header wants lists that don't overlap, and a caller of the crate may give one place twice.
#[test]
fn bytes_are_names() {
    let mut cache = of(1);
    let numbers = [0_u32; 4];
    cache.patch(0, 0, b"first", &[]).unwrap();
    // SAFETY: it is the memory of the numbers.
    let bytes = unsafe { std::slice::from_raw_parts(numbers.as_ptr().cast::<u8>(), 16) };
    assert_eq!(cache.patch(0, 0, bytes, &numbers), Ok(1));
    assert_eq!(front(&cache, 0), [0_u8; 5]);
}

#[test]
fn classes_are_merged_and_left_out() {
    let mut cache = of(2);
    let low = cache.patch(0, 0, b"aaaa", &[]).unwrap();
    let high = cache.patch(0, 2, b"bbbb", &[]).unwrap();
    let other = cache.patch(1, 0, b"other", &[low]).unwrap();
    let back = cache.patch(0, 6, b"back", &[other]).unwrap();
    let mut bytes = [0; 6];
    cache.without(0, &[high], 0, &mut bytes).unwrap();
    assert_eq!(&bytes, b"aaaa\0\0");
    cache.without(0, &[high, low], 0, &mut bytes).unwrap();
    assert_eq!(&bytes, b"\0\0\0\0\0\0");
    refused!(cache.without(0, &[low], 0, &mut bytes), Error::DependentApplied { class: 1 });
    refused!(cache.without(0, &[high, high], 0, &mut bytes), Error::AlreadyTaken);
    refused!(cache.without(0, &[other], 0, &mut bytes), Error::Unknown);
    refused!(cache.merge(low, back + 1), Error::Unknown);
    refused!(cache.merge(low, low), Error::Same);
    refused!(cache.merge(low, other), Error::OtherBlock);
    assert_eq!(cache.merge(high, low), Ok(low));
    refused!(cache.merge(back, low), Error::WouldCycle { class: 2 });
    let hard = cache.patch_by(NO_WRITER, 0, 100, b"hard", &[], Undo::MayDrop).unwrap();
    let beside = cache.patch(0, 104, b"beside", &[]).unwrap();
    refused!(cache.merge(beside, hard), Error::Hard { patch: Some(4) });
    refused!(cache.merge(beside, low), Error::Apart);
    refused!(cache.without(0, &[hard], 0, &mut bytes), Error::Hard { patch: None });
    let flight = cache.send(0).unwrap();
    refused!(cache.without(0, &[low], 0, &mut bytes), Error::InFlight);
    refused!(cache.merge(back, high), Error::NotInMemory { patch: 1 });
    cache.complete(flight).unwrap();
    refused!(cache.without(0, &[low], 0, &mut bytes), Error::Durable);
    assert_eq!(&bytes, b"\0\0\0\0\0\0");
}

#[test]
fn groups_are_kept_in_order() {
    let mut cache = of(2);
    let (first, second) = (cache.group().unwrap(), cache.group().unwrap());
    assert_eq!((first.number(), second.number()), (0, 1));
    refused!(cache.group_engage(first, WRITERS), Error::BadWriter);
    refused!(cache.group_engage(first, NO_WRITER), Error::BadWriter);
    refused!(cache.group_disengage(first, 0), Error::NotEngaged);
    cache.group_engage(first, 0).unwrap();
    refused!(cache.group_engage(first, 0), Error::Engaged);
    refused!(cache.group_depend(second, first), Error::Engaged);
    refused!(cache.group_close(first), Error::Engaged);
    cache.patch_by(0, 1, 0, b"data", &[], Undo::Keep).unwrap();
    cache.patch_by(1, 1, 9, b"no group", &[], Undo::Keep).unwrap();
    assert_eq!(cache.group_pending(first), Ok(1));
    cache.group_disengage(first, 0).unwrap();
    refused!(cache.group_depend(first, first), Error::SameGroup);
    refused!(cache.group_depend(first, second), Error::Started);
    cache.group_depend(second, first).unwrap();
    refused!(cache.group_engage(first, 0), Error::Sealed);
    cache.group_engage(second, 0).unwrap();
    cache.patch_by(0, 0, 0, b"name", &[], Undo::Keep).unwrap();
    cache.group_disengage(second, 0).unwrap();
    refused!(cache.send(0), Error::NothingReady);
    assert_eq!(write_all(&mut cache), 2);
    assert_eq!(cache.group_pending(second), Ok(0));
    refused!(cache.renew(), Error::Live);
    for group in [first, second] {
        cache.group_close(group).unwrap();
        refused!(cache.group_close(group), Error::NoSuchGroup);
        refused!(cache.group_pending(group), Error::NoSuchGroup);
    }
    cache.renew().unwrap();
    for _ in 0..1024 {
        cache.group().unwrap();
    }
    refused!(cache.group(), Error::TooManyGroups);
}

#[test]
fn caches_are_shared() {
    fn is_send<T: Send>() {}
    is_send::<Cache>();
    let cache = Mutex::new(of(4));
    thread::scope(|threads| {
        for block in 0..4 {
            let cache = &cache;
            threads.spawn(move || {
                for place in 0..50 {
                    cache.lock().unwrap().patch(block, place, b"x", &[]).unwrap();
                }
            });
        }
    });
    let mut cache = cache.into_inner().unwrap();
    assert_eq!(cache.counts().map(|it| it.made), Ok(200));
    assert_eq!(write_all(&mut cache), 4);
    assert_eq!(front(&cache, 3), [b'x'; 50]);
}
