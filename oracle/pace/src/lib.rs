//! The crate's map with two arenas and their lists, in C's calling form: what a shift record is made of there.
use stacker::{ExpUnrolledLinkedList, MemoryArena, SharedArenaHashMap};
use std::slice::from_raw_parts;

pub struct Record {
    map: SharedArenaHashMap,
    keys: MemoryArena,
    lists: MemoryArena,
    read: Vec<u8>,
}

#[unsafe(no_mangle)]
pub extern "C" fn crate_create(capacity: usize) -> *mut Record {
    Box::into_raw(Box::new(Record {
        map: SharedArenaHashMap::with_capacity(capacity),
        keys: MemoryArena::default(),
        lists: MemoryArena::default(),
        read: Vec::new(),
    }))
}

/// # Safety
/// A record that `crate_create` gave, for the last time.
#[unsafe(no_mangle)]
pub unsafe extern "C" fn crate_free(record: *mut Record) {
    drop(unsafe { Box::from_raw(record) });
}

/// # Safety
/// A record that `crate_create` gave, and two areas that are there.
#[unsafe(no_mangle)]
pub unsafe extern "C" fn crate_append(record: &mut Record, name: *const u8, name_bytes: usize, bytes: *const u8, n: usize) {
    let (name, bytes) = unsafe { (from_raw_parts(name, name_bytes), from_raw_parts(bytes, n)) };
    let lists = &mut record.lists;
    record.map.mutate_or_create(name, &mut record.keys, |standing: Option<ExpUnrolledLinkedList>| {
        let mut list = standing.unwrap_or_default();
        list.writer(lists).extend_from_slice(bytes);
        list
    });
}

/// Whether a lane stands: the crate has no call that tells a lane's length.
/// # Safety
/// A record that `crate_create` gave, and an area that is there.
#[unsafe(no_mangle)]
pub unsafe extern "C" fn crate_stands(record: &Record, name: *const u8, name_bytes: usize) -> bool {
    let name = unsafe { from_raw_parts(name, name_bytes) };
    record.map.get::<ExpUnrolledLinkedList>(name, &record.keys).is_some()
}

/// A lane's bytes into a buffer that is kept; how many, and where.
/// # Safety
/// A record that `crate_create` gave, and an area that is there.
#[unsafe(no_mangle)]
pub unsafe extern "C" fn crate_read(record: &mut Record, name: *const u8, name_bytes: usize, at: &mut *const u8) -> usize {
    let name = unsafe { from_raw_parts(name, name_bytes) };
    record.read.clear();
    if let Some(list) = record.map.get::<ExpUnrolledLinkedList>(name, &record.keys) {
        list.read_to_end(&record.lists, &mut record.read);
    }
    *at = record.read.as_ptr();
    record.read.len()
}
