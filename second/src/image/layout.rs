//! Where each field of the table stands in the image's bytes: IMAGE.md's tables as numbers, and the reading and
//! writing of one field. Numbers of more than one byte stand low byte first.

use crate::table::{ListName, FLAG_OBJECTS, MUTEXES, SEMAPHORES};

/// The lists behind the ready lists are the last part.
pub const LENGTH: usize = OTHER_LISTS + OTHER_LIST_BYTES * OTHER_LIST_COUNT;

pub const CLOCK: usize = 0;
pub const SCHEDULING: usize = 4;
pub const CHOSEN: usize = 5;

pub const SCHEDULING_ON: u8 = 0;
pub const SCHEDULING_OFF: u8 = 1;
pub const NONE_CHOSEN: u8 = 255;

/// Each list has this many places, whatever its length.
pub const PLACES: usize = 16;

pub const THREAD_BYTES: usize = 17;
pub const SEMAPHORE_BYTES: usize = 5;
pub const MUTEX_BYTES: usize = 3;
pub const FLAGS_BYTES: usize = 3;
pub const TIMER_BYTES: usize = 17;

/// Every thread, semaphore, mutex and flag object begins with the byte that says whether it is created.
pub const CREATED: usize = 0;

pub const THREAD_BASE: usize = 1;
pub const THREAD_CURRENT: usize = 2;
pub const THREAD_QUANTUM: usize = 3;
pub const THREAD_QUANTUM_LEFT: usize = 5;
pub const THREAD_LIMIT: usize = 7;
pub const THREAD_RESULT: usize = 11;
pub const THREAD_MASK: usize = 12;
pub const THREAD_MODE: usize = 14;
pub const THREAD_DELIVERED: usize = 15;

pub const SEMAPHORE_COUNT: usize = 1;
pub const SEMAPHORE_MAXIMUM: usize = 3;

pub const MUTEX_OWNER: usize = 1;
pub const MUTEX_DEPTH: usize = 2;

pub const FLAGS_WORD: usize = 1;

pub const TIMER_PERIOD: usize = 0;
pub const TIMER_LEFT: usize = 4;
pub const TIMER_REPEAT: usize = 8;
pub const TIMER_KIND: usize = 9;
pub const TIMER_OBJECT: usize = 10;
pub const TIMER_MASK: usize = 11;
pub const TIMER_COUNT: usize = 13;

const READY_LENGTHS: usize = 478;
const READY_IDS: usize = 486;
const OTHER_LISTS: usize = 614;
const OTHER_LIST_BYTES: usize = 17;

/// The numbers of the lists behind the ready lists; of those that objects have, the number of object 0's.
const SLEEP: usize = 0;
const STOPPED: usize = 1;
const OF_SEMAPHORES: usize = 2;
const OF_MUTEXES: usize = OF_SEMAPHORES + SEMAPHORES;
const OF_FLAGS: usize = OF_MUTEXES + MUTEXES;
pub const OTHER_LIST_COUNT: usize = OF_FLAGS + FLAG_OBJECTS;

pub fn thread(id: usize) -> usize {
    6 + THREAD_BYTES * id
}

pub fn semaphore(id: usize) -> usize {
    278 + SEMAPHORE_BYTES * id
}

pub fn mutex(id: usize) -> usize {
    318 + MUTEX_BYTES * id
}

pub fn flags(id: usize) -> usize {
    330 + FLAGS_BYTES * id
}

pub fn timer(id: usize) -> usize {
    342 + TIMER_BYTES * id
}

/// Where a list's length stands.
pub fn list_length(name: ListName) -> usize {
    match name {
        ListName::Ready(priority) => READY_LENGTHS + priority,
        other => OTHER_LISTS + OTHER_LIST_BYTES * other_list(other),
    }
}

/// Where a list's first place stands.
pub fn list_ids(name: ListName) -> usize {
    match name {
        ListName::Ready(priority) => READY_IDS + PLACES * priority,
        other => list_length(other) + 1,
    }
}

/// The number of a list among those behind the ready lists.
fn other_list(name: ListName) -> usize {
    match name {
        ListName::Ready(_) => unreachable!("the ready lists stand apart"),
        ListName::Sleep => SLEEP,
        ListName::Stopped => STOPPED,
        ListName::SemaphoreWait(id) => OF_SEMAPHORES + id,
        ListName::MutexWait(id) => OF_MUTEXES + id,
        ListName::FlagsWait(id) => OF_FLAGS + id,
    }
}

/// The ids on a list. A length that no list can have is read as a full list: there are no more places.
pub fn ids(image: &[u8], name: ListName) -> &[u8] {
    let length = usize::from(image[list_length(name)]).min(PLACES);
    let first = list_ids(name);
    &image[first..first + length]
}

pub fn half(image: &[u8], at: usize) -> u32 {
    u32::from(image[at]) + 256 * u32::from(image[at + 1])
}

pub fn word(image: &[u8], at: usize) -> u32 {
    half(image, at) + 65_536 * half(image, at + 2)
}

pub fn put_half(image: &mut [u8], at: usize, number: u32) {
    assert!(number <= 65_535, "{} doesn't fit two bytes", number);
    image[at] = (number % 256) as u8;
    image[at + 1] = (number / 256) as u8;
}

pub fn put_word(image: &mut [u8], at: usize, number: u32) {
    put_half(image, at, number % 65_536);
    put_half(image, at + 2, number / 65_536);
}
