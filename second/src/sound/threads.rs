//! The threads (01, soundness, parts 1, 2, 5, 8 and 10 to 13): ranges, the one list, priorities, limit, mask and mode,
//! result, quantum. What a flag waiter waits for is looked at with the flag objects.

use super::found::Found;
use super::places::{Place, Places};
use super::Clause;
use crate::image::layout::{self, half, word};
use crate::table::{MUTEXES, THREADS};

pub fn check(image: &[u8], places: &Places, found: &mut Found) {
    for id in 0..THREADS {
        let at = layout::thread(id);
        let thread = &image[at..at + layout::THREAD_BYTES];
        let place = places.thread(id);
        ranges(thread, found);
        if thread[layout::CREATED] == 0 {
            absent(thread, place, found);
        } else {
            one_list(place, found);
            priorities(thread, owns_a_mutex(image, id), found);
            limit(thread, place, found);
            mask_and_mode(thread, place, found);
            result(thread, place, found);
            quantum(thread, found);
        }
    }
}

fn ranges(thread: &[u8], found: &mut Found) {
    found.note(Clause::ThreadCreatedRange, thread[layout::CREATED] > 1);
    found.note(Clause::BaseRange, thread[layout::THREAD_BASE] > 7);
    found.note(Clause::CurrentRange, thread[layout::THREAD_CURRENT] > 7);
    found.note(Clause::ResultRange, thread[layout::THREAD_RESULT] > 2);
}

fn absent(thread: &[u8], place: &Place, found: &mut Found) {
    found.note(Clause::AbsentOnList, place.lists > 0);
    found.note(Clause::AbsentNotZero, thread.iter().any(|byte| *byte != 0));
}

fn one_list(place: &Place, found: &mut Found) {
    found.note(Clause::CreatedOnNoList, place.lists == 0);
    found.note(Clause::CreatedOnTwoLists, place.lists > 1);
    found.note(Clause::CreatedTwiceOnOneList, place.twice);
}

fn priorities(thread: &[u8], owner: bool, found: &mut Found) {
    let base = thread[layout::THREAD_BASE];
    let current = thread[layout::THREAD_CURRENT];
    found.note(Clause::CurrentBelowBase, current < base);
    found.note(Clause::CurrentAboveBase, current > base && !owner);
}

/// A mutex of depth 0 is unowned, whatever stands in its owner's place.
fn owns_a_mutex(image: &[u8], id: usize) -> bool {
    (0..MUTEXES)
        .map(layout::mutex)
        .any(|at| image[at + layout::MUTEX_DEPTH] > 0 && usize::from(image[at + layout::MUTEX_OWNER]) == id)
}

fn limit(thread: &[u8], place: &Place, found: &mut Found) {
    let limit = word(thread, layout::THREAD_LIMIT);
    found.note(Clause::SleeperLimitZero, place.asleep && limit == 0);
    if !place.waits() && !place.asleep {
        found.note(Clause::ReadyLimit, place.ready && limit != 0);
        found.note(Clause::StoppedLimit, !place.ready && limit != 0);
    }
}

fn mask_and_mode(thread: &[u8], place: &Place, found: &mut Found) {
    if !place.waits_for_flags {
        found.note(Clause::MaskWithoutFlagWait, half(thread, layout::THREAD_MASK) != 0);
        found.note(Clause::ModeWithoutFlagWait, thread[layout::THREAD_MODE] != 0);
    }
}

fn result(thread: &[u8], place: &Place, found: &mut Found) {
    let given = thread[layout::THREAD_RESULT] != 0;
    found.note(Clause::SemaphoreWaiterResult, place.waits_for_semaphore && given);
    found.note(Clause::MutexWaiterResult, place.waits_for_mutex && given);
    found.note(Clause::FlagWaiterResult, place.waits_for_flags && given);
    found.note(Clause::SleeperResult, place.asleep && given);
}

fn quantum(thread: &[u8], found: &mut Found) {
    let quantum = half(thread, layout::THREAD_QUANTUM);
    let left = half(thread, layout::THREAD_QUANTUM_LEFT);
    found.note(Clause::QuantumLeftZero, quantum > 0 && left == 0);
    found.note(Clause::QuantumLeftAboveQuantum, quantum > 0 && left > quantum);
    found.note(Clause::QuantumZeroWithLeft, quantum == 0 && left > 0);
}
