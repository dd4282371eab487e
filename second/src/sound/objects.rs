//! Semaphores, mutexes and flag objects with their waiters (01, soundness, parts 1, 6, 7, 8 and 14).

use super::found::Found;
use super::Clause;
use crate::image::layout::{self, half};
use crate::table::{ListName, FLAG_OBJECTS, MUTEXES, SEMAPHORES, THREADS};

pub fn check(image: &[u8], found: &mut Found) {
    for id in 0..SEMAPHORES {
        let at = layout::semaphore(id);
        let waiters = image[layout::list_length(ListName::SemaphoreWait(id))] > 0;
        semaphore(&image[at..at + layout::SEMAPHORE_BYTES], waiters, found);
    }
    for id in 0..MUTEXES {
        mutex(image, id, found);
    }
    for id in 0..FLAG_OBJECTS {
        flags(image, id, found);
    }
}

fn all_zero(bytes: &[u8]) -> bool {
    bytes.iter().all(|byte| *byte == 0)
}

fn semaphore(semaphore: &[u8], waiters: bool, found: &mut Found) {
    let created = semaphore[layout::CREATED];
    let count = half(semaphore, layout::SEMAPHORE_COUNT);
    let maximum = half(semaphore, layout::SEMAPHORE_MAXIMUM);
    found.note(Clause::SemaphoreCreatedRange, created > 1);
    found.note(Clause::MaximumZero, created != 0 && maximum == 0);
    found.note(Clause::CountWithWaiters, waiters && count != 0);
    found.note(Clause::CountAboveMaximum, count > maximum);
    found.note(Clause::SemaphoreAbsentNotZero, created == 0 && !all_zero(semaphore));
    found.note(Clause::SemaphoreAbsentWithWaiters, created == 0 && waiters);
}

fn mutex(image: &[u8], id: usize, found: &mut Found) {
    let at = layout::mutex(id);
    let mutex = &image[at..at + layout::MUTEX_BYTES];
    let created = mutex[layout::CREATED];
    let owner = mutex[layout::MUTEX_OWNER];
    let owned = mutex[layout::MUTEX_DEPTH] > 0;
    let name = ListName::MutexWait(id);
    let waiters = image[layout::list_length(name)] > 0;
    found.note(Clause::MutexCreatedRange, created > 1);
    found.note(Clause::OwnerRange, usize::from(owner) >= THREADS);
    found.note(Clause::UnownedOwnerNotZero, !owned && owner != 0);
    found.note(Clause::UnownedWithWaiters, !owned && waiters);
    found.note(Clause::OwnerAbsent, owned && is_absent_thread(image, owner));
    found.note(
        Clause::OwnerAmongWaiters,
        owned && layout::ids(image, name).contains(&owner),
    );
    found.note(Clause::MutexAbsentNotZero, created == 0 && !all_zero(mutex));
    found.note(Clause::MutexAbsentWithWaiters, created == 0 && waiters);
}

fn is_absent_thread(image: &[u8], id: u8) -> bool {
    usize::from(id) < THREADS && image[layout::thread(usize::from(id)) + layout::CREATED] == 0
}

fn flags(image: &[u8], id: usize, found: &mut Found) {
    let at = layout::flags(id);
    let flags = &image[at..at + layout::FLAGS_BYTES];
    let created = flags[layout::CREATED];
    let word = half(flags, layout::FLAGS_WORD);
    let name = ListName::FlagsWait(id);
    let waiters = image[layout::list_length(name)] > 0;
    for waiter in layout::ids(image, name)
        .iter()
        .filter(|waiter| usize::from(**waiter) < THREADS)
    {
        let at = layout::thread(usize::from(*waiter));
        flag_waiter(&image[at..at + layout::THREAD_BYTES], word, found);
    }
    found.note(Clause::FlagsCreatedRange, created > 1);
    found.note(Clause::FlagsAbsentNotZero, created == 0 && !all_zero(flags));
    found.note(Clause::FlagsAbsentWithWaiters, created == 0 && waiters);
}

fn flag_waiter(thread: &[u8], word: u32, found: &mut Found) {
    let mask = half(thread, layout::THREAD_MASK);
    let mode = thread[layout::THREAD_MODE];
    let set = word & mask;
    found.note(Clause::AnySetHolds, mode == 0 && set != 0);
    found.note(Clause::AllSetHolds, mode == 1 && set == mask);
    found.note(Clause::AnyClearHolds, mode == 2 && set != mask);
    found.note(Clause::AllClearHolds, mode == 3 && set == 0);
    found.note(Clause::FlagWaiterMaskZero, mask == 0);
    found.note(Clause::FlagWaiterModeRange, mode > 3);
}
