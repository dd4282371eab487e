//! Damage to semaphores, mutexes and flag objects and to what they demand of their waiters (01, soundness, parts 1, 6,
//! 7, 8 and 14).

use super::draft::Draft;
use crate::image::layout::{
    self, CREATED, FLAGS_WORD, MUTEX_DEPTH, MUTEX_OWNER, SEMAPHORE_COUNT, SEMAPHORE_MAXIMUM, THREAD_MASK, THREAD_MODE,
};
use crate::sound::Clause;
use crate::table::{ListName, THREADS};

pub fn damage(clause: Clause, draft: &mut Draft) -> Option<()> {
    match clause {
        Clause::SemaphoreCreatedRange => created_range(draft, semaphores(draft, true)),
        Clause::MutexCreatedRange => created_range(draft, mutexes(draft, true)),
        Clause::FlagsCreatedRange => created_range(draft, flag_objects(draft, true)),
        Clause::MaximumZero => maximum_zero(draft),
        Clause::OwnerRange => owner_range(draft),
        Clause::CountWithWaiters => count_with_waiters(draft),
        Clause::CountAboveMaximum => count_above_maximum(draft),
        Clause::UnownedOwnerNotZero => unowned_owner_not_zero(draft),
        Clause::UnownedWithWaiters => unowned_with_waiters(draft),
        Clause::OwnerAbsent => owner_absent(draft),
        Clause::OwnerAmongWaiters => owner_among_waiters(draft),
        Clause::AnySetHolds => condition_holds(draft, 0),
        Clause::AllSetHolds => condition_holds(draft, 1),
        Clause::AnyClearHolds => condition_holds(draft, 2),
        Clause::AllClearHolds => condition_holds(draft, 3),
        Clause::FlagWaiterMaskZero => mask_zero(draft),
        Clause::FlagWaiterModeRange => mode_range(draft),
        Clause::SemaphoreAbsentNotZero => semaphore_absent_not_zero(draft),
        Clause::MutexAbsentNotZero => mutex_absent_not_zero(draft),
        Clause::FlagsAbsentNotZero => flags_absent_not_zero(draft),
        Clause::SemaphoreAbsentWithWaiters => semaphore_absent_with_waiters(draft),
        Clause::MutexAbsentWithWaiters => mutex_absent_with_waiters(draft),
        Clause::FlagsAbsentWithWaiters => flags_absent_with_waiters(draft),
        _ => None,
    }
}

/// An object: its list, and where its bytes stand.
#[derive(Clone, Copy)]
struct Object {
    waiters: ListName,
    at: usize,
}

fn semaphores(draft: &Draft, created: bool) -> Vec<Object> {
    let object = |id| Object {
        waiters: ListName::SemaphoreWait(id),
        at: layout::semaphore(id),
    };
    draft.semaphores(created).into_iter().map(object).collect()
}

fn mutexes(draft: &Draft, created: bool) -> Vec<Object> {
    let object = |id| Object {
        waiters: ListName::MutexWait(id),
        at: layout::mutex(id),
    };
    draft.mutexes(created).into_iter().map(object).collect()
}

fn flag_objects(draft: &Draft, created: bool) -> Vec<Object> {
    let object = |id| Object {
        waiters: ListName::FlagsWait(id),
        at: layout::flags(id),
    };
    draft.flag_objects(created).into_iter().map(object).collect()
}

fn with_waiters(draft: &Draft, objects: Vec<Object>) -> Vec<Object> {
    objects
        .into_iter()
        .filter(|object| draft.length(object.waiters) > 0)
        .collect()
}

fn owned(draft: &Draft) -> Vec<Object> {
    mutexes(draft, true)
        .into_iter()
        .filter(|mutex| draft.image[mutex.at + MUTEX_DEPTH] > 0)
        .collect()
}

fn unowned(draft: &Draft) -> Vec<Object> {
    mutexes(draft, true)
        .into_iter()
        .filter(|mutex| draft.image[mutex.at + MUTEX_DEPTH] == 0)
        .collect()
}

fn created_range(draft: &mut Draft, objects: Vec<Object>) -> Option<()> {
    let object = draft.pick(&objects)?;
    let number = draft.number(2, 255);
    draft.put(object.at + CREATED, number);
    Some(())
}

/// The count goes to 0 with it, else it would be above the maximum.
fn maximum_zero(draft: &mut Draft) -> Option<()> {
    let semaphore = draft.pick(&semaphores(draft, true))?;
    draft.put_half(semaphore.at + SEMAPHORE_COUNT, 0);
    draft.put_half(semaphore.at + SEMAPHORE_MAXIMUM, 0);
    Some(())
}

fn count_with_waiters(draft: &mut Draft) -> Option<()> {
    let semaphore = draft.pick(&with_waiters(draft, semaphores(draft, true)))?;
    let count = draft.number(1, draft.half(semaphore.at + SEMAPHORE_MAXIMUM));
    draft.put_half(semaphore.at + SEMAPHORE_COUNT, count);
    Some(())
}

/// The count goes above the maximum, or the maximum (still above 0) below the count.
fn count_above_maximum(draft: &mut Draft) -> Option<()> {
    let mut without_waiters = semaphores(draft, true);
    without_waiters.retain(|semaphore| draft.length(semaphore.waiters) == 0);
    let semaphore = draft.pick(&without_waiters)?;
    let count = draft.half(semaphore.at + SEMAPHORE_COUNT);
    let maximum = draft.half(semaphore.at + SEMAPHORE_MAXIMUM);
    if count >= 2 && (draft.coin() || maximum == 65_535) {
        let maximum = draft.number(1, count - 1);
        draft.put_half(semaphore.at + SEMAPHORE_MAXIMUM, maximum);
    } else if maximum < 65_535 {
        let count = draft.number(maximum + 1, 65_535);
        draft.put_half(semaphore.at + SEMAPHORE_COUNT, count);
    } else {
        return None;
    }
    Some(())
}

fn owner_range(draft: &mut Draft) -> Option<()> {
    let mutex = draft.pick(&owned(draft))?;
    let owner = draft.number(16, 255);
    draft.put(mutex.at + MUTEX_OWNER, owner);
    Some(())
}

/// An unowned mutex gets an owner without depth, or an owned one of another owner than 0 loses its depth.
fn unowned_owner_not_zero(draft: &mut Draft) -> Option<()> {
    let mut owned_by_others = owned(draft);
    owned_by_others.retain(|mutex| draft.image[mutex.at + MUTEX_OWNER] != 0);
    if draft.coin() {
        if let Some(mutex) = draft.pick(&owned_by_others) {
            draft.put(mutex.at + MUTEX_DEPTH, 0);
            return Some(());
        }
    }
    let mutex = draft.pick(&unowned(draft))?;
    let owner = draft.number(1, 15);
    draft.put(mutex.at + MUTEX_OWNER, owner);
    Some(())
}

/// An unowned mutex gets somebody who waits for another object, or a mutex with waiters loses its owner.
fn unowned_with_waiters(draft: &mut Draft) -> Option<()> {
    if draft.coin() {
        let elsewhere = draft.on_lists_like(ListName::SemaphoreWait(0));
        let waiter = draft.pick(&elsewhere);
        let mutex = draft.pick(&unowned(draft));
        if let (Some(waiter), Some(mutex)) = (waiter, mutex) {
            return move_to(draft, waiter, mutex.waiters);
        }
    }
    let mutex = draft.pick(&with_waiters(draft, owned(draft)))?;
    draft.put(mutex.at + MUTEX_OWNER, 0);
    draft.put(mutex.at + MUTEX_DEPTH, 0);
    Some(())
}

fn move_to(draft: &mut Draft, id: usize, name: ListName) -> Option<()> {
    let from = draft.list_of(id)?;
    draft.remove(from, id);
    draft.append(name, id);
    Some(())
}

fn owner_absent(draft: &mut Draft) -> Option<()> {
    let mutex = draft.pick(&mutexes(draft, true))?;
    let owner = draft.pick(&draft.absent())?;
    if draft.image[mutex.at + MUTEX_DEPTH] == 0 {
        let depth = draft.number(1, 255);
        draft.put(mutex.at + MUTEX_DEPTH, depth);
    }
    draft.put(mutex.at + MUTEX_OWNER, owner as u32);
    Some(())
}

fn owner_among_waiters(draft: &mut Draft) -> Option<()> {
    let mutex = draft.pick(&with_waiters(draft, owned(draft)))?;
    let owner = draft.pick(&draft.ids(mutex.waiters))?;
    draft.put(mutex.at + MUTEX_OWNER, owner as u32);
    Some(())
}

/// A flag waiter gets this mode, and a mask of which the word has what the mode asks for.
fn condition_holds(draft: &mut Draft, mode: u32) -> Option<()> {
    let flags = draft.pick(&with_waiters(draft, flag_objects(draft, true)))?;
    let waiter = draft.pick(&draft.ids(flags.waiters))?;
    let word = draft.half(flags.at + FLAGS_WORD);
    let asked_for = if mode < 2 { word } else { 65_535 - word };
    let bits: Vec<u32> = (0..16).map(|bit| 1 << bit).filter(|bit| asked_for & bit != 0).collect();
    let bit = draft.pick(&bits)?;
    let more = draft.between(0, 65_535);
    let any = mode == 0 || mode == 2;
    let mask = if any { bit | more } else { bit | (more & asked_for) };
    draft.put_half(layout::thread(waiter) + THREAD_MASK, mask);
    draft.put_thread(waiter, THREAD_MODE, mode);
    Some(())
}

/// With mask 0 all set and all clear hold as well; any set and any clear don't.
fn mask_zero(draft: &mut Draft) -> Option<()> {
    let waiter = draft.pick(&draft.on_lists_like(ListName::FlagsWait(0)))?;
    draft.put_half(layout::thread(waiter) + THREAD_MASK, 0);
    if draft.coin() {
        let mode = draft.pick(&[0, 2])?;
        draft.put_thread(waiter, THREAD_MODE, mode);
    }
    Some(())
}

fn mode_range(draft: &mut Draft) -> Option<()> {
    let waiter = draft.pick(&draft.on_lists_like(ListName::FlagsWait(0)))?;
    let mode = draft.number(4, 255);
    draft.put_thread(waiter, THREAD_MODE, mode);
    Some(())
}

/// A field of one not created, or the mark of one that is.
fn semaphore_absent_not_zero(draft: &mut Draft) -> Option<()> {
    if draft.coin() {
        if let Some(semaphore) = draft.pick(&semaphores(draft, true)) {
            draft.put(semaphore.at + CREATED, 0);
            return Some(());
        }
    }
    let semaphore = draft.pick(&semaphores(draft, false))?;
    let field = draft.pick(&[SEMAPHORE_COUNT, SEMAPHORE_MAXIMUM])?;
    let number = draft.number(1, 65_535);
    draft.put_half(semaphore.at + field, number);
    Some(())
}

fn mutex_absent_not_zero(draft: &mut Draft) -> Option<()> {
    if draft.coin() {
        if let Some(mutex) = draft.pick(&owned(draft)) {
            draft.put(mutex.at + CREATED, 0);
            return Some(());
        }
    }
    let mutex = draft.pick(&mutexes(draft, false))?;
    if let (Some(owner), true) = (draft.pick(&draft.created()), draft.coin()) {
        draft.put(mutex.at + MUTEX_OWNER, owner as u32);
        draft.put(mutex.at + MUTEX_DEPTH, 1);
    } else {
        let field = draft.pick(&[MUTEX_OWNER, MUTEX_DEPTH])?;
        let number = draft.number(1, THREADS as u32 - 1);
        draft.put(mutex.at + field, number);
    }
    Some(())
}

fn flags_absent_not_zero(draft: &mut Draft) -> Option<()> {
    let mut with_word = flag_objects(draft, true);
    with_word.retain(|flags| draft.half(flags.at + FLAGS_WORD) != 0);
    if draft.coin() {
        if let Some(flags) = draft.pick(&with_word) {
            draft.put(flags.at + CREATED, 0);
            return Some(());
        }
    }
    let flags = draft.pick(&flag_objects(draft, false))?;
    let word = draft.number(1, 65_535);
    draft.put_half(flags.at + FLAGS_WORD, word);
    Some(())
}

fn semaphore_absent_with_waiters(draft: &mut Draft) -> Option<()> {
    if draft.coin() {
        let waiter = draft.pick(&draft.on_lists_like(ListName::SemaphoreWait(0)));
        let absent = draft.pick(&semaphores(draft, false));
        if let (Some(waiter), Some(semaphore)) = (waiter, absent) {
            return move_to(draft, waiter, semaphore.waiters);
        }
    }
    let semaphore = draft.pick(&with_waiters(draft, semaphores(draft, true)))?;
    draft.put(semaphore.at + CREATED, 0);
    draft.put_half(semaphore.at + SEMAPHORE_COUNT, 0);
    draft.put_half(semaphore.at + SEMAPHORE_MAXIMUM, 0);
    Some(())
}

/// A mutex with waiters is owned, so that its mark alone leaves the rest standing; a waiter of a semaphore who comes
/// over finds an unowned one.
fn mutex_absent_with_waiters(draft: &mut Draft) -> Option<()> {
    if draft.coin() {
        let waiter = draft.pick(&draft.on_lists_like(ListName::SemaphoreWait(0)));
        let absent = draft.pick(&mutexes(draft, false));
        if let (Some(waiter), Some(mutex)) = (waiter, absent) {
            return move_to(draft, waiter, mutex.waiters);
        }
    }
    let mutex = draft.pick(&with_waiters(draft, owned(draft)))?;
    draft.put(mutex.at + CREATED, 0);
    Some(())
}

/// The word becomes 0: then only the modes 0 and 1 are still waiting for something.
fn flags_absent_with_waiters(draft: &mut Draft) -> Option<()> {
    if draft.coin() {
        let mut patient = draft.on_lists_like(ListName::FlagsWait(0));
        patient.retain(|id| draft.thread(*id, THREAD_MODE) < 2);
        let waiter = draft.pick(&patient);
        let absent = draft.pick(&flag_objects(draft, false));
        if let (Some(waiter), Some(flags)) = (waiter, absent) {
            return move_to(draft, waiter, flags.waiters);
        }
    }
    let flags = draft.pick(&with_waiters(draft, flag_objects(draft, true)))?;
    draft.put(flags.at + CREATED, 0);
    draft.put_half(flags.at + FLAGS_WORD, 0);
    Some(())
}
