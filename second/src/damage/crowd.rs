//! The edit that fills a list: all sixteen threads are created and stand on one list, so that its last place is taken
//! (01, The table: room for sixteen). In a mutex's wait list there are fifteen, for its owner can't be there.

use super::draft::Draft;
use crate::image::layout::{
    self, CHOSEN, CREATED, FLAGS_WORD, MUTEX_DEPTH, MUTEX_OWNER, NONE_CHOSEN, SEMAPHORE_COUNT, THREAD_BASE,
    THREAD_CURRENT, THREAD_LIMIT, THREAD_MASK, THREAD_MODE, THREAD_RESULT,
};
use crate::table::{ListName, PRIORITIES, THREADS};

pub fn crowd(draft: &mut Draft) -> Option<()> {
    let lists: Vec<ListName> = ListName::all().filter(|name| is_there(draft, *name)).collect();
    let name = draft.pick(&lists)?;
    crowd_on(draft, name);
    Some(())
}

/// Fills this list, which is that of a created object if it is a wait list.
pub fn crowd_on(draft: &mut Draft, name: ListName) {
    let mut ids = shuffled(draft);
    empty_all_lists(draft);
    fill(draft, name, &mut ids);
    choose_anew(draft);
}

pub fn empty_all_lists(draft: &mut Draft) {
    for name in ListName::all() {
        draft.set_ids(name, &[]);
    }
}

/// Brings these threads, at least one, onto an empty list, but for the owner of a mutex, who can't wait for it.
pub fn fill(draft: &mut Draft, name: ListName, ids: &mut Vec<usize>) {
    match name {
        ListName::SemaphoreWait(id) => draft.put_half(layout::semaphore(id) + SEMAPHORE_COUNT, 0),
        ListName::MutexWait(id) => take_out_the_owner(draft, id, ids),
        _ => (),
    }
    let priorities = priorities(draft, name);
    for (id, priority) in ids.iter().zip(priorities) {
        enter(draft, name, *id, priority);
    }
    draft.set_ids(name, ids);
}

/// The choice that scheduling demands; with it off, none.
pub fn choose_anew(draft: &mut Draft) {
    draft.put(CHOSEN, u32::from(NONE_CHOSEN));
    draft.choose();
}

/// Whether a list is nobody's wait list, or that of a created object.
pub fn is_there(draft: &Draft, name: ListName) -> bool {
    let at = match name {
        ListName::SemaphoreWait(id) => layout::semaphore(id),
        ListName::MutexWait(id) => layout::mutex(id),
        ListName::FlagsWait(id) => layout::flags(id),
        ListName::Ready(_) | ListName::Sleep | ListName::Stopped => return true,
    };
    draft.image[at + CREATED] != 0
}

fn shuffled(draft: &mut Draft) -> Vec<usize> {
    let mut ids: Vec<usize> = (0..THREADS).collect();
    draft.shuffle(&mut ids);
    ids
}

/// The owner, or one of these as the new owner, is stopped if it is one of these.
fn take_out_the_owner(draft: &mut Draft, mutex: usize, ids: &mut Vec<usize>) {
    let at = layout::mutex(mutex);
    if draft.image[at + MUTEX_DEPTH] == 0 {
        draft.put(at + MUTEX_DEPTH, 1);
        draft.put(at + MUTEX_OWNER, ids[0] as u32);
    }
    let owner = usize::from(draft.image[at + MUTEX_OWNER]);
    if ids.contains(&owner) {
        ids.retain(|id| *id != owner);
        let base = draft.between(0, 7);
        enter(draft, ListName::Stopped, owner, base);
        draft.append(ListName::Stopped, owner);
    }
}

/// As many as the threads, falling; all the same in a ready list, and at times elsewhere.
fn priorities(draft: &mut Draft, name: ListName) -> Vec<u32> {
    let level = draft.between(0, PRIORITIES as u32 - 1);
    if let ListName::Ready(priority) = name {
        return vec![priority as u32; THREADS];
    }
    if draft.coin() {
        return vec![level; THREADS];
    }
    let mut falling: Vec<u32> = (0..THREADS).map(|_| draft.between(0, PRIORITIES as u32 - 1)).collect();
    falling.sort_unstable_by(|one, other| other.cmp(one));
    falling
}

/// What a thread's record says when it is on this list; its quantum and what was delivered stay.
fn enter(draft: &mut Draft, name: ListName, id: usize, priority: u32) {
    let limit = match name {
        ListName::Ready(_) | ListName::Stopped => 0,
        ListName::Sleep => draft.number(1, 3),
        _ => draft.number(0, 3),
    };
    let (mask, mode) = match name {
        ListName::FlagsWait(object) => unmet(draft.half(layout::flags(object) + FLAGS_WORD)),
        _ => (0, 0),
    };
    draft.put_thread(id, CREATED, 1);
    draft.put_thread(id, THREAD_BASE, priority);
    draft.put_thread(id, THREAD_CURRENT, priority);
    draft.put_word(layout::thread(id) + THREAD_LIMIT, limit);
    draft.put_thread(id, THREAD_RESULT, 0);
    draft.put_half(layout::thread(id) + THREAD_MASK, mask);
    draft.put_thread(id, THREAD_MODE, mode);
}

/// A mask and mode that this word doesn't meet: any set of its clear bits, or any clear where all are set.
fn unmet(word: u32) -> (u32, u32) {
    if word < 65_535 {
        (65_535 - word, 0)
    } else {
        (65_535, 2)
    }
}
