//! The lists (01, soundness, parts 1, 3 and 4): their lengths, their entries, the zeros past their end, the current
//! priority along them.

use super::found::Found;
use super::Clause;
use crate::image::layout::{self, PLACES, THREAD_CURRENT};
use crate::table::{ListName, THREADS};

pub fn check(image: &[u8], found: &mut Found) {
    for name in ListName::all() {
        let length = usize::from(image[layout::list_length(name)]);
        found.note(length_clause(name), length > PLACES);
        let ids = layout::ids(image, name);
        found.note(id_clause(name), ids.iter().any(|id| !is_thread(*id)));
        found.note(past_end_clause(name), past_end(image, name).iter().any(|id| *id != 0));
        match name {
            ListName::Ready(priority) => {
                found.note(Clause::ReadyPriority, holds_another_priority(image, ids, priority))
            }
            ListName::SemaphoreWait(_) => found.note(Clause::SemaphoreWaitOrder, rises(image, ids)),
            ListName::MutexWait(_) => found.note(Clause::MutexWaitOrder, rises(image, ids)),
            ListName::FlagsWait(_) => found.note(Clause::FlagsWaitOrder, rises(image, ids)),
            ListName::Sleep | ListName::Stopped => (),
        }
    }
}

fn length_clause(name: ListName) -> Clause {
    match name {
        ListName::Ready(_) => Clause::ReadyLength,
        ListName::Sleep => Clause::SleepLength,
        ListName::Stopped => Clause::StoppedLength,
        ListName::SemaphoreWait(_) => Clause::SemaphoreWaitLength,
        ListName::MutexWait(_) => Clause::MutexWaitLength,
        ListName::FlagsWait(_) => Clause::FlagsWaitLength,
    }
}

fn id_clause(name: ListName) -> Clause {
    match name {
        ListName::Ready(_) => Clause::ReadyIdRange,
        ListName::Sleep => Clause::SleepIdRange,
        ListName::Stopped => Clause::StoppedIdRange,
        ListName::SemaphoreWait(_) => Clause::SemaphoreWaitIdRange,
        ListName::MutexWait(_) => Clause::MutexWaitIdRange,
        ListName::FlagsWait(_) => Clause::FlagsWaitIdRange,
    }
}

fn past_end_clause(name: ListName) -> Clause {
    match name {
        ListName::Ready(_) => Clause::ReadyPastEnd,
        ListName::Sleep => Clause::SleepPastEnd,
        ListName::Stopped => Clause::StoppedPastEnd,
        ListName::SemaphoreWait(_) => Clause::SemaphoreWaitPastEnd,
        ListName::MutexWait(_) => Clause::MutexWaitPastEnd,
        ListName::FlagsWait(_) => Clause::FlagsWaitPastEnd,
    }
}

fn is_thread(id: u8) -> bool {
    usize::from(id) < THREADS
}

fn past_end(image: &[u8], name: ListName) -> &[u8] {
    let first = layout::list_ids(name);
    &image[first + layout::ids(image, name).len()..first + PLACES]
}

fn current(image: &[u8], id: u8) -> u8 {
    image[layout::thread(usize::from(id)) + THREAD_CURRENT]
}

fn holds_another_priority(image: &[u8], ids: &[u8], priority: usize) -> bool {
    ids.iter()
        .any(|id| is_thread(*id) && usize::from(current(image, *id)) != priority)
}

fn rises(image: &[u8], ids: &[u8]) -> bool {
    ids.windows(2)
        .filter(|pair| is_thread(pair[0]) && is_thread(pair[1]))
        .any(|pair| current(image, pair[0]) < current(image, pair[1]))
}
