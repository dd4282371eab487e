//! Damage to the lists (01, soundness, parts 1 to 4).

use super::crowd::{crowd_on, is_there};
use super::draft::{Draft, FLAGS_WAIT, MUTEX_WAIT, READY, SEMAPHORE_WAIT};
use crate::image::layout::{self, PLACES, THREAD_BASE, THREAD_CURRENT};
use crate::sound::Clause;
use crate::table::{ListName, PRIORITIES};

pub fn damage(clause: Clause, draft: &mut Draft) -> Option<()> {
    match clause {
        Clause::ReadyLength => length(draft, READY),
        Clause::SleepLength => length(draft, ListName::Sleep),
        Clause::StoppedLength => length(draft, ListName::Stopped),
        Clause::SemaphoreWaitLength => length(draft, SEMAPHORE_WAIT),
        Clause::MutexWaitLength => length(draft, MUTEX_WAIT),
        Clause::FlagsWaitLength => length(draft, FLAGS_WAIT),
        Clause::ReadyIdRange => id_range(draft, READY),
        Clause::SleepIdRange => id_range(draft, ListName::Sleep),
        Clause::StoppedIdRange => id_range(draft, ListName::Stopped),
        Clause::SemaphoreWaitIdRange => id_range(draft, SEMAPHORE_WAIT),
        Clause::MutexWaitIdRange => id_range(draft, MUTEX_WAIT),
        Clause::FlagsWaitIdRange => id_range(draft, FLAGS_WAIT),
        Clause::ReadyPastEnd => past_end(draft, READY),
        Clause::SleepPastEnd => past_end(draft, ListName::Sleep),
        Clause::StoppedPastEnd => past_end(draft, ListName::Stopped),
        Clause::SemaphoreWaitPastEnd => past_end(draft, SEMAPHORE_WAIT),
        Clause::MutexWaitPastEnd => past_end(draft, MUTEX_WAIT),
        Clause::FlagsWaitPastEnd => past_end(draft, FLAGS_WAIT),
        Clause::CreatedOnNoList => on_no_list(draft),
        Clause::CreatedOnTwoLists => on_two_lists(draft),
        Clause::CreatedTwiceOnOneList => twice_on_one_list(draft),
        Clause::AbsentOnList => absent_on_list(draft),
        Clause::ReadyPriority => ready_priority(draft),
        Clause::SemaphoreWaitOrder => order(draft, SEMAPHORE_WAIT),
        Clause::MutexWaitOrder => order(draft, MUTEX_WAIT),
        Clause::FlagsWaitOrder => order(draft, FLAGS_WAIT),
        _ => None,
    }
}

/// Only on a full list can nothing but the length be wrong, so that now and then the list is filled first.
fn length(draft: &mut Draft, like: ListName) -> Option<()> {
    let lists = draft.lists_like(like);
    let there: Vec<ListName> = lists.iter().copied().filter(|name| is_there(draft, *name)).collect();
    let name = draft.prefer(&there, &lists)?;
    if draft.has_room(name) && is_there(draft, name) && draft.coin() {
        crowd_on(draft, name);
    }
    let length = draft.number(PLACES as u32 + 1, 255);
    draft.put(layout::list_length(name), length);
    Some(())
}

/// Mostly one entry more, behind the head, so that nobody loses a place; at times one entry written over.
fn id_range(draft: &mut Draft, like: ListName) -> Option<()> {
    let lists = draft.lists_like(like);
    let with_room: Vec<ListName> = lists.into_iter().filter(|name| draft.has_room(*name)).collect();
    let filled: Vec<ListName> = with_room
        .iter()
        .copied()
        .filter(|name| draft.length(*name) > 0)
        .collect();
    let name = draft.prefer(&filled, &with_room)?;
    let length = draft.length(name) as u32;
    let id = draft.number(16, 255);
    if length > 0 && draft.between(0, 3) == 0 {
        let place = draft.between(0, length - 1) as usize;
        draft.put(layout::list_ids(name) + place, id);
    } else {
        let index = draft.between(length.min(1), length) as usize;
        draft.insert(name, index, id as usize);
    }
    Some(())
}

fn past_end(draft: &mut Draft, like: ListName) -> Option<()> {
    let lists = draft.lists_like(like);
    let with_room: Vec<ListName> = lists.into_iter().filter(|name| draft.has_room(*name)).collect();
    let name = draft.pick(&with_room)?;
    let place = draft.number(draft.length(name) as u32, PLACES as u32 - 1) as usize;
    let highest = draft.pick(&[15, 255])?;
    let id = draft.number(1, highest);
    draft.put(layout::list_ids(name) + place, id);
    Some(())
}

/// A created thread leaves its list, or an absent one becomes created without a list.
fn on_no_list(draft: &mut Draft) -> Option<()> {
    let absent = draft.absent();
    if !absent.is_empty() && draft.coin() {
        let id = draft.pick(&absent)?;
        draft.put_thread(id, layout::CREATED, 1);
    } else {
        let id = draft.pick(&draft.created())?;
        let name = draft.list_of(id)?;
        draft.remove(name, id);
    }
    Some(())
}

fn on_two_lists(draft: &mut Draft) -> Option<()> {
    let id = draft.pick(&draft.created())?;
    let own = draft.list_of(id)?;
    let others: Vec<ListName> = ListName::all()
        .filter(|name| *name != own && draft.has_room(*name))
        .collect();
    let stopped: Vec<ListName> = others
        .iter()
        .copied()
        .filter(|name| *name == ListName::Stopped)
        .collect();
    let second = draft.prefer(&stopped, &others)?;
    draft.append(second, id);
    Some(())
}

fn twice_on_one_list(draft: &mut Draft) -> Option<()> {
    let id = draft.pick(&draft.created())?;
    let name = draft.list_of(id)?;
    if !draft.has_room(name) {
        return None;
    }
    let own = draft.ids(name).iter().position(|other| *other == id)?;
    let index = draft.number(own as u32 + 1, draft.length(name) as u32) as usize;
    draft.insert(name, index, id);
    Some(())
}

fn absent_on_list(draft: &mut Draft) -> Option<()> {
    let id = draft.pick(&draft.absent())?;
    let lists: Vec<ListName> = ListName::all().filter(|name| draft.has_room(*name)).collect();
    let filled: Vec<ListName> = lists.iter().copied().filter(|name| draft.length(*name) > 0).collect();
    let name = draft.prefer(&filled, &lists)?;
    draft.append(name, id);
    Some(())
}

/// A ready thread gets another priority and keeps its place, or goes to another ready list with its priority kept.
fn ready_priority(draft: &mut Draft) -> Option<()> {
    let id = draft.pick(&draft.on_lists_like(READY))?;
    let current = draft.current(id);
    let others: Vec<u32> = (0..PRIORITIES as u32).filter(|priority| *priority != current).collect();
    let priority = draft.pick(&others)?;
    if draft.coin() {
        set_priority(draft, id, priority);
    } else {
        draft.remove(ListName::Ready(current as usize), id);
        draft.append(ListName::Ready(priority as usize), id);
    }
    Some(())
}

fn set_priority(draft: &mut Draft, id: usize, priority: u32) {
    draft.put_thread(id, THREAD_BASE, priority);
    draft.put_thread(id, THREAD_CURRENT, priority);
}

/// Two neighbours change places; where they are level, one of them gets another priority.
fn order(draft: &mut Draft, like: ListName) -> Option<()> {
    let lists = draft.lists_like(like);
    let longer: Vec<ListName> = lists.into_iter().filter(|name| draft.length(*name) > 1).collect();
    let name = draft.pick(&longer)?;
    let index = draft.between(0, draft.length(name) as u32 - 2) as usize;
    let mut ids = draft.ids(name);
    let (first, next) = (ids[index], ids[index + 1]);
    let level = draft.current(next);
    if draft.current(first) > level {
        ids.swap(index, index + 1);
        draft.set_ids(name, &ids);
    } else if level < 7 {
        let higher = draft.number(level + 1, 7);
        set_priority(draft, next, higher);
    } else {
        let lower = draft.number(0, 6);
        set_priority(draft, first, lower);
    }
    Some(())
}
