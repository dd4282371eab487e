//! Getting going again: when nobody runs, or hardly anybody, or too many stand before mutexes, a request that helps
//! some thread on. What helps depends on the list it stands on (01, Calls).

use super::profile::Profile;
use super::scene::{request, Scene};
use super::{flags, spans, threads};
use crate::calls::number::*;
use crate::table::{ListName, Request, Table, MUTEXES, PRIORITIES, TIMERS};
use crate::tick;

/// Whether somebody should be helped on now.
pub fn is_due(scene: &mut Scene) -> bool {
    let few = scene.ready_threads().len() < 2;
    let claimers: usize = scene.table.mutexes.iter().map(|mutex| mutex.waiters.len()).sum();
    let many = if scene.profile == Profile::Mutexes { 6 } else { 3 };
    // Bad requests matter where nobody runs, too.
    let with_none_running = if scene.profile == Profile::Bad { 15 } else { 70 };
    if scene.running().is_none() {
        scene.random.percent(with_none_running)
    } else {
        (few && scene.random.percent(15)) || (claimers >= many && scene.random.percent(30))
    }
}

/// Whether scheduling has been off for long enough.
pub fn is_off_too_long(scene: &mut Scene) -> bool {
    !scene.table.scheduling_on && scene.profile != Profile::Scheduling && scene.random.once_in(12)
}

/// One of the ways that are open here; nothing where none is.
pub fn pick(scene: &mut Scene) -> Option<Request> {
    let table = scene.table;
    let next = tick::next_wake_up(table);
    match scene.random.below(8) {
        0 => Some(request(SCHEDULING, 0, &[1])),
        1 if !scene.absent_threads().is_empty() => Some(threads::create(scene)),
        2 if next > 0 => Some(request(ADVANCE, 0, &[next])),
        _ => {
            let mut stuck = scene.created_threads();
            stuck.retain(|id| !table.is_ready(*id));
            let thread = scene.random.any(&stuck)?;
            help(scene, thread, MUTEXES)
        }
    }
}

/// What brings this thread nearer to running; the steps bound the way along owners that wait in a ring.
fn help(scene: &mut Scene, thread: usize, steps: usize) -> Option<Request> {
    let table = scene.table;
    let limit_left = table.threads[thread].limit_left;
    match table.list_of(thread)? {
        _ if limit_left > 0 && scene.random.percent(30) => Some(wait_for(scene, limit_left)),
        ListName::Ready(_) => help_ready(scene, thread),
        ListName::Sleep => Some(wait_for(scene, limit_left)),
        ListName::Stopped => Some(request(START, thread, &[])),
        ListName::SemaphoreWait(id) => Some(request(POST, id, &[])),
        ListName::FlagsWait(id) => {
            let (call, mask) = flags::wanted(table.flags[id].word, &table.threads[thread]);
            Some(request(call, id, &[mask]))
        }
        ListName::MutexWait(_) if steps == 0 => None,
        ListName::MutexWait(id) => help(scene, table.mutexes[id].owner?, steps - 1),
    }
}

/// The running thread lets others have what they wait for; another ready one is brought to run.
fn help_ready(scene: &mut Scene, thread: usize) -> Option<Request> {
    let table = scene.table;
    if table.chosen != Some(thread) {
        let highest = PRIORITIES - 1;
        let is_highest = table.threads[thread].current_priority == highest;
        let raise = request(SET_PRIORITY, thread, &[highest as u32]);
        return Some(if is_highest { request(YIELD, 0, &[]) } else { raise });
    }
    let mut awaited = scene.mutexes_owned(|owner| owner == thread);
    awaited.retain(|id| !table.mutexes[*id].waiters.is_empty());
    scene.random.any(&awaited).map(|id| request(RELEASE, id, &[]))
}

/// An advance over so many ticks, or the end of the timer that makes it too costly.
fn wait_for(scene: &mut Scene, ticks: u32) -> Request {
    let too_costly = spans::wake_ups_within(scene.table, ticks) > spans::USUAL_WAKE_UPS;
    match shortest_repeating(scene.table) {
        Some(timer) if too_costly => request(STOP_TIMER, timer, &[]),
        _ => request(ADVANCE, 0, &[ticks]),
    }
}

fn shortest_repeating(table: &Table) -> Option<usize> {
    let repeating = (0..TIMERS).filter(|id| table.timers[*id].left > 0 && table.timers[*id].repeat);
    repeating.min_by_key(|id| table.timers[*id].period)
}
