//! Calls 9 to 11: semaphores (01, Calls). A timer's post (01, One tick, 3) uses the same effect.

use super::answer::{DONE, FULL, WAITS};
use super::moves;
use super::refusals::{
    absent, created_semaphore, running_thread, scheduling_is_on, semaphore_in_range, unused, within,
};
use super::Outcome;
use crate::table::{ListName, Request, Semaphore, Table, HIGHEST_MAXIMUM, RESULT_DONE};

/// Call 9: `a` is the count to begin with, `b` the maximum.
pub fn create_semaphore(table: &mut Table, request: &Request) -> Outcome {
    let id = semaphore_in_range(request.id)?;
    within(request.b, 1, HIGHEST_MAXIMUM)?;
    within(request.a, 0, request.b)?;
    unused(&[request.c, request.d])?;
    absent(table.semaphores[id].created)?;

    table.semaphores[id] = Semaphore {
        created: true,
        count: request.a,
        maximum: request.b,
        waiters: Vec::new(),
    };
    Ok(DONE)
}

/// Call 10: `a` is the limit.
pub fn pend(table: &mut Table, request: &Request) -> Outcome {
    let id = created_semaphore(table, request.id)?;
    unused(&[request.b, request.c, request.d])?;
    let running = running_thread(table)?;
    let would_wait = table.semaphores[id].count == 0;
    if would_wait {
        scheduling_is_on(table)?;
    }

    if would_wait {
        moves::start_to_wait(table, running, ListName::SemaphoreWait(id), request.a);
        return Ok(WAITS);
    }
    table.semaphores[id].count -= 1;
    table.threads[running].result = RESULT_DONE;
    Ok(DONE)
}

/// Call 11.
pub fn post(table: &mut Table, request: &Request) -> Outcome {
    let id = created_semaphore(table, request.id)?;
    unused(&[request.a, request.b, request.c, request.d])?;
    if is_full(table, id) {
        return Err(FULL);
    }

    post_with_room(table, id);
    Ok(DONE)
}

/// At the maximum and without waiters: a call's post is refused, a timer's is lost.
pub fn is_full(table: &Table, id: usize) -> bool {
    let semaphore = &table.semaphores[id];
    semaphore.waiters.is_empty() && semaphore.count == semaphore.maximum
}

/// The effect of a post on a semaphore that isn't full.
pub fn post_with_room(table: &mut Table, id: usize) {
    match table.semaphores[id].waiters.first().copied() {
        Some(first) => moves::wake(table, first, RESULT_DONE),
        None => table.semaphores[id].count += 1,
    }
}
