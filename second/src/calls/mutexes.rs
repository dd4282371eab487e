//! Calls 12 to 14: mutexes (01, Calls). A raise reaches the owner alone, and a release falls to base whatever else
//! the releaser owns.

use super::answer::{DONE, FULL, WAITS, WRONG_STATE};
use super::moves;
use super::refusals::{absent, created_mutex, mutex_in_range, running_thread, scheduling_is_on, unused};
use super::Outcome;
use crate::table::{ListName, Mutex, Request, Table, HIGHEST_DEPTH, RESULT_DONE};

/// Call 12.
pub fn create_mutex(table: &mut Table, request: &Request) -> Outcome {
    let id = mutex_in_range(request.id)?;
    unused(&[request.a, request.b, request.c, request.d])?;
    absent(table.mutexes[id].created)?;

    table.mutexes[id] = Mutex {
        created: true,
        owner: None,
        depth: 0,
        waiters: Vec::new(),
    };
    Ok(DONE)
}

/// Call 13: `a` is the limit.
pub fn claim(table: &mut Table, request: &Request) -> Outcome {
    let id = created_mutex(table, request.id)?;
    unused(&[request.b, request.c, request.d])?;
    let running = running_thread(table)?;
    let owner = table.mutexes[id].owner;
    if owner.is_some() && owner != Some(running) {
        scheduling_is_on(table)?;
    }
    if owner == Some(running) && table.mutexes[id].depth == HIGHEST_DEPTH {
        return Err(FULL);
    }

    match owner {
        None => {
            table.mutexes[id].owner = Some(running);
            table.mutexes[id].depth = 1;
            table.threads[running].result = RESULT_DONE;
            Ok(DONE)
        }
        Some(owner) if owner == running => {
            table.mutexes[id].depth += 1;
            table.threads[running].result = RESULT_DONE;
            Ok(DONE)
        }
        Some(owner) => {
            moves::start_to_wait(table, running, ListName::MutexWait(id), request.a);
            raise(table, owner, table.threads[running].current_priority);
            Ok(WAITS)
        }
    }
}

fn raise(table: &mut Table, owner: usize, claimer_priority: usize) {
    if claimer_priority > table.threads[owner].current_priority {
        moves::change_current_priority(table, owner, claimer_priority);
    }
}

/// Call 14.
pub fn release(table: &mut Table, request: &Request) -> Outcome {
    let id = created_mutex(table, request.id)?;
    unused(&[request.a, request.b, request.c, request.d])?;
    let running = running_thread(table)?;
    if table.mutexes[id].owner != Some(running) {
        return Err(WRONG_STATE);
    }

    table.mutexes[id].depth -= 1;
    if table.mutexes[id].depth == 0 {
        let base = table.threads[running].base_priority;
        moves::change_current_priority(table, running, base);
        hand_over(table, id);
    }
    Ok(DONE)
}

/// The first waiter owns the mutex now; without one it is unowned.
fn hand_over(table: &mut Table, id: usize) {
    match table.mutexes[id].waiters.first().copied() {
        Some(first) => {
            table.mutexes[id].owner = Some(first);
            table.mutexes[id].depth = 1;
            moves::wake(table, first, RESULT_DONE);
        }
        None => table.mutexes[id].owner = None,
    }
}
