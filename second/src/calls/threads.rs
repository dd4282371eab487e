//! Calls 1 to 8: threads (01, Calls).

use super::answer::{DONE, SCHEDULING_OFF, WAITS, WRONG_STATE};
use super::moves;
use super::refusals::{absent, created_thread, running_thread, scheduling_is_on, thread_in_range, unused, within};
use super::Outcome;
use crate::table::{Request, Table, Thread, HIGHEST_QUANTUM, PRIORITIES};

const HIGHEST_PRIORITY: u32 = PRIORITIES as u32 - 1;

/// Call 1: `a` is the priority, `b` the quantum.
pub fn create_thread(table: &mut Table, request: &Request) -> Outcome {
    let id = thread_in_range(request.id)?;
    within(request.a, 0, HIGHEST_PRIORITY)?;
    within(request.b, 0, HIGHEST_QUANTUM)?;
    unused(&[request.c, request.d])?;
    absent(table.threads[id].created)?;

    table.stopped.push(id);
    table.threads[id] = Thread {
        created: true,
        base_priority: request.a as usize,
        current_priority: request.a as usize,
        quantum: request.b,
        quantum_left: request.b,
        ..Thread::default()
    };
    Ok(DONE)
}

/// Call 2.
pub fn start(table: &mut Table, request: &Request) -> Outcome {
    let id = created_thread(table, request.id)?;
    unused(&[request.a, request.b, request.c, request.d])?;
    if !table.is_stopped(id) {
        return Err(WRONG_STATE);
    }

    moves::to_ready_tail(table, id);
    Ok(DONE)
}

/// Call 3. With scheduling on the running thread may be stopped like any other.
pub fn stop(table: &mut Table, request: &Request) -> Outcome {
    let id = created_thread(table, request.id)?;
    unused(&[request.a, request.b, request.c, request.d])?;
    if !table.scheduling_on && table.chosen == Some(id) {
        return Err(SCHEDULING_OFF);
    }
    if !table.is_ready(id) {
        return Err(WRONG_STATE);
    }

    moves::to_stopped_tail(table, id);
    Ok(DONE)
}

/// Call 4.
pub fn exit(table: &mut Table, request: &Request) -> Outcome {
    unused(&[request.id, request.a, request.b, request.c, request.d])?;
    let running = running_thread(table)?;
    scheduling_is_on(table)?;
    if table.owns_a_mutex(running) {
        return Err(WRONG_STATE);
    }

    moves::take_out(table, running);
    table.threads[running] = Thread::default();
    Ok(DONE)
}

/// Call 5.
pub fn yield_running(table: &mut Table, request: &Request) -> Outcome {
    unused(&[request.id, request.a, request.b, request.c, request.d])?;
    let running = running_thread(table)?;
    scheduling_is_on(table)?;

    moves::to_ready_tail(table, running);
    Ok(DONE)
}

/// Call 6: `a` is for how many ticks.
pub fn sleep(table: &mut Table, request: &Request) -> Outcome {
    unused(&[request.id, request.b, request.c, request.d])?;
    within(request.a, 1, u32::MAX)?;
    let running = running_thread(table)?;
    scheduling_is_on(table)?;

    moves::start_to_sleep(table, running, request.a);
    Ok(WAITS)
}

/// Call 7: `a` is the new base.
pub fn set_priority(table: &mut Table, request: &Request) -> Outcome {
    let id = created_thread(table, request.id)?;
    within(request.a, 0, HIGHEST_PRIORITY)?;
    unused(&[request.b, request.c, request.d])?;

    let priority = request.a as usize;
    table.threads[id].base_priority = priority;
    if table.owns_a_mutex(id) {
        let greater = priority.max(table.threads[id].current_priority);
        moves::change_current_priority(table, id, greater);
    } else {
        moves::change_current_priority(table, id, priority);
    }
    Ok(DONE)
}

/// Call 8: `a` is the quantum.
pub fn set_quantum(table: &mut Table, request: &Request) -> Outcome {
    let id = created_thread(table, request.id)?;
    within(request.a, 0, HIGHEST_QUANTUM)?;
    unused(&[request.b, request.c, request.d])?;

    table.threads[id].quantum = request.a;
    table.threads[id].quantum_left = request.a;
    Ok(DONE)
}
