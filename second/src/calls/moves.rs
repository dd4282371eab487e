//! How threads move between lists, how a wait starts and ends, and the choosing: what every call and every tick share
//! (01, Calls, from the words on who starts to wait to the end of the section).

use crate::table::{ListName, Table, PRIORITIES, RESULT_NONE};

/// Takes the thread out of the list that holds it.
pub fn take_out(table: &mut Table, thread: usize) {
    if let Some(name) = table.list_of(thread) {
        table.list_mut(name).retain(|id| *id != thread);
    }
}

/// From wherever it is to the tail of the ready list of its current priority.
pub fn to_ready_tail(table: &mut Table, thread: usize) {
    take_out(table, thread);
    let priority = table.threads[thread].current_priority;
    table.ready[priority].push(thread);
}

pub fn to_stopped_tail(table: &mut Table, thread: usize) {
    take_out(table, thread);
    table.stopped.push(thread);
}

/// The thread passes only those whose current priority is lower.
pub fn enter_wait_list(table: &mut Table, thread: usize, name: ListName) {
    let own = table.threads[thread].current_priority;
    let last_before = table
        .list(name)
        .iter()
        .rposition(|waiter| table.threads[*waiter].current_priority >= own);
    let place = last_before.map_or(0, |before| before + 1);
    table.list_mut(name).insert(place, thread);
}

/// A thread starts to wait. Mask and mode are the flag wait's own matter.
pub fn start_to_wait(table: &mut Table, thread: usize, name: ListName, limit: u32) {
    take_out(table, thread);
    table.threads[thread].result = RESULT_NONE;
    table.threads[thread].limit_left = limit;
    enter_wait_list(table, thread, name);
}

pub fn start_to_sleep(table: &mut Table, thread: usize, ticks: u32) {
    take_out(table, thread);
    table.threads[thread].result = RESULT_NONE;
    table.threads[thread].limit_left = ticks;
    table.sleep.push(thread);
}

/// The end of a wait or a sleep, by whatever cause; `result` tells the cause.
pub fn wake(table: &mut Table, thread: usize, result: u32) {
    table.threads[thread].result = result;
    table.threads[thread].limit_left = 0;
    table.threads[thread].wait_mask = 0;
    table.threads[thread].wait_mode = 0;
    to_ready_tail(table, thread);
}

/// The current priority becomes `priority`. No change, no move; sleepers and stopped threads never move by it.
pub fn change_current_priority(table: &mut Table, thread: usize, priority: usize) {
    if table.threads[thread].current_priority == priority {
        return;
    }
    table.threads[thread].current_priority = priority;
    match table.list_of(thread) {
        Some(ListName::Ready(_)) => to_ready_tail(table, thread),
        Some(ListName::Sleep) | Some(ListName::Stopped) | None => {}
        Some(wait_list) => {
            take_out(table, thread);
            enter_wait_list(table, thread, wait_list);
        }
    }
}

/// The choosing step: after each call but an advance, and as the last step of a tick.
pub fn choose(table: &mut Table) {
    if !table.scheduling_on {
        return;
    }
    let choice = head_of_the_highest(table);
    if choice != table.chosen {
        if let Some(thread) = choice {
            table.threads[thread].quantum_left = table.threads[thread].quantum;
        }
    }
    table.chosen = choice;
}

fn head_of_the_highest(table: &Table) -> Option<usize> {
    (0..PRIORITIES)
        .rev()
        .find_map(|priority| table.ready[priority].first().copied())
}
