//! One tick in its five steps, the plain advance as single ticks, and the next wake-up worked out from the records
//! (01, One tick).

use crate::calls::{flags, moves, semaphores};
use crate::table::{Action, Table, RESULT_DONE, RESULT_TIMED_OUT, THREADS, TIMERS};

/// Whether the tick is a wake-up: something reached 0 in it, however much.
pub fn tick(table: &mut Table) -> bool {
    table.clock = table.clock.wrapping_add(1);
    let quantum_reached_0 = count_the_quantum(table);
    let a_timer_reached_0 = count_the_timers(table);
    let a_limit_reached_0 = count_the_limits(table);
    moves::choose(table);
    quantum_reached_0 || a_timer_reached_0 || a_limit_reached_0
}

/// Single ticks; the number of wake-ups among them.
pub fn advance(table: &mut Table, ticks: u32) -> u32 {
    let mut wake_ups = 0;
    for _ in 0..ticks {
        if tick(table) {
            wake_ups += 1;
        }
    }
    wake_ups
}

/// The running thread, if its quantum is counted in the coming tick (01, One tick, 2).
pub fn whose_quantum_counts(table: &Table) -> Option<usize> {
    let running = table.chosen?;
    let thread = &table.threads[running];
    let sharers = table.ready[thread.current_priority].len();
    if table.scheduling_on && thread.quantum > 0 && sharers >= 2 {
        Some(running)
    } else {
        None
    }
}

/// 01, One tick, 2.
fn count_the_quantum(table: &mut Table) -> bool {
    let running = match whose_quantum_counts(table) {
        Some(running) => running,
        None => return false,
    };
    table.threads[running].quantum_left -= 1;
    if table.threads[running].quantum_left > 0 {
        return false;
    }
    moves::to_ready_tail(table, running);
    table.threads[running].quantum_left = table.threads[running].quantum;
    true
}

/// 01, One tick, 3.
fn count_the_timers(table: &mut Table) -> bool {
    let mut reached_0 = false;
    for id in 0..TIMERS {
        if table.timers[id].left == 0 {
            continue;
        }
        table.timers[id].left -= 1;
        if table.timers[id].left == 0 {
            reached_0 = true;
            expire(table, id);
        }
    }
    reached_0
}

fn expire(table: &mut Table, id: usize) {
    let timer = &mut table.timers[id];
    timer.expiry_count = timer.expiry_count.wrapping_add(1);
    if timer.repeat {
        timer.left = timer.period;
    }
    match timer.action {
        Action::Nothing => {}
        Action::Post { semaphore } => {
            if !semaphores::is_full(table, semaphore) {
                semaphores::post_with_room(table, semaphore);
            }
        }
        Action::SetFlags { flags, mask } => flags::set_bits(table, flags, mask),
    }
}

/// 01, One tick, 4. A limit above 0 says that the thread waits or sleeps: waking has set it to 0 for all others.
fn count_the_limits(table: &mut Table) -> bool {
    let mut reached_0 = false;
    for id in 0..THREADS {
        if table.threads[id].limit_left == 0 {
            continue;
        }
        table.threads[id].limit_left -= 1;
        if table.threads[id].limit_left == 0 {
            reached_0 = true;
            let result = if table.is_asleep(id) {
                RESULT_DONE
            } else {
                RESULT_TIMED_OUT
            };
            moves::wake(table, id, result);
        }
    }
    reached_0
}

/// The distance to the next wake-up, or 0. Until the first of these counts reaches 0 nothing else in the table
/// changes but the counts and the clock, so the least of them is the distance.
pub fn next_wake_up(table: &Table) -> u32 {
    let quantum = whose_quantum_counts(table).map(|running| table.threads[running].quantum_left);
    let timers = table.timers.iter().map(|timer| timer.left);
    let limits = table.threads.iter().map(|thread| thread.limit_left);
    quantum
        .into_iter()
        .chain(timers)
        .chain(limits)
        .filter(|left| *left > 0)
        .min()
        .unwrap_or(0)
}
