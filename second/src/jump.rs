//! The advance for long spans: from wake-up to wake-up, the ticks between counted down at once. Each wake-up itself
//! is a plain tick. It must give what the plain advance gives (01, One tick).

use crate::table::Table;
use crate::tick::{next_wake_up, tick, whose_quantum_counts};

pub fn advance(table: &mut Table, ticks: u32) -> u32 {
    let mut ahead = ticks;
    let mut wake_ups = 0;
    while ahead > 0 {
        let next = next_wake_up(table);
        if next == 0 || next > ahead {
            pass(table, ahead);
            return wake_ups;
        }
        pass(table, next - 1);
        let is_wake_up = tick(table);
        debug_assert!(is_wake_up, "the tick that was named as the next wake-up is none");
        wake_ups += u32::from(is_wake_up);
        ahead -= next;
    }
    wake_ups
}

/// Ticks before the next wake-up: the clock goes on, and whatever counts down counts down without reaching 0.
fn pass(table: &mut Table, ticks: u32) {
    table.clock = table.clock.wrapping_add(ticks);
    if let Some(running) = whose_quantum_counts(table) {
        table.threads[running].quantum_left -= ticks;
    }
    for timer in table.timers.iter_mut().filter(|timer| timer.left > 0) {
        timer.left -= ticks;
    }
    for thread in table.threads.iter_mut().filter(|thread| thread.limit_left > 0) {
        thread.limit_left -= ticks;
    }
}
