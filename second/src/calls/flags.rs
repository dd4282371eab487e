//! Calls 15 to 18: flag objects (01, Calls). A timer's set (01, One tick, 3) uses the same effect.

use super::answer::{DONE, WAITS};
use super::moves;
use super::refusals::{absent, created_flags, flags_in_range, running_thread, scheduling_is_on, unused, within};
use super::Outcome;
use crate::table::{
    Flags, ListName, Request, Table, HIGHEST_MODE, HIGHEST_WORD, MODE_ALL_CLEAR, MODE_ALL_SET, MODE_ANY_CLEAR,
    MODE_ANY_SET, RESULT_DONE,
};

/// Call 15: `a` is the word to begin with.
pub fn create_flags(table: &mut Table, request: &Request) -> Outcome {
    let id = flags_in_range(request.id)?;
    within(request.a, 0, HIGHEST_WORD)?;
    unused(&[request.b, request.c, request.d])?;
    absent(table.flags[id].created)?;

    table.flags[id] = Flags {
        created: true,
        word: request.a,
        waiters: Vec::new(),
    };
    Ok(DONE)
}

/// Call 16: `a` is the mask, `b` the mode, `c` the limit.
pub fn wait(table: &mut Table, request: &Request) -> Outcome {
    let id = created_flags(table, request.id)?;
    within(request.a, 1, HIGHEST_WORD)?;
    within(request.b, 0, HIGHEST_MODE)?;
    unused(&[request.d])?;
    let running = running_thread(table)?;
    let word = table.flags[id].word;
    let would_wait = !condition_holds(word, request.a, request.b);
    if would_wait {
        scheduling_is_on(table)?;
    }

    if would_wait {
        table.threads[running].wait_mask = request.a;
        table.threads[running].wait_mode = request.b;
        moves::start_to_wait(table, running, ListName::FlagsWait(id), request.c);
        return Ok(WAITS);
    }
    table.threads[running].result = RESULT_DONE;
    table.threads[running].delivered = word;
    Ok(DONE)
}

/// Call 17: `a` is the mask.
pub fn set(table: &mut Table, request: &Request) -> Outcome {
    let id = created_flags(table, request.id)?;
    within(request.a, 1, HIGHEST_WORD)?;
    unused(&[request.b, request.c, request.d])?;

    set_bits(table, id, request.a);
    Ok(DONE)
}

/// Call 18: `a` is the mask.
pub fn clear(table: &mut Table, request: &Request) -> Outcome {
    let id = created_flags(table, request.id)?;
    within(request.a, 1, HIGHEST_WORD)?;
    unused(&[request.b, request.c, request.d])?;

    table.flags[id].word &= !request.a;
    wake_whose_condition_holds(table, id);
    Ok(DONE)
}

/// The effect of a set, by a call or by a timer.
pub fn set_bits(table: &mut Table, id: usize, mask: u32) {
    table.flags[id].word |= mask;
    wake_whose_condition_holds(table, id);
}

/// Goes through the list as it stood when the word changed; waking leaves the word alone, so all meet the same one.
fn wake_whose_condition_holds(table: &mut Table, id: usize) {
    let word = table.flags[id].word;
    for waiter in table.flags[id].waiters.clone() {
        if condition_holds(word, table.threads[waiter].wait_mask, table.threads[waiter].wait_mode) {
            table.threads[waiter].delivered = word;
            moves::wake(table, waiter, RESULT_DONE);
        }
    }
}

/// Whether a word meets a mask in a mode; a mode above 3 is met by nothing.
pub fn condition_holds(word: u32, mask: u32, mode: u32) -> bool {
    match mode {
        MODE_ANY_SET => word & mask != 0,
        MODE_ALL_SET => word & mask == mask,
        MODE_ANY_CLEAR => word & mask != mask,
        MODE_ALL_CLEAR => word & mask == 0,
        _ => false,
    }
}
