//! The tests that many calls share, each giving one refusal (01, Answers). Those for answer 3 give the id as a place
//! in the table where it is good. Refusals 8 and 9 belong to single calls and stand there.

use super::answer::{ALREADY_THERE, NONE_RUNNING, NOT_THERE, OUT_OF_RANGE, SCHEDULING_OFF};
use crate::table::{Table, FLAG_OBJECTS, MUTEXES, SEMAPHORES, THREADS, TIMERS};

/// 3 for an id that is out of range. This alone is asked of the id of a create.
fn in_range(id: u32, how_many: usize) -> Result<usize, u32> {
    let id = id as usize;
    if id < how_many {
        Ok(id)
    } else {
        Err(NOT_THERE)
    }
}

/// 3 for what isn't created.
fn created(id: usize, is_created: bool) -> Result<usize, u32> {
    if is_created {
        Ok(id)
    } else {
        Err(NOT_THERE)
    }
}

pub fn thread_in_range(id: u32) -> Result<usize, u32> {
    in_range(id, THREADS)
}

pub fn semaphore_in_range(id: u32) -> Result<usize, u32> {
    in_range(id, SEMAPHORES)
}

pub fn mutex_in_range(id: u32) -> Result<usize, u32> {
    in_range(id, MUTEXES)
}

pub fn flags_in_range(id: u32) -> Result<usize, u32> {
    in_range(id, FLAG_OBJECTS)
}

/// Timers are always there, so their range is all.
pub fn timer(id: u32) -> Result<usize, u32> {
    in_range(id, TIMERS)
}

pub fn created_thread(table: &Table, id: u32) -> Result<usize, u32> {
    let id = thread_in_range(id)?;
    created(id, table.threads[id].created)
}

pub fn created_semaphore(table: &Table, id: u32) -> Result<usize, u32> {
    let id = semaphore_in_range(id)?;
    created(id, table.semaphores[id].created)
}

pub fn created_mutex(table: &Table, id: u32) -> Result<usize, u32> {
    let id = mutex_in_range(id)?;
    created(id, table.mutexes[id].created)
}

pub fn created_flags(table: &Table, id: u32) -> Result<usize, u32> {
    let id = flags_in_range(id)?;
    created(id, table.flags[id].created)
}

/// 4 for a number outside its range.
pub fn within(value: u32, lowest: u32, highest: u32) -> Result<(), u32> {
    if lowest <= value && value <= highest {
        Ok(())
    } else {
        Err(OUT_OF_RANGE)
    }
}

/// 4 for an unused field that isn't 0.
pub fn unused(fields: &[u32]) -> Result<(), u32> {
    if fields.iter().all(|field| *field == 0) {
        Ok(())
    } else {
        Err(OUT_OF_RANGE)
    }
}

/// 5 for a create of what is there.
pub fn absent(is_created: bool) -> Result<(), u32> {
    if is_created {
        Err(ALREADY_THERE)
    } else {
        Ok(())
    }
}

/// 6 where none is chosen; else the running thread.
pub fn running_thread(table: &Table) -> Result<usize, u32> {
    table.chosen.ok_or(NONE_RUNNING)
}

/// 7 with scheduling off.
pub fn scheduling_is_on(table: &Table) -> Result<(), u32> {
    if table.scheduling_on {
        Ok(())
    } else {
        Err(SCHEDULING_OFF)
    }
}
