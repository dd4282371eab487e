//! One whole call: which function answers it, the choosing after it, and the report (01, Answers; 01, Calls).
//! The calls themselves stand by family in the modules below. Each tests its refusals in the order of their numbers,
//! touching nothing, and then makes its effect in the order written.

pub mod answer;
pub mod flags;
pub mod moves;
pub mod mutexes;
pub mod number;
pub mod refusals;
pub mod semaphores;
pub mod threads;
pub mod timers;

use crate::table::{Report, Request, Table, NONE_CHOSEN};
use crate::{jump, tick};
use refusals::{unused, within};

/// What a call comes to: `Ok` with answer 0 or 10 after the effect, or `Err` with a refusal and no effect.
pub type Outcome = Result<u32, u32>;

/// Longer advances jump from wake-up to wake-up instead of going through every tick.
pub const LONGEST_PLAIN_ADVANCE: u32 = 100_000;

/// One whole call on a sound table; a refusal leaves the table as it was.
pub fn call(table: &mut Table, request: &Request) -> Report {
    if request.call == number::ADVANCE {
        return match advance(table, request) {
            Ok(wake_ups) => report(table, answer::DONE, wake_ups),
            Err(refusal) => report(table, refusal, 0),
        };
    }
    match refuse_or_do(table, request) {
        Ok(answer) => {
            moves::choose(table);
            report(table, answer, 0)
        }
        Err(refusal) => report(table, refusal, 0),
    }
}

fn refuse_or_do(table: &mut Table, request: &Request) -> Outcome {
    match request.call {
        number::CREATE_THREAD => threads::create_thread(table, request),
        number::START => threads::start(table, request),
        number::STOP => threads::stop(table, request),
        number::EXIT => threads::exit(table, request),
        number::YIELD => threads::yield_running(table, request),
        number::SLEEP => threads::sleep(table, request),
        number::SET_PRIORITY => threads::set_priority(table, request),
        number::SET_QUANTUM => threads::set_quantum(table, request),
        number::CREATE_SEMAPHORE => semaphores::create_semaphore(table, request),
        number::PEND => semaphores::pend(table, request),
        number::POST => semaphores::post(table, request),
        number::CREATE_MUTEX => mutexes::create_mutex(table, request),
        number::CLAIM => mutexes::claim(table, request),
        number::RELEASE => mutexes::release(table, request),
        number::CREATE_FLAGS => flags::create_flags(table, request),
        number::WAIT => flags::wait(table, request),
        number::SET => flags::set(table, request),
        number::CLEAR => flags::clear(table, request),
        number::START_TIMER => timers::start_timer(table, request),
        number::STOP_TIMER => timers::stop_timer(table, request),
        number::SCHEDULING => scheduling(table, request),
        _ => Err(answer::NO_SUCH_CALL),
    }
}

/// Call 21: `a` is 1 to turn it on.
fn scheduling(table: &mut Table, request: &Request) -> Outcome {
    unused(&[request.id, request.b, request.c, request.d])?;
    within(request.a, 0, 1)?;

    table.scheduling_on = request.a == 1;
    Ok(answer::DONE)
}

/// Call 22: `a` is by how many ticks. The wake-ups, or the refusal.
fn advance(table: &mut Table, request: &Request) -> Result<u32, u32> {
    unused(&[request.id, request.b, request.c, request.d])?;

    if request.a <= LONGEST_PLAIN_ADVANCE {
        Ok(tick::advance(table, request.a))
    } else {
        Ok(jump::advance(table, request.a))
    }
}

fn report(table: &Table, answer: u32, wake_ups: u32) -> Report {
    Report {
        answer,
        chosen: table.chosen.map_or(NONE_CHOSEN, |thread| thread as u32),
        clock: table.clock,
        wake_ups,
        next_wake_up: tick::next_wake_up(table),
    }
}
