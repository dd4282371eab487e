//! Situations of single calls that matter and that the answers alone don't show (01, Calls).
//! Each must come up over the fixed seeds.

use crate::calls::answer;
use crate::calls::number::*;
use crate::table::{ListName, Report, Request, Table, HIGHEST_DEPTH, MUTEXES, THREADS};

/// A call with the tables around it.
pub struct Step<'a> {
    pub before: &'a Table,
    pub request: &'a Request,
    pub report: &'a Report,
    pub after: &'a Table,
}

/// A situation: its name and how it is known.
pub type Situation = (&'static str, fn(&Step) -> bool);

pub const SITUATIONS: &[Situation] = &[
    ("a claim raises a ready owner", |step| {
        raised_in(step, |list| matches!(list, ListName::Ready(_)))
    }),
    ("a claim raises a waiting owner", |step| {
        raised_in(step, ListName::is_wait_list)
    }),
    ("a claim raises a sleeping owner", |step| {
        raised_in(step, |list| list == ListName::Sleep)
    }),
    ("a claim raises a stopped owner", |step| {
        raised_in(step, |list| list == ListName::Stopped)
    }),
    ("a raise moves the owner up its wait list", raise_moves_waiter),
    ("a claim waits and raises nobody", |step| {
        claim_waits(step) && raised(step).is_none()
    }),
    ("a claim waits for a mutex of depth 255", |step| {
        claim_waits(step) && mutex(step).1 == HIGHEST_DEPTH
    }),
    ("owners wait for each other in a ring", |step| {
        claim_waits(step) && closes_ring(step)
    }),
    ("a release leaves some depth", |step| {
        done(step, RELEASE) && mutex(step).1 > 1
    }),
    ("a release hands over", |step| last_release(step) && mutex(step).2 > 0),
    ("a release with several waiting", |step| {
        last_release(step) && mutex(step).2 > 1
    }),
    ("a release with nobody waiting", |step| {
        last_release(step) && mutex(step).2 == 0
    }),
    ("a release falls to base and another runs", |step| {
        last_release(step) && falls(step) && choice_changes(step)
    }),
    ("a release falls to base and runs on", |step| {
        last_release(step) && falls(step) && !choice_changes(step)
    }),
    ("a release while another mutex is still owned", release_keeps_other),
    ("a set wakes none of the waiters", |step| woken_by(step, SET) == Some(0)),
    ("a set wakes one", |step| woken_by(step, SET) == Some(1)),
    ("a set wakes several", |step| woken_by(step, SET) > Some(1)),
    ("a clear wakes none of the waiters", |step| {
        woken_by(step, CLEAR) == Some(0)
    }),
    ("a clear wakes one", |step| woken_by(step, CLEAR) == Some(1)),
    ("a clear wakes several", |step| woken_by(step, CLEAR) > Some(1)),
    ("a wait for any set", |step| waits_in_mode(step, 0)),
    ("a wait for all set", |step| waits_in_mode(step, 1)),
    ("a wait for any clear", |step| waits_in_mode(step, 2)),
    ("a wait for all clear", |step| waits_in_mode(step, 3)),
    ("any set holds at once", |step| done(step, WAIT) && step.request.b == 0),
    ("all set holds at once", |step| done(step, WAIT) && step.request.b == 1),
    ("any clear holds at once", |step| {
        done(step, WAIT) && step.request.b == 2
    }),
    ("all clear holds at once", |step| {
        done(step, WAIT) && step.request.b == 3
    }),
    ("a wait starts ahead of lower ones", |step| {
        entered(step).map_or(false, |(_, behind)| behind > 0)
    }),
    ("a wait starts behind others", |step| {
        entered(step).map_or(false, |(ahead, _)| ahead > 0)
    }),
    ("a wait starts between others", |step| {
        entered(step).map_or(false, |(ahead, behind)| ahead > 0 && behind > 0)
    }),
    ("a post wakes the first of several", |step| {
        done(step, POST) && posted_to(step) > 1
    }),
    ("a call that needn't wait with scheduling off", |step| {
        !step.before.scheduling_on && [PEND, CLAIM, WAIT].iter().any(|call| done(step, *call))
    }),
    ("a start preempts, the preempted keeps its place", preempted_keeps_place),
    ("a start of a thread whose priority is raised", |step| {
        done(step, START) && target(step).1 > step.after.threads[target(step).0].base_priority
    }),
    ("a stop of the running thread", |step| {
        done(step, STOP) && step.before.chosen == Some(target(step).0)
    }),
    ("a stop of an owner", |step| {
        done(step, STOP) && step.before.owns_a_mutex(target(step).0)
    }),
    ("a yield alone in its list", |step| {
        done(step, YIELD) && !choice_changes(step)
    }),
    ("a yield to another", |step| done(step, YIELD) && choice_changes(step)),
    ("set priority moves the running thread", |step| {
        new_priority(step) && step.before.chosen == Some(target(step).0) && choice_changes(step)
    }),
    ("set priority moves a waiter past others", set_priority_moves_waiter),
    ("set priority of a sleeper", |step| {
        new_priority(step) && step.before.is_asleep(target(step).0)
    }),
    ("set priority of a stopped thread", |step| {
        new_priority(step) && step.before.is_stopped(target(step).0)
    }),
    ("set priority leaves an owner raised", |step| {
        done(step, SET_PRIORITY) && target(step).1 > step.request.a as usize
    }),
    ("set priority without a change in a crowd", unchanged_in_crowd),
    ("set quantum of the running thread", |step| {
        done(step, SET_QUANTUM) && step.before.chosen == Some(target(step).0)
    }),
    ("a choice refills a quantum", refills),
    ("a running timer is started anew", |step| {
        done(step, START_TIMER) && timer_left(step) > 0
    }),
    ("a timer that expired before is started", |step| {
        done(step, START_TIMER) && step.before.timers[step.request.id as usize].expiry_count > 0
    }),
    ("a running timer is stopped", |step| {
        done(step, STOP_TIMER) && timer_left(step) > 0
    }),
    ("a stopped timer is stopped", |step| {
        done(step, STOP_TIMER) && timer_left(step) == 0
    }),
    ("scheduling on brings another choice", |step| {
        done(step, SCHEDULING) && choice_changes(step)
    }),
    ("scheduling on while on, off while off", |step| {
        done(step, SCHEDULING) && step.before == step.after
    }),
    ("none chosen beside ready threads", |step| {
        step.after.chosen.is_none() && step.after.ready.iter().any(|list| !list.is_empty())
    }),
    ("chosen isn't the head of its list", |step| {
        step.after.chosen.map_or(false, |id| {
            step.after.ready.iter().all(|list| list.first() != Some(&id))
        })
    }),
    ("an advance by 0", |step| advance(step) == Some(0)),
    ("an advance by 99,999", |step| advance(step) == Some(99_999)),
    ("an advance by 100,000", |step| advance(step) == Some(100_000)),
    ("an advance by 100,001", |step| advance(step) == Some(100_001)),
    ("an advance by 4,294,967,295", |step| advance(step) == Some(u32::MAX)),
    ("an advance to one before the next wake-up", |step| {
        to_next_wake_up(step, -1)
    }),
    ("an advance to the next wake-up", |step| to_next_wake_up(step, 0)),
    ("an advance to one after the next wake-up", |step| {
        to_next_wake_up(step, 1)
    }),
    ("an advance with over 1,000 wake-ups", |step| {
        step.report.wake_ups > 1_000
    }),
    ("the clock goes round in single ticks", |step| {
        goes_round(step) && step.request.a <= 100_000
    }),
    ("the clock goes round in a long advance", |step| {
        goes_round(step) && step.request.a > 100_000
    }),
    ("the choice changes inside an advance", |step| {
        advance(step).is_some() && choice_changes(step)
    }),
    ("wake-ups with scheduling off", |step| {
        !step.before.scheduling_on && step.report.wake_ups > 0
    }),
];

fn done(step: &Step, call: u32) -> bool {
    step.request.call == call && step.report.answer == answer::DONE
}

fn choice_changes(step: &Step) -> bool {
    step.before.chosen != step.after.chosen
}

/// The thread named, and its current priority after the call.
fn target(step: &Step) -> (usize, usize) {
    let id = step.request.id as usize;
    (id, step.after.threads[id].current_priority)
}

fn advance(step: &Step) -> Option<u32> {
    done(step, ADVANCE).then_some(step.request.a)
}

fn goes_round(step: &Step) -> bool {
    advance(step).is_some() && step.after.clock < step.before.clock
}

fn to_next_wake_up(step: &Step, offset: i64) -> bool {
    let next = crate::tick::next_wake_up(step.before);
    next > 1 && advance(step).map_or(false, |ticks| i64::from(ticks) == i64::from(next) + offset)
}

fn claim_waits(step: &Step) -> bool {
    step.request.call == CLAIM && step.report.answer == answer::WAITS
}

/// Owner, depth and number of waiters of the mutex named, before the call.
fn mutex(step: &Step) -> (Option<usize>, u32, usize) {
    let mutex = &step.before.mutexes[step.request.id as usize];
    (mutex.owner, mutex.depth, mutex.waiters.len())
}

/// The owner that a claim has raised.
fn raised(step: &Step) -> Option<usize> {
    if !claim_waits(step) {
        return None;
    }
    let owner = mutex(step).0?;
    let is_raised = step.after.threads[owner].current_priority > step.before.threads[owner].current_priority;
    is_raised.then_some(owner)
}

fn raised_in(step: &Step, place: fn(ListName) -> bool) -> bool {
    raised(step)
        .and_then(|owner| step.before.list_of(owner))
        .map_or(false, place)
}

fn place_in(table: &Table, thread: usize) -> Option<usize> {
    table.list(table.list_of(thread)?).iter().position(|id| *id == thread)
}

fn raise_moves_waiter(step: &Step) -> bool {
    let waiter = raised(step).filter(|owner| step.before.is_waiting(*owner));
    waiter.map_or(false, |owner| {
        place_in(step.before, owner) != place_in(step.after, owner)
    })
}

/// Whether one comes back to the claimer from owner to owner.
fn closes_ring(step: &Step) -> bool {
    let claimer = step.before.chosen;
    let mut mutex = step.request.id as usize;
    for _ in 0..MUTEXES {
        let owner = step.after.mutexes[mutex].owner;
        if owner == claimer {
            return true;
        }
        match owner.and_then(|owner| step.after.list_of(owner)) {
            Some(ListName::MutexWait(next)) => mutex = next,
            _ => return false,
        }
    }
    false
}

/// The release that brings the depth to 0.
fn last_release(step: &Step) -> bool {
    done(step, RELEASE) && mutex(step).1 == 1
}

fn falls(step: &Step) -> bool {
    let priorities = |id: usize| {
        (
            step.before.threads[id].current_priority,
            step.after.threads[id].current_priority,
        )
    };
    step.before
        .chosen
        .map(priorities)
        .map_or(false, |(before, after)| before > after)
}

fn release_keeps_other(step: &Step) -> bool {
    last_release(step) && step.before.chosen.map_or(false, |id| step.after.owns_a_mutex(id))
}

/// How many of the waiters a set or clear has woken, where there were any.
fn woken_by(step: &Step, call: u32) -> Option<usize> {
    if !done(step, call) {
        return None;
    }
    let waiters = |table: &Table| table.flags[step.request.id as usize].waiters.len();
    (waiters(step.before) > 0).then(|| waiters(step.before) - waiters(step.after))
}

fn waits_in_mode(step: &Step, mode: u32) -> bool {
    step.request.call == WAIT && step.report.answer == answer::WAITS && step.request.b == mode
}

/// How many stand ahead of and behind a thread that has just started to wait.
fn entered(step: &Step) -> Option<(usize, usize)> {
    if step.report.answer != answer::WAITS || step.request.call == SLEEP {
        return None;
    }
    let thread = step.before.chosen?;
    let length = step.after.list(step.after.list_of(thread)?).len();
    place_in(step.after, thread).map(|ahead| (ahead, length - 1 - ahead))
}

fn posted_to(step: &Step) -> usize {
    step.before.semaphores[step.request.id as usize].waiters.len()
}

/// Another runs now, and the one before still heads its list, with others behind it.
fn preempted_keeps_place(step: &Step) -> bool {
    let heads = |id: usize| {
        let list = &step.after.ready[step.after.threads[id].current_priority];
        list.len() > 1 && list[0] == id
    };
    done(step, START) && choice_changes(step) && step.before.chosen.map_or(false, heads)
}

/// Set priority with another current priority afterwards.
fn new_priority(step: &Step) -> bool {
    done(step, SET_PRIORITY) && target(step).1 != step.before.threads[target(step).0].current_priority
}

fn set_priority_moves_waiter(step: &Step) -> bool {
    new_priority(step)
        && step.before.is_waiting(target(step).0)
        && place_in(step.before, target(step).0) != place_in(step.after, target(step).0)
}

/// The same current priority, another base, and others behind: no move.
fn unchanged_in_crowd(step: &Step) -> bool {
    let id = step.request.id as usize;
    let crowd = |list: ListName| step.before.list(list).len() > 1 && step.before.list(list).last() != Some(&id);
    done(step, SET_PRIORITY) && !new_priority(step) && step.before.list_of(id).map_or(false, crowd)
}

/// Somebody else is chosen and has a full quantum again.
fn refills(step: &Step) -> bool {
    let refilled = |id: usize| {
        let left = |table: &Table| table.threads[id].quantum_left;
        id < THREADS && left(step.before) > 0 && left(step.after) > left(step.before)
    };
    step.request.call != ADVANCE
        && step.request.call != SET_QUANTUM
        && choice_changes(step)
        && step.after.chosen.map_or(false, refilled)
}

fn timer_left(step: &Step) -> u32 {
    step.before.timers[step.request.id as usize].left
}
