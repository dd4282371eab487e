//! Situations of single ticks that matter and that the count of wake-ups doesn't show (01, One tick).
//! Each must come up over the fixed seeds.

use crate::table::{Action, ListName, Table, Timer, RESULT_DONE, RESULT_TIMED_OUT, THREADS};
use crate::tick::whose_quantum_counts;

/// A situation: its name and how it is known from the tables before and after the tick.
pub type Situation = (&'static str, fn(&Table, &Table) -> bool);

pub const SITUATIONS: &[Situation] = &[
    ("a tick with a rotation alone", |before, _| {
        rotates(before) && timers_due(before) + limits_due(before) == 0
    }),
    ("a tick with a rotation, a timer and a limit", |before, _| {
        rotates(before) && timers_due(before) > 0 && limits_due(before) > 0
    }),
    ("a rotation, and another than the next in line runs", rotation_overtaken),
    ("a quantum goes down in a list of two or more", |before, _| {
        whose_quantum_counts(before).is_some()
    }),
    ("a thread alone in its list keeps its quantum", keeps_quantum_alone),
    ("scheduling off keeps the quantum", keeps_quantum_off),
    ("several timers in one tick", |before, _| timers_due(before) > 1),
    ("two timers of one tick wake threads of one priority", two_timers_wake),
    ("several limits in one tick", |before, _| limits_due(before) > 1),
    ("several sleepers wake in one tick", |before, after| {
        before.sleep.len() > after.sleep.len() + 1
    }),
    ("a timer expires and starts anew", |before, _| {
        due(before).any(|timer| timer.repeat)
    }),
    ("a timer expires for good", |before, _| {
        due(before).any(|timer| !timer.repeat)
    }),
    ("a timer without action expires", |before, _| {
        due(before).any(|timer| timer.action == Action::Nothing)
    }),
    ("a timer's post is lost", |before, _| {
        posts(before, |table, id| {
            table.semaphores[id].count == table.semaphores[id].maximum
        })
    }),
    ("a timer's post counts", |before, after| {
        posts(before, |table, id| {
            after.semaphores[id].count > table.semaphores[id].count
        })
    }),
    ("a timer's post wakes", |before, _| {
        posts(before, |table, id| !table.semaphores[id].waiters.is_empty())
    }),
    ("a timer's set wakes none of the waiters", |before, after| {
        sets(before, after, |woken| woken == 0)
    }),
    ("a timer's set wakes one", |before, after| {
        sets(before, after, |woken| woken == 1)
    }),
    ("a timer's set wakes several", |before, after| {
        sets(before, after, |woken| woken > 1)
    }),
    ("a post comes before the limit of the same tick", |before, after| {
        saved(before, after, |list| matches!(list, ListName::SemaphoreWait(_)))
    }),
    ("a set comes before the limit of the same tick", |before, after| {
        saved(before, after, |list| matches!(list, ListName::FlagsWait(_)))
    }),
    ("a pend times out", |before, after| {
        times_out(before, after, |list| matches!(list, ListName::SemaphoreWait(_)))
    }),
    ("a claim times out", |before, after| {
        times_out(before, after, |list| matches!(list, ListName::MutexWait(_)))
    }),
    ("a wait for flags times out", |before, after| {
        times_out(before, after, |list| matches!(list, ListName::FlagsWait(_)))
    }),
    ("a claim times out and its owner stays raised", owner_stays_raised),
    ("the clock goes from 4,294,967,295 to 0", |before, _| {
        before.clock == u32::MAX
    }),
    ("another thread is chosen in a tick", |before, after| {
        before.chosen != after.chosen && before.chosen.is_some() && after.chosen.is_some()
    }),
    ("a choice refills a quantum in a tick", refills),
    (
        "threads become ready with scheduling off, none chosen",
        |before, after| after.chosen.is_none() && ready(after) > ready(before),
    ),
];

fn due(table: &Table) -> impl Iterator<Item = &Timer> {
    table.timers.iter().filter(|timer| timer.left == 1)
}

fn timers_due(table: &Table) -> usize {
    due(table).count()
}

fn limits_due(table: &Table) -> usize {
    table.threads.iter().filter(|thread| thread.limit_left == 1).count()
}

fn rotates(table: &Table) -> bool {
    whose_quantum_counts(table).map_or(false, |id| table.threads[id].quantum_left == 1)
}

fn rotation_overtaken(before: &Table, after: &Table) -> bool {
    let next_in_line = before
        .chosen
        .map(|id| before.ready[before.threads[id].current_priority].get(1).copied());
    rotates(before) && next_in_line != Some(after.chosen)
}

fn keeps_quantum_alone(before: &Table, _: &Table) -> bool {
    let alone = |id: usize| before.ready[before.threads[id].current_priority].len() == 1;
    before.scheduling_on
        && before
            .chosen
            .map_or(false, |id| alone(id) && before.threads[id].quantum > 0)
}

fn keeps_quantum_off(before: &Table, _: &Table) -> bool {
    let shares = |id: usize| before.ready[before.threads[id].current_priority].len() > 1;
    !before.scheduling_on
        && before
            .chosen
            .map_or(false, |id| shares(id) && before.threads[id].quantum > 0)
}

/// Whether exactly one timer expires, it posts, and the semaphore passes the test on the table before.
fn posts(before: &Table, test: impl Fn(&Table, usize) -> bool) -> bool {
    let posted = due(before).find_map(|timer| match timer.action {
        Action::Post { semaphore } => Some(semaphore),
        _ => None,
    });
    timers_due(before) == 1 && posted.map_or(false, |semaphore| test(before, semaphore))
}

/// Whether exactly one timer expires and sets flags for which threads wait; the test is asked how many it wakes.
fn sets(before: &Table, after: &Table, test: fn(usize) -> bool) -> bool {
    let set = due(before).find_map(|timer| match timer.action {
        Action::SetFlags { flags, .. } => Some(flags),
        _ => None,
    });
    let flags = match set {
        Some(flags) if timers_due(before) == 1 && !before.flags[flags].waiters.is_empty() => flags,
        _ => return false,
    };
    let woken = |id: &&usize| after.is_ready(**id) && after.threads[**id].result == RESULT_DONE;
    test(before.flags[flags].waiters.iter().filter(woken).count())
}

/// A thread in such a list whose limit ends in this tick, with this result afterwards.
fn ends_with(before: &Table, after: &Table, result: u32, place: fn(ListName) -> bool) -> bool {
    (0..THREADS).any(|id| {
        before.threads[id].limit_left == 1
            && before.list_of(id).map_or(false, place)
            && after.threads[id].result == result
    })
}

fn saved(before: &Table, after: &Table, place: fn(ListName) -> bool) -> bool {
    ends_with(before, after, RESULT_DONE, place)
}

fn times_out(before: &Table, after: &Table, place: fn(ListName) -> bool) -> bool {
    ends_with(before, after, RESULT_TIMED_OUT, place)
}

fn owner_stays_raised(before: &Table, after: &Table) -> bool {
    let raised = |owner: usize| after.threads[owner].current_priority > after.threads[owner].base_priority;
    let emptied = |id: &usize| !before.mutexes[*id].waiters.is_empty() && after.mutexes[*id].waiters.is_empty();
    (0..before.mutexes.len())
        .filter(emptied)
        .any(|id| after.mutexes[id].owner.map_or(false, raised))
}

fn refills(before: &Table, after: &Table) -> bool {
    let refilled = |id: usize| {
        before.threads[id].quantum_left > 0 && after.threads[id].quantum_left > before.threads[id].quantum_left
    };
    before.chosen != after.chosen && after.chosen.map_or(false, refilled)
}

/// Two timers with different objects, each with a first waiter that they wake, both to the same ready list.
fn two_timers_wake(before: &Table, after: &Table) -> bool {
    let lists = due(before).map(|timer| match timer.action {
        Action::Nothing => None,
        Action::Post { semaphore } => before.semaphores[semaphore].waiters.first(),
        Action::SetFlags { flags, .. } => before.flags[flags].waiters.first(),
    });
    let woken = |id: &&usize| after.is_ready(**id) && after.threads[**id].result == RESULT_DONE;
    let threads: Vec<usize> = lists.flatten().filter(woken).copied().collect();
    let same = |one: usize, other: usize| {
        one != other && before.threads[one].current_priority == before.threads[other].current_priority
    };
    threads.iter().any(|one| threads.iter().any(|other| same(*one, *other)))
}

fn ready(table: &Table) -> usize {
    table.ready.iter().map(Vec::len).sum()
}
