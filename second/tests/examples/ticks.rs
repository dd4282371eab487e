//! The five steps of a tick, what counts as a wake-up, and the next wake-up (01, One tick).

use super::helpers::Kernel;
use second::calls::number::*;
use second::table::{Table, Timer};
use second::tick;

#[test]
fn advance_0_changes_nothing() {
    let mut kernel = Kernel::fresh();
    kernel.thread(0, 2, 1);
    kernel.thread(1, 2, 1);
    kernel.done(START_TIMER, 0, &[1, 1]);
    let before = kernel.table.clone();
    let report = kernel.advance(0);
    assert_eq!((report.wake_ups, report.next_wake_up), (0, 1));
    assert_eq!(kernel.table, before);
}

#[test]
fn an_advance_is_its_single_ticks() {
    let mut whole = crowd();
    let mut single = crowd();
    let wake_ups: u32 = (0..50).map(|_| single.advance(1).wake_ups).sum();
    assert_eq!(whole.advance(50).wake_ups, wake_ups);
    assert_eq!(whole.table, single.table);
}

/// Sharers with quanta, repeating timers that post and set, a sleeper and waiters with limits.
fn crowd() -> Kernel {
    let mut kernel = Kernel::fresh();
    kernel.done(CREATE_SEMAPHORE, 0, &[0, 3]);
    kernel.done(CREATE_FLAGS, 0, &[0]);
    for id in [10, 11] {
        kernel.thread(id, 6, 0);
        kernel.waits(PEND, 0, &[20 + id]);
    }
    kernel.thread(12, 6, 0);
    kernel.waits(WAIT, 0, &[6, 1, 25]);
    kernel.thread(13, 6, 0);
    kernel.waits(SLEEP, 0, &[9]);
    for id in [0, 1, 2] {
        kernel.thread(id, 2, 3 + id);
    }
    kernel.done(START_TIMER, 1, &[13, 1, 1]);
    kernel.done(START_TIMER, 0, &[11, 1, 2, 2]);
    kernel.done(START_TIMER, 3, &[17, 0]);
    kernel
}

#[test]
fn step_2_rotates_at_0_and_renews() {
    let mut kernel = Kernel::fresh();
    for (id, quantum) in [(4, 3), (1, 0), (2, 5)] {
        kernel.thread(id, 2, quantum);
    }
    let mut expected = kernel.table.clone();
    for left in [2, 1] {
        let report = kernel.advance(1);
        assert_eq!((report.wake_ups, report.next_wake_up), (0, left));
        expected.threads[4].quantum_left = left;
        expected.clock += 1;
        assert_eq!(kernel.table, expected);
    }
    let report = kernel.advance(1);
    assert_eq!(
        (report.wake_ups, report.next_wake_up),
        (1, 0),
        "thread 1 has no quantum"
    );
    expected.clock += 1;
    expected.threads[4].quantum_left = 3;
    expected.ready[2] = vec![1, 2, 4];
    expected.chosen = Some(1);
    assert_eq!(kernel.table, expected);
    assert_eq!(kernel.advance(1_000).wake_ups, 0);
}

#[test]
fn step_2_counts_nothing_with_scheduling_off() {
    let mut kernel = Kernel::fresh();
    kernel.thread(0, 2, 3);
    kernel.thread(1, 2, 3);
    kernel.advance(1);
    kernel.done(SCHEDULING, 0, &[0]);
    let before = kernel.table.clone();
    let report = kernel.advance(50);
    assert_eq!((report.wake_ups, report.next_wake_up), (0, 0));
    assert_eq!(kernel.table, Table { clock: 51, ..before });
    assert_eq!(kernel.done(SCHEDULING, 0, &[1]).next_wake_up, 2);
}

/// A peer that becomes ready in this very tick is no second in the list yet.
#[test]
fn step_2_looks_at_the_lists_as_the_tick_begins() {
    for by_timer in [true, false] {
        let mut kernel = Kernel::fresh();
        kernel.done(CREATE_SEMAPHORE, 0, &[0, 1]);
        kernel.thread(1, 2, 4);
        if by_timer {
            kernel.waits(PEND, 0, &[]);
            kernel.done(START_TIMER, 0, &[1, 0, 1]);
        } else {
            kernel.waits(SLEEP, 0, &[1]);
        }
        kernel.thread(0, 2, 4);
        assert_eq!(kernel.advance(1).wake_ups, 1);
        assert_eq!(kernel.table.ready[2], [0, 1]);
        assert_eq!(kernel.table.threads[0].quantum_left, 4);
        kernel.advance(1);
        assert_eq!(kernel.table.threads[0].quantum_left, 3);
    }
}

/// The quantum ends in the tick in which a higher thread wakes: the rotation happens all the same.
#[test]
fn step_2_comes_before_the_steps_that_wake() {
    let mut kernel = Kernel::fresh();
    kernel.thread(7, 6, 9);
    kernel.waits(SLEEP, 0, &[3]);
    kernel.thread(0, 2, 3);
    kernel.thread(1, 2, 3);
    let report = kernel.advance(3);
    assert_eq!((report.wake_ups, report.chosen), (1, 7));
    assert_eq!(kernel.table.ready[2], [1, 0]);
    assert_eq!(
        (
            kernel.table.threads[0].quantum_left,
            kernel.table.threads[1].quantum_left
        ),
        (3, 3)
    );
}

/// Step 2 comes first, so those who wake later in the tick stand behind the thread that it rotated.
#[test]
fn a_rotated_thread_stands_before_those_who_wake_in_the_tick() {
    let mut kernel = Kernel::fresh();
    kernel.thread(5, 2, 0);
    kernel.waits(SLEEP, 0, &[3]);
    kernel.thread(0, 2, 3);
    kernel.thread(1, 2, 3);
    assert_eq!(kernel.advance(3).wake_ups, 1);
    assert_eq!(kernel.table.ready[2], [1, 0, 5]);
}

#[test]
fn a_preempted_quantum_is_kept_until_the_next_choice_renews_it() {
    let mut kernel = Kernel::fresh();
    kernel.thread(7, 6, 9);
    kernel.waits(SLEEP, 0, &[2]);
    kernel.thread(0, 2, 5);
    kernel.thread(1, 2, 5);
    kernel.done(SET_QUANTUM, 7, &[12]);
    kernel.advance(2);
    assert_eq!(
        (kernel.table.chosen, kernel.table.threads[0].quantum_left),
        (Some(7), 3)
    );
    assert_eq!(kernel.table.ready[2], [0, 1]);
    kernel.waits(SLEEP, 0, &[100]);
    assert_eq!(
        (kernel.table.chosen, kernel.table.threads[0].quantum_left),
        (Some(0), 5)
    );
}

/// A choice inside a tick renews the quantum left of the one it chooses.
#[test]
fn step_5_renews_the_quantum_of_a_new_choice() {
    let mut kernel = Kernel::fresh();
    kernel.thread(7, 6, 9);
    kernel.thread(8, 6, 9);
    kernel.advance(4);
    kernel.waits(SLEEP, 0, &[3]);
    kernel.done(STOP, 8, &[]);
    assert_eq!(kernel.table.threads[7].quantum_left, 5);
    kernel.advance(3);
    assert_eq!(
        (kernel.table.chosen, kernel.table.threads[7].quantum_left),
        (Some(7), 9)
    );
}

#[test]
fn step_5_chooses_nobody_with_scheduling_off() {
    let mut kernel = Kernel::fresh();
    kernel.thread(7, 6, 9);
    kernel.waits(SLEEP, 0, &[3]);
    kernel.thread(0, 2, 0);
    kernel.done(SCHEDULING, 0, &[0]);
    let report = kernel.advance(3);
    assert_eq!((report.wake_ups, report.chosen), (1, 0));
    assert!(kernel.table.is_ready(7));
    assert_eq!(kernel.done(SCHEDULING, 0, &[1]).chosen, 7);
}

#[test]
fn step_3_a_one_shot_expires_once_and_keeps_its_record() {
    let mut kernel = Kernel::fresh();
    kernel.done(START_TIMER, 2, &[4]);
    let report = kernel.advance(40);
    assert_eq!((report.wake_ups, report.next_wake_up), (1, 0));
    let expected = Timer {
        period: 4,
        expiry_count: 1,
        ..Timer::default()
    };
    assert_eq!(kernel.table.timers[2], expected);
    kernel.done(START_TIMER, 2, &[4]);
    assert_eq!(kernel.advance(4).wake_ups, 1);
    assert_eq!(kernel.table.timers[2].expiry_count, 2);
}

#[test]
fn step_3_goes_by_timer_id() {
    let mut kernel = Kernel::fresh();
    for id in [0, 1, 2] {
        kernel.done(CREATE_SEMAPHORE, id, &[0, 1]);
        kernel.thread(id, 3, 0);
        kernel.waits(PEND, id, &[]);
    }
    for (timer, semaphore) in [(6, 0), (1, 2), (4, 1)] {
        kernel.done(START_TIMER, timer, &[5, 0, 1 + 256 * semaphore]);
    }
    assert_eq!(kernel.advance(5).wake_ups, 1);
    assert_eq!(kernel.table.ready[3], [2, 1, 0]);
}

#[test]
fn step_3_a_post_at_the_maximum_is_lost_and_still_a_wake_up() {
    let mut kernel = Kernel::fresh();
    kernel.done(CREATE_SEMAPHORE, 0, &[1, 2]);
    kernel.done(START_TIMER, 0, &[5, 1, 1]);
    let report = kernel.advance(20);
    assert_eq!(report.wake_ups, 4);
    assert_eq!(kernel.table.semaphores[0].count, 2);
    assert_eq!(kernel.table.timers[0].expiry_count, 4);
}

#[test]
fn step_3_sets_flags_as_the_call_does() {
    let mut kernel = Kernel::fresh();
    kernel.done(CREATE_FLAGS, 3, &[0x8000]);
    kernel.thread(4, 3, 0);
    kernel.waits(WAIT, 3, &[3, 1, 0]);
    kernel.thread(5, 3, 0);
    kernel.waits(WAIT, 3, &[2, 0, 7]);
    kernel.done(START_TIMER, 0, &[2, 1, 2 + 256 * 3, 1]);
    kernel.done(START_TIMER, 1, &[7, 0, 2 + 256 * 3, 2]);
    let report = kernel.advance(6);
    assert_eq!((report.wake_ups, report.chosen), (3, 255), "sets that wake nobody");
    let report = kernel.advance(1);
    assert_eq!((report.wake_ups, report.chosen), (1, 4));
    assert_eq!(kernel.table.ready[3], [4, 5]);
    for id in [4, 5] {
        let thread = kernel.table.threads[id];
        assert_eq!(
            (thread.delivered, thread.result, thread.wait_mask, thread.limit_left),
            (0x8003, 1, 0, 0)
        );
    }
}

#[test]
fn step_4_goes_by_thread_id_over_all_lists() {
    let mut kernel = Kernel::fresh();
    kernel.done(CREATE_SEMAPHORE, 0, &[0, 1]);
    kernel.done(CREATE_MUTEX, 0, &[]);
    kernel.done(CREATE_FLAGS, 0, &[0]);
    kernel.thread(15, 3, 0);
    kernel.done(CLAIM, 0, &[]);
    kernel.done(STOP, 15, &[]);
    let waits: [(u32, u32, &[u32]); 4] = [
        (9, SLEEP, &[6]),
        (2, PEND, &[6]),
        (5, WAIT, &[1, 1, 6]),
        (0, CLAIM, &[6]),
    ];
    for (id, call, fields) in waits {
        kernel.thread(id, 3, 0);
        kernel.waits(call, 0, fields);
    }
    assert_eq!(kernel.advance(5).wake_ups, 0);
    assert_eq!(kernel.advance(1).wake_ups, 1);
    assert_eq!(kernel.table.ready[3], [0, 2, 5, 9]);
    let results = [0, 2, 5, 9].map(|id| kernel.table.threads[id].result);
    assert_eq!(results, [2, 2, 2, 1]);
    let thread = kernel.table.threads[5];
    assert_eq!((thread.wait_mask, thread.wait_mode, thread.delivered), (0, 0, 0));
    assert!(kernel.table.mutexes[0].waiters.is_empty());
    assert_eq!(
        (kernel.table.mutexes[0].owner, kernel.table.mutexes[0].depth),
        (Some(15), 1)
    );
}

#[test]
fn step_4_leaves_the_raised_priority_of_the_owner() {
    let mut kernel = Kernel::fresh();
    kernel.done(CREATE_MUTEX, 0, &[]);
    kernel.thread(1, 2, 0);
    kernel.done(CLAIM, 0, &[]);
    kernel.thread(5, 6, 0);
    kernel.waits(CLAIM, 0, &[3]);
    assert_eq!(kernel.advance(3).chosen, 1);
    assert_eq!(kernel.table.threads[5].result, 2);
    assert_eq!(kernel.table.ready[6], [1, 5]);
    assert_eq!(kernel.done(RELEASE, 0, &[]).chosen, 5);
    assert_eq!(kernel.table.mutexes[0].owner, None);
    assert_eq!(kernel.table.ready[2], [1]);
}

/// Timers come before limits, so in one list the woken by timers stand before those whose limit ran out.
#[test]
fn step_3_stands_before_step_4_in_the_ready_list() {
    let mut kernel = Kernel::fresh();
    kernel.done(CREATE_SEMAPHORE, 0, &[0, 1]);
    kernel.thread(8, 3, 0);
    kernel.waits(PEND, 0, &[5]);
    kernel.thread(2, 3, 0);
    kernel.waits(SLEEP, 0, &[5]);
    kernel.done(START_TIMER, 7, &[5, 0, 1]);
    assert_eq!(kernel.advance(5).wake_ups, 1);
    assert_eq!(kernel.table.ready[3], [8, 2]);
    assert_eq!((kernel.table.threads[8].result, kernel.table.threads[2].result), (1, 1));
}

#[test]
fn much_falling_due_in_one_tick_is_one_wake_up() {
    let mut kernel = Kernel::fresh();
    for id in [10, 11] {
        kernel.thread(id, 5, 0);
        kernel.waits(SLEEP, 0, &[4]);
    }
    kernel.thread(0, 2, 4);
    kernel.thread(1, 2, 4);
    for timer in 0..8 {
        kernel.done(START_TIMER, timer, &[4, timer % 2]);
    }
    let report = kernel.advance(4);
    assert_eq!((report.wake_ups, report.next_wake_up), (1, 4));
}

#[test]
fn the_clock_and_the_expiry_counts_go_round() {
    let mut kernel = Kernel::fresh();
    kernel.done(START_TIMER, 0, &[3, 1]);
    kernel.table.clock = u32::MAX - 1;
    kernel.table.timers[0].expiry_count = u32::MAX;
    let report = kernel.advance(4);
    assert_eq!((report.clock, report.wake_ups), (2, 1));
    assert_eq!(kernel.table.timers[0].expiry_count, 0);

    kernel.table.clock = u32::MAX - 1;
    kernel.table.timers[0].expiry_count = u32::MAX - 1;
    let report = kernel.advance(200_000);
    assert_eq!(report.clock, 199_998);
    assert_eq!(kernel.table.timers[0].expiry_count, report.wake_ups - 2);
    assert_eq!(report.wake_ups, 66_667);
}

#[test]
fn the_longest_distances_are_exact() {
    let mut kernel = Kernel::fresh();
    assert_eq!(kernel.done(START_TIMER, 0, &[u32::MAX, 1]).next_wake_up, u32::MAX);
    kernel.thread(0, 1, 0);
    kernel.waits(SLEEP, 0, &[u32::MAX]);
    let report = kernel.advance(u32::MAX - 1);
    assert_eq!((report.wake_ups, report.next_wake_up, report.chosen), (0, 1, 255));
    let report = kernel.advance(1);
    assert_eq!((report.wake_ups, report.next_wake_up, report.chosen), (1, u32::MAX, 0));
}

#[test]
fn the_next_wake_up_is_the_least_of_all_that_count() {
    let mut kernel = Kernel::fresh();
    kernel.done(CREATE_SEMAPHORE, 0, &[0, 1]);
    kernel.thread(3, 5, 0);
    assert_eq!(kernel.waits(SLEEP, 0, &[90]).next_wake_up, 90);
    kernel.thread(4, 5, 0);
    assert_eq!(kernel.waits(PEND, 0, &[80]).next_wake_up, 80);
    assert_eq!(kernel.done(START_TIMER, 0, &[70]).next_wake_up, 70);
    assert_eq!(kernel.thread(0, 2, 60).next_wake_up, 70, "alone in its list");
    assert_eq!(kernel.thread(1, 2, 9).next_wake_up, 60);
    assert_eq!(kernel.thread(9, 3, 5).next_wake_up, 70, "alone in a higher list");
    assert_eq!(kernel.done(STOP, 9, &[]).next_wake_up, 60);
    assert_eq!(kernel.done(SCHEDULING, 0, &[0]).next_wake_up, 70);
    assert_eq!(kernel.done(STOP_TIMER, 0, &[]).next_wake_up, 80);
    assert_eq!(kernel.done(POST, 0, &[]).next_wake_up, 90);
    assert_eq!(tick::next_wake_up(&Table::fresh()), 0);
}
