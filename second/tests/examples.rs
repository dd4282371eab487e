//! The examples of document 01: P1 to P12, the whole replay example, the two creates that are refused, and for each
//! of the errors it foretells an example that the error would break. The modules go through its sentences one by one.

#[path = "examples/helpers.rs"]
mod helpers;

#[path = "examples/refusals.rs"]
mod refusals;

#[path = "examples/thread_effects.rs"]
mod thread_effects;

#[path = "examples/object_effects.rs"]
mod object_effects;

#[path = "examples/ticks.rs"]
mod ticks;

#[path = "examples/jumps.rs"]
mod jumps;

#[path = "examples/replays.rs"]
mod replays;

use helpers::Kernel;
use second::calls::answer::{FULL, NOT_THERE, OUT_OF_RANGE, SCHEDULING_OFF};
use second::calls::number::*;
use second::table::{ListName, Table, Thread, NONE_CHOSEN};

#[test]
fn a_fresh_table_has_nothing_in_it() {
    let table = Table::fresh();
    assert_eq!((table.clock, table.scheduling_on, table.chosen), (0, true, None));
    assert!(table
        .threads
        .iter()
        .all(|thread| *thread == Thread::default() && !thread.created));
    assert!(ListName::all().all(|name| table.list(name).is_empty()));
    assert_eq!(ListName::all().count(), 26);
    assert!(table
        .semaphores
        .iter()
        .all(|semaphore| !semaphore.created && semaphore.maximum == 0));
    assert!(table
        .mutexes
        .iter()
        .all(|mutex| !mutex.created && mutex.owner.is_none() && mutex.depth == 0));
    assert!(table.flags.iter().all(|flags| !flags.created && flags.word == 0));
    assert!(table
        .timers
        .iter()
        .all(|timer| timer.period == 0 && timer.left == 0 && timer.expiry_count == 0));
}

#[test]
fn p1_a_fresh_table_advances() {
    let mut kernel = Kernel::fresh();
    let report = kernel.advance(5);
    assert_eq!(
        (report.clock, report.wake_ups, report.chosen, report.next_wake_up),
        (5, 0, NONE_CHOSEN, 0)
    );
    assert_eq!(
        kernel.table,
        Table {
            clock: 5,
            ..Table::fresh()
        }
    );
    kernel.assert_replayed_alike();
}

#[test]
fn p2_yield_goes_to_the_next_of_the_list() {
    let mut kernel = Kernel::fresh();
    kernel.done(CREATE_THREAD, 3, &[4]);
    kernel.done(CREATE_THREAD, 1, &[4]);
    assert_eq!(kernel.done(START, 3, &[]).chosen, 3);
    assert_eq!(kernel.done(START, 1, &[]).chosen, 3);
    assert_eq!(kernel.done(YIELD, 0, &[]).chosen, 1);
    assert_eq!(kernel.table.ready[4], [1, 3]);
    kernel.assert_replayed_alike();
}

#[test]
fn p3_a_preempted_thread_keeps_its_place() {
    let mut kernel = Kernel::fresh();
    kernel.thread(3, 4, 0);
    assert_eq!(kernel.thread(2, 4, 0).chosen, 3);
    assert_eq!(kernel.thread(1, 6, 0).chosen, 1);
    assert_eq!(kernel.table.ready[4], [3, 2]);
    assert_eq!(kernel.table.ready[6], [1]);
    kernel.assert_replayed_alike();
}

#[test]
fn p4_a_post_at_the_maximum_is_full() {
    let mut kernel = Kernel::fresh();
    kernel.done(CREATE_SEMAPHORE, 0, &[0, 1]);
    kernel.done(POST, 0, &[]);
    kernel.gives(FULL, POST, 0, &[]);
    assert_eq!(kernel.table.semaphores[0].count, 1);
    kernel.assert_replayed_alike();
}

#[test]
fn p5_two_threads_share_by_quantum() {
    let mut kernel = Kernel::fresh();
    kernel.thread(0, 2, 3);
    kernel.thread(1, 2, 3);
    let start = kernel.table.clone();
    assert_eq!(start.chosen, Some(0));

    let report = kernel.advance(2);
    assert_eq!((report.chosen, report.wake_ups, report.next_wake_up), (0, 0, 1));
    assert_eq!(kernel.table.threads[0].quantum_left, 1);
    kernel.assert_replayed_alike();

    kernel.table = start;
    let report = kernel.advance(6);
    assert_eq!((report.chosen, report.wake_ups), (0, 2));
}

#[test]
fn p6_a_repeating_timer_posts_each_time() {
    let mut kernel = Kernel::fresh();
    kernel.done(CREATE_SEMAPHORE, 2, &[0, 5]);
    assert_eq!(kernel.done(START_TIMER, 6, &[10, 1, 1 + 256 * 2]).next_wake_up, 10);
    let report = kernel.advance(35);
    assert_eq!((report.wake_ups, report.next_wake_up, report.clock), (3, 5, 35));
    assert_eq!(kernel.table.semaphores[2].count, 3);
    assert_eq!(
        (kernel.table.timers[6].left, kernel.table.timers[6].expiry_count),
        (5, 3)
    );
    kernel.assert_replayed_alike();
}

/// The timer and the limit fall due in the same tick, whichever was started first.
#[test]
fn p7_the_post_comes_before_the_limit() {
    for timer_first in [true, false] {
        let mut kernel = Kernel::fresh();
        kernel.thread(0, 3, 0);
        kernel.done(CREATE_SEMAPHORE, 0, &[0, 1]);
        if timer_first {
            kernel.done(START_TIMER, 0, &[10, 0, 1]);
            kernel.waits(PEND, 0, &[10]);
        } else {
            kernel.waits(PEND, 0, &[10]);
            kernel.done(START_TIMER, 0, &[10, 0, 1]);
        }
        let report = kernel.advance(10);
        assert_eq!((report.wake_ups, report.chosen), (1, 0));
        assert_eq!(kernel.table.threads[0].result, 1);
        assert_eq!(kernel.table.semaphores[0].count, 0);
        kernel.assert_replayed_alike();
    }
}

#[test]
fn p8_the_clock_goes_round() {
    let mut kernel = Kernel::fresh();
    assert_eq!(kernel.advance(u32::MAX).clock, 4_294_967_295);
    assert_eq!(kernel.advance(1).clock, 0);
    kernel.assert_replayed_alike();
}

#[test]
fn p9_a_claim_raises_the_owner_until_its_release() {
    let mut kernel = Kernel::fresh();
    kernel.done(CREATE_MUTEX, 0, &[]);
    kernel.thread(1, 2, 0);
    kernel.done(CLAIM, 0, &[]);
    kernel.thread(5, 6, 0);
    assert_eq!(kernel.waits(CLAIM, 0, &[]).chosen, 1);
    assert_eq!(kernel.table.threads[1].current_priority, 6);

    assert_eq!(kernel.done(RELEASE, 0, &[]).chosen, 5);
    assert_eq!(
        (kernel.table.mutexes[0].owner, kernel.table.mutexes[0].depth),
        (Some(5), 1)
    );
    assert_eq!(kernel.table.threads[1].current_priority, 2);
    assert_eq!(kernel.table.threads[5].result, 1);
    kernel.assert_replayed_alike();
}

#[test]
fn p10_a_set_completes_the_mask() {
    let mut kernel = Kernel::fresh();
    kernel.done(CREATE_FLAGS, 0, &[0x0005]);
    kernel.thread(0, 1, 0);
    assert_eq!(kernel.waits(WAIT, 0, &[0x0007, 1]).chosen, NONE_CHOSEN);
    assert_eq!(kernel.done(SET, 0, &[0x0002]).chosen, 0);
    assert!(kernel.table.is_ready(0));
    assert_eq!(
        (kernel.table.threads[0].delivered, kernel.table.threads[0].result),
        (0x0007, 1)
    );
    kernel.assert_replayed_alike();
}

#[test]
fn p11_with_scheduling_off_only_a_pend_that_would_wait_is_refused() {
    let mut kernel = Kernel::fresh();
    kernel.thread(0, 1, 0);
    kernel.done(CREATE_SEMAPHORE, 0, &[0, 1]);
    kernel.done(CREATE_SEMAPHORE, 1, &[1, 1]);
    kernel.done(SCHEDULING, 0, &[0]);
    kernel.gives(SCHEDULING_OFF, PEND, 0, &[]);
    kernel.done(PEND, 1, &[]);
    assert_eq!(kernel.table.semaphores[1].count, 0);
    kernel.assert_replayed_alike();
}

#[test]
fn p12_sleepers_of_one_tick_wake_by_id() {
    let mut kernel = Kernel::fresh();
    kernel.thread(9, 4, 0);
    kernel.thread(4, 4, 0);
    assert_eq!(kernel.waits(SLEEP, 0, &[3]).chosen, 4);
    assert_eq!(kernel.waits(SLEEP, 0, &[3]).chosen, NONE_CHOSEN);
    assert_eq!(kernel.table.sleep, [9, 4]);
    let report = kernel.advance(3);
    assert_eq!((report.wake_ups, report.chosen), (1, 4));
    assert_eq!(kernel.table.ready[4], [4, 9]);
    kernel.assert_replayed_alike();
}

#[test]
fn the_two_creates_at_the_end_of_the_examples() {
    let mut kernel = Kernel::fresh();
    kernel.gives(NOT_THERE, CREATE_THREAD, 16, &[8]);
    kernel.gives(OUT_OF_RANGE, CREATE_THREAD, 0, &[8]);
    kernel.assert_replayed_alike();
}

#[test]
fn the_whole_replay_example() {
    let mut file = Vec::new();
    for (call, id, a) in [(0x01, 0x03, 0x04), (0x02, 0x03, 0x00), (0x16, 0x00, 0x05)] {
        let mut record = [0; 20];
        record[..5].copy_from_slice(&[0xAC, 0xDC, call, id, a]);
        file.extend_from_slice(&record);
    }
    let (lines, table) = helpers::replayed(&file);
    assert_eq!(lines, "0 255 0 0\n0 3 0 0\n0 3 5 0\n");
    assert_eq!(
        (table.clock, table.chosen, table.threads[3].base_priority),
        (5, Some(3), 4)
    );
}

#[test]
fn error_keeping_the_old_next_wake_up() {
    let mut kernel = Kernel::fresh();
    assert_eq!(kernel.done(START_TIMER, 0, &[50, 1]).next_wake_up, 50);
    assert_eq!(kernel.advance(10).next_wake_up, 40);
    assert_eq!(kernel.done(START_TIMER, 5, &[7]).next_wake_up, 7);
    assert_eq!(kernel.done(STOP_TIMER, 5, &[]).next_wake_up, 40);
    let report = kernel.advance(6);
    assert_eq!((report.wake_ups, report.next_wake_up), (0, 34));
}

#[test]
fn error_a_repeating_timer_firing_once_in_a_long_advance() {
    for ticks in [1_000, 100_000, 100_001, 1_000_000] {
        let mut kernel = Kernel::fresh();
        kernel.done(START_TIMER, 0, &[7, 1]);
        let report = kernel.advance(ticks);
        assert_eq!(report.wake_ups, ticks / 7);
        assert_eq!(kernel.table.timers[0].expiry_count, ticks / 7);
        assert_eq!(kernel.table.timers[0].left, 7 - ticks % 7);
    }
}

/// With the limits before the timers the pend would time out and the post would stay in the count.
#[test]
fn error_limits_before_timers() {
    let mut kernel = Kernel::fresh();
    kernel.thread(0, 3, 0);
    kernel.done(CREATE_SEMAPHORE, 0, &[0, 1]);
    kernel.done(START_TIMER, 0, &[10, 0, 1]);
    kernel.waits(PEND, 0, &[10]);
    kernel.advance(10);
    assert_eq!(
        (kernel.table.threads[0].result, kernel.table.semaphores[0].count),
        (1, 0)
    );
}

/// With the preempted thread at the tail, thread 2 would be chosen after the exit.
#[test]
fn error_a_preempted_thread_at_the_tail() {
    let mut kernel = Kernel::fresh();
    kernel.thread(3, 4, 0);
    kernel.thread(2, 4, 0);
    kernel.thread(1, 6, 0);
    assert_eq!(kernel.table.ready[4], [3, 2]);
    assert_eq!(kernel.done(EXIT, 0, &[]).chosen, 3);
}

#[test]
fn error_counting_the_quantum_of_a_thread_alone() {
    let mut kernel = Kernel::fresh();
    kernel.thread(0, 2, 3);
    kernel.thread(1, 1, 3);
    kernel.thread(2, 1, 3);
    assert_eq!(kernel.table.chosen, Some(0));
    let before = kernel.table.clone();
    let report = kernel.advance(20);
    assert_eq!((report.wake_ups, report.next_wake_up), (0, 0));
    assert_eq!(kernel.table, Table { clock: 20, ..before });
}
