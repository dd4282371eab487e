//! The effects of calls 1 to 8 and 21, the choosing after a call and the renewal of a quantum (01, Calls). Most tests
//! write down the whole table that must come out, so that a field touched by mistake fails them too.

use super::helpers::Kernel;
use second::calls::number::*;
use second::table::{ListName, Table, Thread};

#[test]
fn create_puts_a_whole_new_record_at_the_stopped_tail() {
    let mut kernel = Kernel::fresh();
    kernel.done(CREATE_THREAD, 9, &[7, 65_535]);
    kernel.done(CREATE_THREAD, 4, &[0, 0]);
    let mut expected = Table::fresh();
    expected.stopped = vec![9, 4];
    expected.threads[9] = Thread {
        created: true,
        base_priority: 7,
        current_priority: 7,
        quantum: 65_535,
        quantum_left: 65_535,
        ..Thread::default()
    };
    expected.threads[4].created = true;
    assert_eq!(kernel.table, expected);
}

#[test]
fn start_goes_to_the_ready_tail() {
    let mut kernel = Kernel::fresh();
    for id in [5, 6, 7] {
        kernel.done(CREATE_THREAD, id, &[2, 4]);
    }
    let mut expected = kernel.table.clone();
    kernel.done(START, 6, &[]);
    kernel.done(START, 5, &[]);
    expected.stopped = vec![7];
    expected.ready[2] = vec![6, 5];
    expected.chosen = Some(6);
    assert_eq!(kernel.table, expected);
}

/// A stopped owner was raised while it stood there: its start goes by the current priority, not the base.
#[test]
fn start_uses_the_current_priority() {
    let mut kernel = Kernel::fresh();
    kernel.done(CREATE_THREAD, 2, &[3]);
    kernel.done(CREATE_MUTEX, 0, &[]);
    kernel.thread(1, 2, 0);
    kernel.done(CLAIM, 0, &[]);
    kernel.done(STOP, 1, &[]);
    kernel.thread(5, 6, 0);
    kernel.waits(CLAIM, 0, &[]);
    assert_eq!(kernel.table.stopped, [2, 1]);
    assert_eq!(
        (kernel.table.threads[1].current_priority, kernel.table.chosen),
        (6, None)
    );
    assert_eq!(kernel.done(START, 1, &[]).chosen, 1);
    assert_eq!(
        (kernel.table.ready[6].as_slice(), kernel.table.ready[2].len()),
        (&[1][..], 0)
    );
}

#[test]
fn stop_goes_to_the_stopped_tail_and_chooses_anew() {
    let mut kernel = Kernel::fresh();
    kernel.done(CREATE_THREAD, 0, &[1]);
    for id in [1, 2, 3] {
        kernel.thread(id, 4, 0);
    }
    let mut expected = kernel.table.clone();
    assert_eq!(kernel.done(STOP, 2, &[]).chosen, 1);
    assert_eq!(kernel.done(STOP, 1, &[]).chosen, 3);
    expected.stopped = vec![0, 2, 1];
    expected.ready[4] = vec![3];
    expected.chosen = Some(3);
    assert_eq!(kernel.table, expected);
}

#[test]
fn stop_of_another_goes_through_with_scheduling_off() {
    let mut kernel = Kernel::fresh();
    kernel.thread(1, 4, 0);
    kernel.thread(2, 4, 0);
    kernel.done(SCHEDULING, 0, &[0]);
    kernel.done(STOP, 2, &[]);
    assert_eq!(
        (kernel.table.stopped.as_slice(), kernel.table.chosen),
        (&[2][..], Some(1))
    );
}

/// An owner may be stopped, and keeps the mutex and the raised priority.
#[test]
fn a_stopped_owner_keeps_its_mutex() {
    let mut kernel = Kernel::fresh();
    kernel.done(CREATE_MUTEX, 0, &[]);
    kernel.thread(1, 2, 0);
    kernel.done(CLAIM, 0, &[]);
    kernel.thread(5, 6, 0);
    assert_eq!(kernel.waits(CLAIM, 0, &[]).chosen, 1);
    kernel.done(STOP, 1, &[]);
    assert_eq!(kernel.table.mutexes[0].owner, Some(1));
    assert_eq!(kernel.table.threads[1].current_priority, 6);
    assert_eq!(kernel.table.mutexes[0].waiters, [5]);
}

#[test]
fn exit_leaves_nothing_and_the_id_can_be_created_again() {
    let mut kernel = Kernel::fresh();
    kernel.done(CREATE_FLAGS, 0, &[5]);
    kernel.thread(3, 4, 9);
    kernel.thread(8, 2, 0);
    kernel.done(WAIT, 0, &[5, 0, 0]);
    assert_eq!(
        (kernel.table.threads[3].delivered, kernel.table.threads[3].result),
        (5, 1)
    );
    let mut expected = kernel.table.clone();
    assert_eq!(kernel.done(EXIT, 0, &[]).chosen, 8);
    expected.threads[3] = Thread::default();
    expected.ready[4] = vec![];
    expected.chosen = Some(8);
    assert_eq!(kernel.table, expected);
    kernel.done(CREATE_THREAD, 3, &[1, 2]);
    assert_eq!(
        (kernel.table.threads[3].delivered, kernel.table.threads[3].result),
        (0, 0)
    );
}

#[test]
fn exit_of_the_last_leaves_none_chosen() {
    let mut kernel = Kernel::fresh();
    kernel.thread(3, 4, 9);
    assert_eq!(kernel.done(EXIT, 0, &[]).chosen, 255);
    assert_eq!(kernel.table, Table::fresh());
}

#[test]
fn yield_moves_to_the_tail_and_renews_the_quantum_of_the_next_alone() {
    let mut kernel = Kernel::fresh();
    for id in [0, 1, 2] {
        kernel.thread(id, 4, 10);
    }
    kernel.advance(3);
    let mut expected = kernel.table.clone();
    assert_eq!(expected.threads[0].quantum_left, 7);
    kernel.done(YIELD, 0, &[]);
    expected.ready[4] = vec![1, 2, 0];
    expected.chosen = Some(1);
    assert_eq!(kernel.table, expected);

    kernel.advance(4);
    kernel.done(YIELD, 0, &[]);
    kernel.done(YIELD, 0, &[]);
    assert_eq!(kernel.table.chosen, Some(0));
    let left = [0, 1, 2].map(|id| kernel.table.threads[id].quantum_left);
    assert_eq!(
        left,
        [10, 6, 10],
        "thread 0 was renewed at its choice, thread 1 keeps what it left"
    );
}

#[test]
fn yield_alone_changes_nothing_and_renews_no_quantum() {
    let mut kernel = Kernel::fresh();
    kernel.thread(0, 4, 10);
    kernel.thread(1, 4, 10);
    kernel.advance(3);
    kernel.done(STOP, 1, &[]);
    let before = kernel.table.clone();
    assert_eq!(before.threads[0].quantum_left, 7);
    kernel.done(YIELD, 0, &[]);
    assert_eq!(kernel.table, before);
}

#[test]
fn sleep_goes_to_the_sleep_tail_in_order_of_arrival() {
    let mut kernel = Kernel::fresh();
    kernel.done(CREATE_SEMAPHORE, 0, &[1, 1]);
    kernel.thread(2, 3, 0);
    kernel.done(PEND, 0, &[]);
    assert_eq!(kernel.table.threads[2].result, 1);
    let mut expected = kernel.table.clone();
    kernel.waits(SLEEP, 0, &[u32::MAX]);
    expected.ready[3] = vec![];
    expected.sleep = vec![2];
    expected.chosen = None;
    expected.threads[2].limit_left = u32::MAX;
    expected.threads[2].result = 0;
    assert_eq!(kernel.table, expected);

    kernel.thread(1, 7, 0);
    kernel.waits(SLEEP, 0, &[1]);
    assert_eq!(kernel.table.sleep, [2, 1], "no order by priority among sleepers");
}

#[test]
fn set_priority_puts_a_ready_thread_last_in_another_list() {
    let mut kernel = Kernel::fresh();
    for (id, priority) in [(0, 4), (1, 4), (2, 5), (3, 5)] {
        kernel.thread(id, priority, 0);
    }
    let mut expected = kernel.table.clone();
    kernel.done(SET_PRIORITY, 0, &[5]);
    expected.ready[4] = vec![1];
    expected.ready[5] = vec![2, 3, 0];
    expected.threads[0].base_priority = 5;
    expected.threads[0].current_priority = 5;
    assert_eq!(kernel.table, expected);

    assert_eq!(
        kernel.done(SET_PRIORITY, 2, &[4]).chosen,
        3,
        "the running thread moves like any other"
    );
    assert_eq!(
        (&kernel.table.ready[4], &kernel.table.ready[5]),
        (&vec![1, 2], &vec![3, 0])
    );
}

#[test]
fn set_priority_to_the_same_moves_nobody() {
    let mut kernel = Kernel::fresh();
    kernel.thread(0, 4, 0);
    kernel.thread(1, 4, 0);
    let before = kernel.table.clone();
    kernel.done(SET_PRIORITY, 0, &[4]);
    assert_eq!(kernel.table, before);
}

#[test]
fn set_priority_of_an_owner_never_lowers_its_current_priority() {
    let mut kernel = Kernel::fresh();
    kernel.done(CREATE_MUTEX, 3, &[]);
    kernel.thread(0, 4, 0);
    kernel.thread(1, 4, 0);
    kernel.done(CLAIM, 3, &[]);
    let mut expected = kernel.table.clone();

    kernel.done(SET_PRIORITY, 0, &[2]);
    expected.threads[0].base_priority = 2;
    assert_eq!(kernel.table, expected, "the base changes, the place doesn't");

    kernel.done(SET_PRIORITY, 0, &[6]);
    expected.threads[0].base_priority = 6;
    expected.threads[0].current_priority = 6;
    expected.ready[4] = vec![1];
    expected.ready[6] = vec![0];
    assert_eq!(kernel.table, expected);

    kernel.done(SET_PRIORITY, 0, &[1]);
    expected.threads[0].base_priority = 1;
    assert_eq!(kernel.table, expected);
    assert_eq!(kernel.done(RELEASE, 3, &[]).chosen, 1);
    assert_eq!(kernel.table.ready[1], [0]);
}

/// Threads 1, 2 and 3 at priority 5, 4 and 4 wait on the list that the call leads to. The owner is low and asleep.
fn three_waiters(call: u32, fields: &[u32]) -> Kernel {
    let mut kernel = Kernel::fresh();
    kernel.done(CREATE_SEMAPHORE, 0, &[0, 1]);
    kernel.done(CREATE_MUTEX, 0, &[]);
    kernel.done(CREATE_FLAGS, 0, &[0]);
    kernel.thread(0, 0, 0);
    kernel.done(CLAIM, 0, &[]);
    kernel.waits(SLEEP, 0, &[1_000]);
    for (id, priority) in [(2, 4), (1, 5), (3, 4)] {
        kernel.thread(id, priority, 0);
        kernel.waits(call, 0, fields);
    }
    kernel
}

#[test]
fn set_priority_of_a_waiter_enters_it_afresh_and_touches_no_owner() {
    let lists: [(u32, &[u32], ListName); 3] = [
        (PEND, &[50], ListName::SemaphoreWait(0)),
        (CLAIM, &[50], ListName::MutexWait(0)),
        (WAIT, &[1, 1, 50], ListName::FlagsWait(0)),
    ];
    for (call, fields, name) in lists {
        let mut kernel = three_waiters(call, fields);
        let mut expected = kernel.table.clone();
        assert_eq!(kernel.table.list(name), &[1, 2, 3]);
        for (id, priority, order) in [
            (1, 4, [2, 3, 1]),
            (2, 4, [2, 3, 1]),
            (1, 7, [1, 2, 3]),
            (3, 5, [1, 3, 2]),
            (2, 7, [1, 2, 3]),
        ] {
            kernel.done(SET_PRIORITY, id, &[priority]);
            expected.threads[id as usize].base_priority = priority as usize;
            expected.threads[id as usize].current_priority = priority as usize;
            *expected.list_mut(name) = order.to_vec();
            assert_eq!(kernel.table, expected);
        }
    }
}

/// The second of each list rises and the first falls: in an order by priority they would change places.
#[test]
fn set_priority_leaves_sleepers_and_stopped_threads_where_they_are() {
    let mut kernel = Kernel::fresh();
    for id in [1, 2] {
        kernel.done(CREATE_THREAD, id, &[4]);
    }
    for id in [3, 4] {
        kernel.thread(id, 4, 0);
        kernel.waits(SLEEP, 0, &[9]);
    }
    let mut expected = kernel.table.clone();
    for (id, priority) in [(2, 7), (4, 7), (1, 0), (3, 0)] {
        kernel.done(SET_PRIORITY, id, &[priority]);
        expected.threads[id as usize].base_priority = priority as usize;
        expected.threads[id as usize].current_priority = priority as usize;
        assert_eq!(kernel.table, expected);
    }
}

#[test]
fn set_quantum_writes_the_quantum_and_what_is_left() {
    let mut kernel = Kernel::fresh();
    kernel.thread(0, 4, 10);
    kernel.thread(1, 4, 10);
    kernel.advance(3);
    for (id, quantum) in [(0, 20), (1, 65_535), (0, 0)] {
        let mut expected = kernel.table.clone();
        kernel.done(SET_QUANTUM, id, &[quantum]);
        expected.threads[id as usize].quantum = quantum;
        expected.threads[id as usize].quantum_left = quantum;
        assert_eq!(kernel.table, expected);
    }
}

#[test]
fn scheduling_on_while_on_and_off_while_off_change_nothing() {
    let mut kernel = Kernel::fresh();
    kernel.thread(0, 4, 10);
    kernel.thread(1, 4, 10);
    kernel.advance(3);
    let on = kernel.table.clone();
    kernel.done(SCHEDULING, 0, &[1]);
    assert_eq!(kernel.table, on);
    kernel.done(SCHEDULING, 0, &[0]);
    let off = Table {
        scheduling_on: false,
        ..on
    };
    assert_eq!(kernel.table, off);
    kernel.done(SCHEDULING, 0, &[0]);
    assert_eq!(kernel.table, off);
}

#[test]
fn with_scheduling_off_the_chosen_thread_stays() {
    let mut kernel = Kernel::fresh();
    kernel.done(SCHEDULING, 0, &[0]);
    assert_eq!(kernel.thread(0, 1, 5).chosen, 255, "none stays none");
    assert_eq!(kernel.advance(4).chosen, 255);
    assert_eq!(kernel.done(SCHEDULING, 0, &[1]).chosen, 0);
    kernel.done(SCHEDULING, 0, &[0]);
    assert_eq!(kernel.thread(1, 7, 5).chosen, 0);
    assert_eq!(
        kernel.done(SET_PRIORITY, 0, &[0]).chosen,
        0,
        "it may move and stays chosen"
    );
    assert_eq!(kernel.table.ready[0], [0]);
    assert_eq!(kernel.done(SCHEDULING, 0, &[1]).chosen, 1);
}

/// The same thread chosen again after scheduling was off keeps what is left; another one is renewed.
#[test]
fn who_is_chosen_again_keeps_what_is_left_of_its_quantum() {
    let mut kernel = Kernel::fresh();
    kernel.thread(0, 4, 10);
    kernel.thread(1, 4, 10);
    kernel.advance(3);
    kernel.done(SCHEDULING, 0, &[0]);
    kernel.done(SCHEDULING, 0, &[1]);
    assert_eq!(kernel.table.threads[0].quantum_left, 7);

    kernel.thread(2, 6, 0);
    assert_eq!(
        (kernel.table.chosen, kernel.table.threads[0].quantum_left),
        (Some(2), 7)
    );
    kernel.done(EXIT, 0, &[]);
    assert_eq!(
        (kernel.table.chosen, kernel.table.threads[0].quantum_left),
        (Some(0), 10)
    );
    assert_eq!(kernel.table.ready[4], [0, 1]);
}

/// Set priority moves the running thread behind its peer: the peer is chosen and renewed, and back again.
#[test]
fn the_choice_is_made_after_the_effect() {
    let mut kernel = Kernel::fresh();
    kernel.thread(0, 4, 10);
    kernel.thread(1, 5, 10);
    kernel.thread(2, 5, 10);
    kernel.advance(4);
    kernel.done(SET_PRIORITY, 1, &[4]);
    assert_eq!(
        (kernel.table.chosen, kernel.table.threads[1].quantum_left),
        (Some(2), 6)
    );
    kernel.done(SET_PRIORITY, 1, &[6]);
    assert_eq!(
        (kernel.table.chosen, kernel.table.threads[1].quantum_left),
        (Some(1), 10)
    );
}

#[test]
fn start_stop_and_yield_keep_result_and_delivered() {
    let mut kernel = Kernel::fresh();
    kernel.done(CREATE_FLAGS, 0, &[9]);
    kernel.thread(0, 4, 0);
    kernel.thread(1, 4, 0);
    kernel.done(WAIT, 0, &[1, 0, 77]);
    for (call, id) in [(YIELD, 0), (STOP, 0), (START, 0), (SET_PRIORITY, 0), (SET_QUANTUM, 0)] {
        kernel.done(call, id, &[]);
        assert_eq!(
            (kernel.table.threads[0].result, kernel.table.threads[0].delivered),
            (1, 9)
        );
        assert_eq!(
            kernel.table.threads[0].limit_left, 0,
            "a wait that needn't wait keeps no limit"
        );
    }
}

/// Every list has room for all sixteen threads.
#[test]
fn all_threads_on_one_list() {
    let all: Vec<usize> = (0..16).collect();
    let mut kernel = Kernel::fresh();
    kernel.done(CREATE_SEMAPHORE, 0, &[0, 1]);
    for id in 0..16 {
        kernel.done(CREATE_THREAD, id, &[5, 1]);
    }
    assert_eq!(kernel.table.stopped, all);
    for id in 0..16 {
        kernel.done(START, id, &[]);
    }
    assert_eq!(kernel.table.ready[5], all);
    let report = kernel.advance(16);
    assert_eq!((report.wake_ups, report.chosen), (16, 0));
    assert_eq!(kernel.table.ready[5], all);
    for _ in 0..16 {
        kernel.waits(PEND, 0, &[7]);
    }
    assert_eq!(kernel.table.semaphores[0].waiters, all);
    assert_eq!(kernel.advance(7).wake_ups, 1);
    for _ in 0..16 {
        kernel.waits(SLEEP, 0, &[3]);
    }
    assert_eq!(kernel.table.sleep, all);
}
