//! The effects of calls 9 to 20: semaphores, mutexes, flag objects and timers (01, Calls). Most tests write down the
//! whole table that must come out.

use super::helpers::Kernel;
use second::calls::number::*;
use second::table::{Action, Flags, Mutex, Semaphore, Table, Timer};

#[test]
fn creates_write_their_object_and_nothing_else() {
    let mut kernel = Kernel::fresh();
    kernel.done(CREATE_SEMAPHORE, 7, &[3, 65_535]);
    kernel.done(CREATE_MUTEX, 3, &[]);
    kernel.done(CREATE_FLAGS, 3, &[0xBEEF]);
    let mut expected = Table::fresh();
    expected.semaphores[7] = Semaphore {
        created: true,
        count: 3,
        maximum: 65_535,
        waiters: vec![],
    };
    expected.mutexes[3] = Mutex {
        created: true,
        owner: None,
        depth: 0,
        waiters: vec![],
    };
    expected.flags[3] = Flags {
        created: true,
        word: 0xBEEF,
        waiters: vec![],
    };
    assert_eq!(kernel.table, expected);
}

#[test]
fn pend_takes_one_or_waits() {
    let mut kernel = Kernel::fresh();
    kernel.done(CREATE_SEMAPHORE, 2, &[1, 5]);
    kernel.thread(6, 3, 4);
    let mut expected = kernel.table.clone();
    kernel.done(PEND, 2, &[9]);
    expected.semaphores[2].count = 0;
    expected.threads[6].result = 1;
    assert_eq!(kernel.table, expected);

    assert_eq!(kernel.waits(PEND, 2, &[9]).next_wake_up, 9);
    expected.semaphores[2].waiters = vec![6];
    expected.ready[3] = vec![];
    expected.chosen = None;
    expected.threads[6].result = 0;
    expected.threads[6].limit_left = 9;
    assert_eq!(kernel.table, expected);
}

#[test]
fn a_limit_of_0_is_no_limit() {
    let mut kernel = Kernel::fresh();
    kernel.done(CREATE_SEMAPHORE, 2, &[0, 5]);
    kernel.thread(6, 3, 4);
    assert_eq!(kernel.waits(PEND, 2, &[0]).next_wake_up, 0);
    let before = kernel.table.clone();
    assert_eq!(kernel.advance(1_000_000).wake_ups, 0);
    assert_eq!(
        kernel.table,
        Table {
            clock: 1_000_000,
            ..before
        }
    );
}

/// Before the lower ones only; who came first stays ahead of its equals.
#[test]
fn a_wait_list_falls_in_priority_and_keeps_arrivals_in_order() {
    let mut kernel = Kernel::fresh();
    kernel.done(CREATE_SEMAPHORE, 0, &[0, 9]);
    for (id, priority) in [(1, 3), (2, 5), (3, 3), (4, 5), (5, 0), (6, 7), (7, 3)] {
        kernel.thread(id, priority, 0);
        kernel.waits(PEND, 0, &[]);
    }
    assert_eq!(kernel.table.semaphores[0].waiters, [6, 2, 4, 1, 3, 7, 5]);
    for expected in [6, 2, 4, 1, 3, 7, 5] {
        kernel.done(POST, 0, &[]);
        assert!(kernel.table.is_ready(expected));
    }
    assert_eq!(kernel.table.semaphores[0].count, 0);
    assert_eq!(kernel.table.ready[3], [1, 3, 7]);
}

#[test]
fn post_wakes_the_first_waiter_and_keeps_the_count() {
    let mut kernel = Kernel::fresh();
    kernel.done(CREATE_SEMAPHORE, 2, &[0, 1]);
    kernel.thread(6, 3, 4);
    kernel.waits(PEND, 2, &[9]);
    kernel.advance(5);
    kernel.thread(7, 3, 0);
    let mut expected = kernel.table.clone();
    kernel.done(POST, 2, &[]);
    expected.semaphores[2].waiters = vec![];
    expected.ready[3] = vec![7, 6];
    expected.threads[6].result = 1;
    expected.threads[6].limit_left = 0;
    assert_eq!(kernel.table, expected);
    kernel.done(POST, 2, &[]);
    expected.semaphores[2].count = 1;
    assert_eq!(kernel.table, expected);
}

#[test]
fn claim_owns_then_deepens_and_release_undoes_it() {
    let mut kernel = Kernel::fresh();
    kernel.done(CREATE_MUTEX, 1, &[]);
    kernel.thread(0, 3, 0);
    kernel.thread(4, 3, 0);
    let unowned = kernel.table.clone();
    for depth in [1, 2, 3] {
        kernel.done(CLAIM, 1, &[u32::MAX]);
        let mut expected = unowned.clone();
        expected.mutexes[1].owner = Some(0);
        expected.mutexes[1].depth = depth;
        expected.threads[0].result = 1;
        assert_eq!(kernel.table, expected);
    }
    for depth in [2, 1] {
        kernel.done(RELEASE, 1, &[]);
        assert_eq!(
            (kernel.table.mutexes[1].owner, kernel.table.mutexes[1].depth),
            (Some(0), depth)
        );
    }
    kernel.done(RELEASE, 1, &[]);
    let mut expected = unowned;
    expected.threads[0].result = 1;
    assert_eq!(kernel.table, expected);
}

/// After a time-out the last result is 2; each call that needn't wait makes it 1 again.
#[test]
fn what_need_not_wait_has_result_1() {
    for (call, fields) in [(CLAIM, vec![]), (PEND, vec![]), (WAIT, vec![4, 0, 0])] {
        let mut kernel = Kernel::fresh();
        kernel.done(CREATE_MUTEX, 0, &[]);
        kernel.done(CREATE_SEMAPHORE, 0, &[1, 1]);
        kernel.done(CREATE_SEMAPHORE, 1, &[0, 1]);
        kernel.done(CREATE_FLAGS, 0, &[4]);
        kernel.thread(0, 3, 0);
        kernel.done(CLAIM, 0, &[]);
        kernel.waits(PEND, 1, &[1]);
        kernel.advance(1);
        assert_eq!(kernel.table.threads[0].result, 2);
        kernel.done(call, 0, &fields);
        assert_eq!(kernel.table.threads[0].result, 1);
    }
}

#[test]
fn a_claimer_of_no_higher_priority_raises_nobody() {
    let mut kernel = Kernel::fresh();
    kernel.done(CREATE_MUTEX, 0, &[]);
    for id in [1, 2, 3] {
        kernel.thread(id, 4, 0);
    }
    kernel.done(CLAIM, 0, &[]);
    kernel.done(YIELD, 0, &[]);
    let mut expected = kernel.table.clone();
    kernel.waits(CLAIM, 0, &[8]);
    expected.mutexes[0].waiters = vec![2];
    expected.threads[2].limit_left = 8;
    expected.ready[4] = vec![3, 1];
    expected.chosen = Some(3);
    assert_eq!(kernel.table, expected);
}

/// A raised owner that is ready goes behind those who are already there.
#[test]
fn a_raised_ready_owner_comes_last_in_the_higher_list() {
    let mut kernel = Kernel::fresh();
    kernel.done(CREATE_MUTEX, 0, &[]);
    kernel.thread(1, 2, 0);
    kernel.done(CLAIM, 0, &[]);
    kernel.thread(5, 6, 0);
    kernel.thread(6, 6, 7);
    let mut expected = kernel.table.clone();
    kernel.waits(CLAIM, 0, &[]);
    expected.mutexes[0].waiters = vec![5];
    expected.threads[1].current_priority = 6;
    expected.ready[2] = vec![];
    expected.ready[6] = vec![6, 1];
    expected.chosen = Some(6);
    assert_eq!(kernel.table, expected);
}

/// One link only: the raised owner waits on a second mutex, whose owner stays as it is.
#[test]
fn a_raised_waiting_owner_enters_its_wait_list_afresh() {
    let mut kernel = Kernel::fresh();
    kernel.done(CREATE_MUTEX, 0, &[]);
    kernel.done(CREATE_MUTEX, 1, &[]);
    kernel.thread(0, 4, 0);
    kernel.done(CLAIM, 0, &[]);
    kernel.done(STOP, 0, &[]);
    kernel.thread(1, 2, 0);
    kernel.done(CLAIM, 1, &[]);
    kernel.thread(2, 3, 0);
    kernel.waits(CLAIM, 0, &[]);
    kernel.waits(CLAIM, 0, &[44]);
    assert_eq!(kernel.table.mutexes[0].waiters, [2, 1]);
    kernel.thread(6, 6, 0);
    let mut expected = kernel.table.clone();
    kernel.waits(CLAIM, 1, &[]);
    expected.mutexes[1].waiters = vec![6];
    expected.mutexes[0].waiters = vec![1, 2];
    expected.threads[1].current_priority = 6;
    expected.ready[6] = vec![];
    expected.chosen = None;
    assert_eq!(kernel.table, expected);
}

/// The owner is the second sleeper: in an order by priority it would come first.
#[test]
fn a_raised_sleeping_owner_stays_in_its_place() {
    let mut kernel = Kernel::fresh();
    kernel.done(CREATE_MUTEX, 0, &[]);
    for id in [1, 2] {
        kernel.thread(id, 2, 0);
    }
    kernel.waits(SLEEP, 0, &[9]);
    kernel.done(CLAIM, 0, &[]);
    kernel.waits(SLEEP, 0, &[5]);
    kernel.thread(6, 6, 0);
    kernel.waits(CLAIM, 0, &[]);
    assert_eq!(
        (kernel.table.sleep.as_slice(), kernel.table.threads[2].current_priority),
        (&[1, 2][..], 6)
    );
    assert_eq!(kernel.advance(5).chosen, 2);
    assert_eq!(kernel.table.ready[6], [2]);
}

/// Two threads wait for each other's mutex. Each claim raises one owner, and the raise goes no further.
#[test]
fn a_ring_of_owners_just_waits() {
    let mut kernel = Kernel::fresh();
    for id in [0, 1] {
        kernel.done(CREATE_MUTEX, id, &[]);
    }
    kernel.thread(1, 3, 0);
    kernel.done(CLAIM, 0, &[]);
    kernel.done(STOP, 1, &[]);
    kernel.thread(2, 5, 0);
    kernel.done(CLAIM, 1, &[]);
    kernel.waits(CLAIM, 0, &[]);
    assert_eq!(kernel.table.threads[1].current_priority, 5);
    kernel.done(START, 1, &[]);
    let mut expected = kernel.table.clone();
    assert_eq!(kernel.waits(CLAIM, 1, &[6]).chosen, 255);
    expected.ready[5] = vec![];
    expected.mutexes[1].waiters = vec![1];
    expected.threads[1].limit_left = 6;
    expected.threads[1].result = 0;
    expected.chosen = None;
    assert_eq!(kernel.table, expected);
    assert_eq!(kernel.advance(6).chosen, 1);
    assert_eq!(kernel.done(RELEASE, 0, &[]).chosen, 2);
}

/// The current priority of the claimer counts, not its base, and it is compared with the owner's current one.
#[test]
fn a_raise_compares_current_with_current() {
    let mut kernel = Kernel::fresh();
    for id in [0, 1] {
        kernel.done(CREATE_MUTEX, id, &[]);
    }
    kernel.thread(1, 1, 0);
    kernel.done(CLAIM, 0, &[]);
    kernel.thread(2, 2, 0);
    kernel.done(CLAIM, 1, &[]);
    kernel.thread(5, 5, 0);
    assert_eq!(kernel.waits(CLAIM, 1, &[]).chosen, 2);
    assert_eq!(kernel.waits(CLAIM, 0, &[]).chosen, 1);
    assert_eq!(
        kernel.table.threads[1].current_priority, 5,
        "raised to the claimer's current 5, not its base 2"
    );
    kernel.thread(6, 4, 0);
    kernel.done(STOP, 1, &[]);
    kernel.waits(CLAIM, 0, &[]);
    assert_eq!(
        kernel.table.threads[1].current_priority, 5,
        "4 is above its base and below its current"
    );
    assert_eq!(kernel.table.mutexes[0].waiters, [2, 6]);
}

/// First the releaser falls and moves, then the waiter comes behind it: both end in the same list.
#[test]
fn release_moves_the_releaser_before_the_waiter() {
    let mut kernel = Kernel::fresh();
    kernel.done(CREATE_MUTEX, 0, &[]);
    kernel.thread(1, 3, 0);
    kernel.done(CLAIM, 0, &[]);
    kernel.thread(5, 6, 0);
    kernel.waits(CLAIM, 0, &[30]);
    kernel.thread(2, 3, 0);
    kernel.done(SET_PRIORITY, 5, &[3]);
    let mut expected = kernel.table.clone();
    assert_eq!(
        (kernel.table.chosen, kernel.table.threads[1].current_priority),
        (Some(1), 6)
    );
    kernel.done(RELEASE, 0, &[]);
    expected.ready[6] = vec![];
    expected.ready[3] = vec![2, 1, 5];
    expected.threads[1].current_priority = 3;
    expected.mutexes[0] = Mutex {
        created: true,
        owner: Some(5),
        depth: 1,
        waiters: vec![],
    };
    expected.threads[5].limit_left = 0;
    expected.threads[5].result = 1;
    expected.chosen = Some(2);
    assert_eq!(kernel.table, expected);
}

#[test]
fn release_of_an_unraised_owner_moves_it_not() {
    let mut kernel = Kernel::fresh();
    kernel.done(CREATE_MUTEX, 0, &[]);
    kernel.thread(1, 3, 0);
    kernel.thread(2, 3, 0);
    kernel.done(CLAIM, 0, &[]);
    kernel.done(RELEASE, 0, &[]);
    assert_eq!(
        (kernel.table.ready[3].as_slice(), kernel.table.chosen),
        (&[1, 2][..], Some(1))
    );
}

#[test]
fn release_above_depth_1_lets_nothing_fall_and_wakes_nobody() {
    let mut kernel = Kernel::fresh();
    kernel.done(CREATE_MUTEX, 0, &[]);
    kernel.thread(1, 3, 0);
    kernel.done(CLAIM, 0, &[]);
    kernel.done(CLAIM, 0, &[]);
    kernel.thread(5, 6, 0);
    kernel.waits(CLAIM, 0, &[]);
    let mut expected = kernel.table.clone();
    kernel.done(RELEASE, 0, &[]);
    expected.mutexes[0].depth = 1;
    assert_eq!(kernel.table, expected);
}

/// The fall goes to base although a second mutex with a waiter is still owned.
#[test]
fn release_falls_to_base_even_for_the_owner_of_another_mutex() {
    let mut kernel = Kernel::fresh();
    kernel.done(CREATE_MUTEX, 0, &[]);
    kernel.done(CREATE_MUTEX, 1, &[]);
    kernel.thread(1, 3, 0);
    kernel.done(CLAIM, 0, &[]);
    kernel.done(CLAIM, 1, &[]);
    kernel.thread(5, 6, 0);
    kernel.waits(CLAIM, 1, &[]);
    kernel.done(RELEASE, 0, &[]);
    assert_eq!(
        (kernel.table.mutexes[0].owner, kernel.table.mutexes[1].owner),
        (None, Some(1))
    );
    assert_eq!(kernel.table.threads[1].current_priority, 3);
    assert_eq!(kernel.table.ready[3], [1]);
}

#[test]
fn the_first_waiter_owns_and_the_others_wait_on() {
    let mut kernel = Kernel::fresh();
    kernel.done(CREATE_MUTEX, 0, &[]);
    kernel.thread(0, 7, 0);
    kernel.done(CLAIM, 0, &[]);
    kernel.waits(SLEEP, 0, &[5]);
    for (id, priority) in [(1, 4), (2, 5), (3, 5)] {
        kernel.thread(id, priority, 0);
        kernel.waits(CLAIM, 0, &[]);
    }
    kernel.advance(5);
    kernel.done(RELEASE, 0, &[]);
    assert_eq!(
        (kernel.table.mutexes[0].owner, kernel.table.mutexes[0].depth),
        (Some(2), 1)
    );
    assert_eq!(kernel.table.mutexes[0].waiters, [3, 1]);
    assert_eq!(kernel.table.threads[2].current_priority, 5);
}

/// Each mode against a word, by hand: word, mask, mode, whether it holds.
const CONDITIONS: [(u32, u32, u32, bool); 12] = [
    (0b0101, 0b0110, 0, true),
    (0b0101, 0b1010, 0, false),
    (0b0101, 0b0101, 1, true),
    (0b0101, 0b0111, 1, false),
    (0b0101, 0b0111, 2, true),
    (0b0101, 0b0101, 2, false),
    (0b0101, 0b1010, 3, true),
    (0b0101, 0b0110, 3, false),
    (0x0000, 0xFFFF, 0, false),
    (0x0000, 0xFFFF, 3, true),
    (0xFFFF, 0xFFFF, 1, true),
    (0xFFFF, 0x8000, 2, false),
];

#[test]
fn the_four_modes() {
    for (word, mask, mode, holds) in CONDITIONS {
        let mut kernel = Kernel::fresh();
        kernel.done(CREATE_FLAGS, 1, &[word]);
        kernel.thread(3, 2, 0);
        let mut expected = kernel.table.clone();
        if holds {
            kernel.done(WAIT, 1, &[mask, mode, 12]);
            expected.threads[3].result = 1;
            expected.threads[3].delivered = word;
        } else {
            kernel.waits(WAIT, 1, &[mask, mode, 12]);
            expected.threads[3].wait_mask = mask;
            expected.threads[3].wait_mode = mode;
            expected.threads[3].limit_left = 12;
            expected.ready[2] = vec![];
            expected.flags[1].waiters = vec![3];
            expected.chosen = None;
        }
        assert_eq!(
            kernel.table, expected,
            "word {:#b} mask {:#b} mode {}",
            word, mask, mode
        );
    }
}

/// Who starts to wait keeps the word delivered before and loses the result.
#[test]
fn a_new_wait_keeps_delivered_and_clears_the_result() {
    let mut kernel = Kernel::fresh();
    kernel.done(CREATE_FLAGS, 0, &[6]);
    kernel.thread(0, 1, 0);
    kernel.done(WAIT, 0, &[2, 0, 0]);
    kernel.waits(WAIT, 0, &[1, 0, 3]);
    assert_eq!(
        (kernel.table.threads[0].delivered, kernel.table.threads[0].result),
        (6, 0)
    );
    kernel.advance(3);
    let thread = kernel.table.threads[0];
    assert_eq!(
        (thread.delivered, thread.result, thread.wait_mask, thread.wait_mode),
        (6, 2, 0, 0)
    );
}

#[test]
fn set_wakes_in_list_order_with_the_new_word() {
    let mut kernel = Kernel::fresh();
    kernel.done(CREATE_FLAGS, 0, &[0x10]);
    for (id, mask, mode) in [(1, 1, 0), (2, 3, 1), (3, 0x10, 3), (4, 6, 0), (5, 3, 1)] {
        kernel.thread(id, 4, 0);
        kernel.waits(WAIT, 0, &[mask, mode, 99]);
    }
    kernel.thread(9, 2, 0);
    kernel.waits(SLEEP, 0, &[1_000]);
    let mut expected = kernel.table.clone();
    kernel.done(SET, 0, &[3]);
    expected.flags[0].word = 0x13;
    expected.flags[0].waiters = vec![3];
    expected.ready[4] = vec![1, 2, 4, 5];
    for id in [1, 2, 4, 5] {
        expected.threads[id].delivered = 0x13;
        expected.threads[id].result = 1;
        expected.threads[id].limit_left = 0;
        expected.threads[id].wait_mask = 0;
        expected.threads[id].wait_mode = 0;
    }
    expected.chosen = Some(1);
    assert_eq!(kernel.table, expected);
}

#[test]
fn clear_wakes_those_who_wait_for_clear_bits() {
    let mut kernel = Kernel::fresh();
    kernel.done(CREATE_FLAGS, 0, &[0xF0F]);
    for (id, mask, mode) in [(7, 3, 3), (2, 5, 2), (3, 0xF00, 2), (4, 0x8000, 0)] {
        kernel.thread(id, 4, 0);
        kernel.waits(WAIT, 0, &[mask, mode, 0]);
    }
    kernel.done(CLEAR, 0, &[0x8003]);
    assert_eq!(kernel.table.flags[0].word, 0xF0C);
    assert_eq!(kernel.table.flags[0].waiters, [3, 4]);
    assert_eq!(kernel.table.ready[4], [7, 2]);
    assert_eq!(kernel.table.threads[7].delivered, 0xF0C);
    assert_eq!(
        (kernel.table.threads[4].delivered, kernel.table.threads[3].delivered),
        (0, 0)
    );
    assert_eq!(kernel.table.chosen, Some(7));
}

#[test]
fn a_set_of_what_is_set_and_a_clear_of_what_is_clear_change_nothing() {
    let mut kernel = Kernel::fresh();
    kernel.done(CREATE_FLAGS, 0, &[5]);
    let before = kernel.table.clone();
    kernel.done(SET, 0, &[5]);
    kernel.done(CLEAR, 0, &[0xFFFA]);
    assert_eq!(kernel.table, before);
}

#[test]
fn a_timer_started_again_keeps_nothing_but_its_count() {
    let mut kernel = Kernel::fresh();
    kernel.done(CREATE_FLAGS, 2, &[0]);
    kernel.done(CREATE_SEMAPHORE, 3, &[0, 9]);
    kernel.done(START_TIMER, 7, &[2, 1, 1 + 256 * 3]);
    kernel.advance(5);
    let mut expected = kernel.table.clone();
    assert_eq!((expected.timers[7].left, expected.timers[7].expiry_count), (1, 2));
    kernel.done(START_TIMER, 7, &[u32::MAX, 0, 2 + 256 * 2, 0xFFFF]);
    expected.timers[7] = Timer {
        period: u32::MAX,
        left: u32::MAX,
        repeat: false,
        action: Action::SetFlags { flags: 2, mask: 0xFFFF },
        expiry_count: 2,
    };
    assert_eq!(kernel.table, expected);
    kernel.done(START_TIMER, 7, &[4, 1]);
    expected.timers[7] = Timer {
        period: 4,
        left: 4,
        repeat: true,
        action: Action::Nothing,
        expiry_count: 2,
    };
    assert_eq!(kernel.table, expected);
}

#[test]
fn stop_timer_touches_left_alone() {
    let mut kernel = Kernel::fresh();
    kernel.done(CREATE_SEMAPHORE, 3, &[0, 9]);
    kernel.done(STOP_TIMER, 4, &[]);
    assert_eq!(kernel.table.timers[4], Timer::default());
    kernel.done(START_TIMER, 4, &[6, 1, 1 + 256 * 3]);
    kernel.advance(8);
    let mut expected = kernel.table.clone();
    assert_eq!(kernel.done(STOP_TIMER, 4, &[]).next_wake_up, 0);
    expected.timers[4].left = 0;
    assert_eq!(kernel.table, expected);
    kernel.done(STOP_TIMER, 4, &[]);
    assert_eq!(kernel.table, expected);
    assert_eq!(kernel.advance(100).wake_ups, 0);
}
