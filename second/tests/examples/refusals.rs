//! Every refusal at its edges, and which one is given where several are due (01, Answers; 01, Calls). That a refusal
//! leaves the table as it was is checked at every call by the kernel under test.

use super::helpers::{request, Kernel};
use second::calls::answer::*;
use second::calls::number::*;

/// How many of a, b, c, d each call uses; they are always the first ones.
fn used(call: u32) -> usize {
    match call {
        START_TIMER => 4,
        WAIT => 3,
        CREATE_THREAD | CREATE_SEMAPHORE => 2,
        SLEEP | SET_PRIORITY | SET_QUANTUM | PEND | CLAIM | CREATE_FLAGS | SET | CLEAR | SCHEDULING | ADVANCE => 1,
        _ => 0,
    }
}

const WITHOUT_ID: [u32; 5] = [EXIT, YIELD, SLEEP, SCHEDULING, ADVANCE];

/// How many there are of what a call's id names.
fn how_many(call: u32) -> u32 {
    match call {
        CREATE_THREAD | START | STOP | SET_PRIORITY | SET_QUANTUM => 16,
        CREATE_SEMAPHORE | PEND | POST => 8,
        CREATE_MUTEX | CLAIM | RELEASE => 4,
        CREATE_FLAGS | WAIT | SET | CLEAR => 4,
        START_TIMER | STOP_TIMER => 8,
        _ => panic!("call {} has no id", call),
    }
}

/// Thread 0 runs, 1 is ready beside it, 2 is stopped; one object of each family is there under id 0.
fn furnished() -> Kernel {
    let mut kernel = Kernel::fresh();
    kernel.thread(0, 3, 0);
    kernel.thread(1, 3, 5);
    kernel.done(CREATE_THREAD, 2, &[2, 0]);
    kernel.done(CREATE_SEMAPHORE, 0, &[1, 2]);
    kernel.done(CREATE_MUTEX, 0, &[]);
    kernel.done(CREATE_FLAGS, 0, &[1]);
    kernel
}

/// Id and fields with which a call on the furnished table is accepted.
fn accepted(call: u32) -> (u32, Vec<u32>) {
    match call {
        CREATE_THREAD => (5, vec![3, 10]),
        START => (2, vec![]),
        STOP => (1, vec![]),
        SLEEP => (0, vec![4]),
        SET_PRIORITY | SET_QUANTUM => (1, vec![6]),
        CREATE_SEMAPHORE => (1, vec![1, 2]),
        PEND | CLAIM => (0, vec![9]),
        CREATE_MUTEX => (1, vec![]),
        CREATE_FLAGS => (1, vec![9]),
        WAIT => (0, vec![1, 0, 9]),
        SET | CLEAR => (0, vec![1]),
        START_TIMER => (0, vec![5, 1, 2, 1]),
        SCHEDULING => (0, vec![1]),
        ADVANCE => (0, vec![3]),
        _ => (0, vec![]),
    }
}

/// The furnished table, made so that the call is accepted: a release needs a claim before it.
fn furnished_for(call: u32) -> Kernel {
    let mut kernel = furnished();
    if call == RELEASE {
        kernel.done(CLAIM, 0, &[]);
    }
    kernel
}

#[test]
fn each_call_is_accepted_and_4_with_any_unused_field() {
    for call in 1..=LAST {
        let (id, fields) = accepted(call);
        let answer = if call == SLEEP { WAITS } else { DONE };
        furnished_for(call).gives(answer, call, id, &fields);
        for place in used(call)..4 {
            for value in [1, 0x100, 0x1_0000, u32::MAX] {
                let mut fields = fields.clone();
                fields.resize(4, 0);
                fields[place] = value;
                furnished_for(call).gives(OUT_OF_RANGE, call, id, &fields);
            }
        }
    }
}

#[test]
fn the_id_of_a_call_without_one_is_4_and_never_3() {
    for call in WITHOUT_ID {
        for id in [1, 8, 15, 16, 255, 256, u32::MAX] {
            furnished().gives(OUT_OF_RANGE, call, id, &accepted(call).1);
            Kernel::fresh().gives(OUT_OF_RANGE, call, id, &accepted(call).1);
        }
    }
}

#[test]
fn a_call_outside_the_list_is_2_whatever_the_fields() {
    assert_eq!(LAST, 22);
    for call in [0, LAST + 1, LAST + 2, 127, 255, 256, 256 + EXIT, u32::MAX] {
        furnished().gives(NO_SUCH_CALL, call, 0, &[]);
        furnished().gives(NO_SUCH_CALL, call, u32::MAX, &[u32::MAX; 4]);
        Kernel::fresh().gives(NO_SUCH_CALL, call, 16, &[8, 0, 0, 1]);
    }
}

#[test]
fn an_id_out_of_range_is_3_before_any_other_fault() {
    for call in (1..=LAST).filter(|call| !WITHOUT_ID.contains(call)) {
        for id in [how_many(call), 255, 256, u32::MAX] {
            furnished().gives(NOT_THERE, call, id, &accepted(call).1);
            furnished().gives(NOT_THERE, call, id, &[u32::MAX; 4]);
            Kernel::fresh().gives(NOT_THERE, call, id, &[0, 0, 255, 0]);
        }
    }
}

#[test]
fn what_is_not_created_is_3_before_any_other_fault() {
    let needing = [
        START,
        STOP,
        SET_PRIORITY,
        SET_QUANTUM,
        PEND,
        POST,
        CLAIM,
        RELEASE,
        WAIT,
        SET,
        CLEAR,
    ];
    for call in needing {
        for id in [3, how_many(call) - 1] {
            furnished().gives(NOT_THERE, call, id, &accepted(call).1);
            furnished().gives(NOT_THERE, call, id, &[u32::MAX; 4]);
        }
        Kernel::fresh().gives(NOT_THERE, call, 0, &accepted(call).1);
    }
}

#[test]
fn the_last_id_of_each_family_is_in_range() {
    let mut kernel = furnished();
    for call in [
        CREATE_THREAD,
        CREATE_SEMAPHORE,
        CREATE_MUTEX,
        CREATE_FLAGS,
        START_TIMER,
        STOP_TIMER,
    ] {
        kernel.done(call, how_many(call) - 1, &accepted(call).1);
    }
}

/// Each number at its lowest and highest, and one beyond: call, id, fields, and whether they are in range.
const EDGES: &[(u32, u32, &[u32], bool)] = &[
    (CREATE_THREAD, 5, &[0, 0], true),
    (CREATE_THREAD, 5, &[7, 65_535], true),
    (CREATE_THREAD, 5, &[8, 0], false),
    (CREATE_THREAD, 5, &[256, 0], false),
    (CREATE_THREAD, 5, &[0, 65_536], false),
    (SLEEP, 0, &[0], false),
    (SLEEP, 0, &[1], true),
    (SLEEP, 0, &[u32::MAX], true),
    (SET_PRIORITY, 1, &[7], true),
    (SET_PRIORITY, 1, &[8], false),
    (SET_QUANTUM, 1, &[0], true),
    (SET_QUANTUM, 1, &[65_535], true),
    (SET_QUANTUM, 1, &[65_536], false),
    (CREATE_SEMAPHORE, 1, &[0, 0], false),
    (CREATE_SEMAPHORE, 1, &[0, 1], true),
    (CREATE_SEMAPHORE, 1, &[1, 1], true),
    (CREATE_SEMAPHORE, 1, &[2, 1], false),
    (CREATE_SEMAPHORE, 1, &[1, 0], false),
    (CREATE_SEMAPHORE, 1, &[65_535, 65_535], true),
    (CREATE_SEMAPHORE, 1, &[0, 65_536], false),
    (CREATE_SEMAPHORE, 1, &[65_536, 65_536], false),
    (PEND, 0, &[0], true),
    (PEND, 0, &[u32::MAX], true),
    (CLAIM, 0, &[0], true),
    (CLAIM, 0, &[u32::MAX], true),
    (CREATE_FLAGS, 1, &[0], true),
    (CREATE_FLAGS, 1, &[65_535], true),
    (CREATE_FLAGS, 1, &[65_536], false),
    (WAIT, 0, &[0, 0], false),
    (WAIT, 0, &[65_535, 0, u32::MAX], true),
    (WAIT, 0, &[65_536, 0], false),
    (WAIT, 0, &[1, 1, 0], true),
    (WAIT, 0, &[1, 3], true),
    (WAIT, 0, &[1, 4], false),
    (SET, 0, &[0], false),
    (SET, 0, &[65_535], true),
    (SET, 0, &[65_536], false),
    (CLEAR, 0, &[0], false),
    (CLEAR, 0, &[65_535], true),
    (CLEAR, 0, &[65_536], false),
    (START_TIMER, 0, &[0, 0], false),
    (START_TIMER, 0, &[1, 0], true),
    (START_TIMER, 0, &[u32::MAX, 1], true),
    (START_TIMER, 0, &[1, 2], false),
    (SCHEDULING, 0, &[0], true),
    (SCHEDULING, 0, &[2], false),
    (ADVANCE, 0, &[0], true),
    (ADVANCE, 0, &[u32::MAX], true),
];

#[test]
fn the_edges_of_each_range() {
    for (call, id, fields, in_range) in EDGES {
        let answer = furnished().ask(&request(*call, *id, fields)).answer;
        let accepted = answer == DONE || answer == WAITS;
        assert!(
            accepted || answer == OUT_OF_RANGE,
            "call {} fields {:?} gave {}",
            call,
            fields,
            answer
        );
        assert_eq!(accepted, *in_range, "call {} fields {:?} gave {}", call, fields, answer);
    }
}

/// Tables in which deeper faults are due as well: scheduling off, none chosen, a full semaphore, a mutex at its depth.
fn with_deeper_faults() -> Vec<Kernel> {
    let mut off = furnished();
    off.done(SCHEDULING, 0, &[0]);
    let mut none_chosen = furnished();
    none_chosen.done(STOP, 0, &[]);
    none_chosen.done(STOP, 1, &[]);
    let mut full = furnished();
    full.done(POST, 0, &[]);
    for _ in 0..255 {
        full.done(CLAIM, 0, &[]);
    }
    vec![furnished(), off, none_chosen, full]
}

/// Id 0 is there in every family, so that a create of it is due to be 5.
#[test]
fn a_fault_in_the_fields_is_4_before_all_that_the_table_refuses() {
    for kernel in with_deeper_faults().iter_mut() {
        for call in 1..=LAST {
            let (id, mut fields) = accepted(call);
            fields.resize(4, 0);
            for place in used(call)..4 {
                let mut spoiled = fields.clone();
                spoiled[place] = 1;
                kernel.gives(OUT_OF_RANGE, call, id, &spoiled);
                kernel.gives(OUT_OF_RANGE, call, 0, &spoiled);
            }
        }
        for (call, id, fields, _) in EDGES.iter().filter(|edge| !edge.3) {
            kernel.gives(OUT_OF_RANGE, *call, *id, fields);
            kernel.gives(OUT_OF_RANGE, *call, 0, fields);
        }
    }
}

/// The c field of call 19, with period and repeat good and then bad.
#[test]
fn the_action_of_a_timer() {
    let actions = [
        (0, 0, DONE),
        (0, 1, OUT_OF_RANGE),
        (256, 0, OUT_OF_RANGE),
        (0xFFFF_FF00, 0, OUT_OF_RANGE),
        (1, 0, DONE),
        (1, 1, OUT_OF_RANGE),
        (1 + 256, 0, NOT_THERE),
        (1 + 256 * 8, 0, NOT_THERE),
        (1 + 256 * 256, 0, NOT_THERE),
        (1 + 256 * 0xFF_FFFF, 1, NOT_THERE),
        (2, 1, DONE),
        (2, 65_535, DONE),
        (2, 0, OUT_OF_RANGE),
        (2, 65_536, OUT_OF_RANGE),
        (2 + 256, 1, NOT_THERE),
        (2 + 256 * 4, 0, NOT_THERE),
        (2 + 256 * 256, 65_536, NOT_THERE),
        (3, 0, OUT_OF_RANGE),
        (3 + 256, 0, OUT_OF_RANGE),
        (255 + 256 * 9, 1, OUT_OF_RANGE),
    ];
    for (action, mask, answer) in actions {
        furnished().gives(answer, START_TIMER, 3, &[5, 1, action, mask]);
        let with_bad_period = if answer == NOT_THERE { NOT_THERE } else { OUT_OF_RANGE };
        furnished().gives(with_bad_period, START_TIMER, 3, &[0, 1, action, mask]);
        furnished().gives(with_bad_period, START_TIMER, 3, &[5, 2, action, mask]);
        furnished().gives(NOT_THERE, START_TIMER, 8, &[5, 1, action, mask]);
    }
    let mut kernel = furnished();
    kernel.done(CREATE_SEMAPHORE, 7, &[0, 1]);
    kernel.done(CREATE_FLAGS, 3, &[0]);
    kernel.done(START_TIMER, 0, &[5, 0, 1 + 256 * 7, 0]);
    kernel.done(START_TIMER, 0, &[5, 0, 2 + 256 * 3, 1]);
}

#[test]
fn a_create_of_what_is_there_is_5_after_3_and_4() {
    for (call, good, bad) in [
        (CREATE_THREAD, vec![3, 4], vec![8]),
        (CREATE_SEMAPHORE, vec![0, 1], vec![2, 1]),
        (CREATE_MUTEX, vec![], vec![1]),
        (CREATE_FLAGS, vec![7], vec![65_536]),
    ] {
        furnished().gives(ALREADY_THERE, call, 0, &good);
        furnished().gives(OUT_OF_RANGE, call, 0, &bad);
        furnished().gives(NOT_THERE, call, 16, &bad);
    }
}

#[test]
fn without_a_running_thread_seven_calls_are_6() {
    let needing = [EXIT, YIELD, SLEEP, PEND, CLAIM, RELEASE, WAIT];
    let mut kernel = Kernel::fresh();
    kernel.done(CREATE_SEMAPHORE, 0, &[1, 2]);
    kernel.done(CREATE_MUTEX, 0, &[]);
    kernel.done(CREATE_FLAGS, 0, &[1]);
    kernel.done(CREATE_THREAD, 1, &[3]);
    kernel.done(CREATE_THREAD, 2, &[2]);
    for scheduling in [1, 0] {
        kernel.done(SCHEDULING, 0, &[scheduling]);
        for call in needing {
            kernel.gives(NONE_RUNNING, call, 0, &accepted(call).1);
            kernel.gives(OUT_OF_RANGE, call, 0, &[0, 9, 9, 9]);
        }
        for call in [PEND, CLAIM, RELEASE, WAIT] {
            kernel.gives(NOT_THERE, call, 3, &[0, 9, 9, 9]);
        }
        kernel.gives(OUT_OF_RANGE, SLEEP, 0, &[0]);
    }
    kernel.done(SCHEDULING, 0, &[1]);
    for call in (1..=LAST).filter(|call| !needing.contains(call) && *call != STOP) {
        let (id, fields) = accepted(call);
        kernel.done(call, id, &fields);
    }
}

/// A table on which pend, claim and wait would wait: semaphore 1 at 0, mutex 1 owned by thread 1, flags 1 at 0.
fn where_all_would_wait() -> Kernel {
    let mut kernel = furnished();
    kernel.done(CREATE_SEMAPHORE, 1, &[0, 1]);
    kernel.done(CREATE_MUTEX, 1, &[]);
    kernel.done(CREATE_FLAGS, 1, &[0]);
    kernel.done(YIELD, 0, &[]);
    kernel.done(CLAIM, 1, &[]);
    assert_eq!(kernel.done(YIELD, 0, &[]).chosen, 0);
    kernel
}

#[test]
fn with_scheduling_off_these_are_7() {
    let waiting: [(u32, &[u32]); 3] = [(PEND, &[0]), (CLAIM, &[0]), (WAIT, &[1, 0, 0])];
    for (call, fields) in waiting {
        where_all_would_wait().waits(call, 1, fields);
    }
    let mut kernel = where_all_would_wait();
    kernel.done(SCHEDULING, 0, &[0]);
    for (call, fields) in waiting {
        kernel.gives(SCHEDULING_OFF, call, 1, fields);
        kernel.gives(OUT_OF_RANGE, call, 1, &[1, 0, 0, 1]);
    }
    for call in [EXIT, YIELD, SLEEP] {
        kernel.gives(SCHEDULING_OFF, call, 0, &accepted(call).1);
    }
    kernel.gives(OUT_OF_RANGE, SLEEP, 0, &[0]);
    kernel.gives(SCHEDULING_OFF, STOP, 0, &[]);
    kernel.gives(OUT_OF_RANGE, STOP, 0, &[1]);
    kernel.gives(WRONG_STATE, STOP, 2, &[]);
    kernel.gives(WRONG_STATE, RELEASE, 1, &[]);
}

#[test]
fn with_scheduling_off_no_other_call_is_7() {
    for call in (1..=LAST).filter(|call| ![EXIT, YIELD, SLEEP].contains(call)) {
        let mut kernel = furnished_for(call);
        kernel.done(SCHEDULING, 0, &[0]);
        let (id, fields) = accepted(call);
        kernel.done(call, id, &fields);
    }
    let mut kernel = furnished_for(RELEASE);
    kernel.done(SCHEDULING, 0, &[0]);
    kernel.done(CLAIM, 0, &[]);
    assert_eq!(kernel.table.mutexes[0].depth, 2);
}

#[test]
fn an_owner_exits_neither_with_scheduling_on_nor_off() {
    let mut kernel = furnished();
    kernel.done(CREATE_MUTEX, 3, &[]);
    kernel.done(CLAIM, 3, &[]);
    kernel.gives(WRONG_STATE, EXIT, 0, &[]);
    kernel.done(SCHEDULING, 0, &[0]);
    kernel.gives(SCHEDULING_OFF, EXIT, 0, &[]);
    kernel.gives(OUT_OF_RANGE, EXIT, 3, &[]);
    kernel.done(RELEASE, 3, &[]);
    kernel.done(SCHEDULING, 0, &[1]);
    kernel.done(EXIT, 0, &[]);
}

#[test]
fn start_and_stop_are_8_in_every_other_state() {
    let mut kernel = where_all_would_wait();
    kernel.thread(8, 7, 0);
    kernel.waits(PEND, 1, &[]);
    kernel.thread(10, 7, 0);
    kernel.waits(WAIT, 1, &[1]);
    kernel.thread(11, 7, 0);
    kernel.waits(SLEEP, 0, &[5]);
    kernel.thread(9, 7, 0);
    kernel.waits(CLAIM, 1, &[]);
    for id in [0, 1, 8, 9, 10, 11] {
        kernel.gives(WRONG_STATE, START, id, &[]);
    }
    for id in [2, 8, 9, 10, 11] {
        kernel.gives(WRONG_STATE, STOP, id, &[]);
    }
    kernel.gives(OUT_OF_RANGE, START, 0, &[0, 1]);
    kernel.gives(OUT_OF_RANGE, STOP, 2, &[0, 0, 1]);
    kernel.done(STOP, 0, &[]);
    kernel.done(STOP, 1, &[]);
    kernel.done(START, 2, &[]);
}

#[test]
fn a_release_by_another_than_the_owner_is_8() {
    let mut kernel = where_all_would_wait();
    kernel.gives(WRONG_STATE, RELEASE, 1, &[]);
    kernel.gives(WRONG_STATE, RELEASE, 0, &[]);
    kernel.gives(OUT_OF_RANGE, RELEASE, 1, &[0, 0, 0, 1]);
}

#[test]
fn a_post_at_the_maximum_is_9() {
    let mut kernel = furnished();
    kernel.done(POST, 0, &[]);
    kernel.gives(FULL, POST, 0, &[]);
    kernel.gives(OUT_OF_RANGE, POST, 0, &[1]);
    kernel.done(SCHEDULING, 0, &[0]);
    kernel.gives(FULL, POST, 0, &[]);
    kernel.done(PEND, 0, &[]);
    kernel.done(POST, 0, &[]);
    assert_eq!(kernel.table.semaphores[0].count, 2);

    kernel.done(CREATE_SEMAPHORE, 7, &[65_534, 65_535]);
    kernel.done(POST, 7, &[]);
    kernel.gives(FULL, POST, 7, &[]);
    assert_eq!(kernel.table.semaphores[7].count, 65_535);
}

#[test]
fn the_greatest_depth_is_full_for_the_owner_alone() {
    let mut kernel = furnished();
    for _ in 0..255 {
        kernel.done(CLAIM, 0, &[]);
    }
    assert_eq!(kernel.table.mutexes[0].depth, 255);
    kernel.gives(FULL, CLAIM, 0, &[]);
    kernel.gives(OUT_OF_RANGE, CLAIM, 0, &[0, 1]);
    kernel.done(SCHEDULING, 0, &[0]);
    kernel.gives(FULL, CLAIM, 0, &[]);
    kernel.done(SCHEDULING, 0, &[1]);

    kernel.thread(7, 6, 0);
    kernel.done(SCHEDULING, 0, &[0]);
    kernel.gives(SCHEDULING_OFF, CLAIM, 0, &[]);
    kernel.done(SCHEDULING, 0, &[1]);
    kernel.waits(CLAIM, 0, &[]);
    assert_eq!(kernel.table.mutexes[0].waiters, [7]);
    assert_eq!(kernel.table.mutexes[0].depth, 255);
}

#[test]
fn a_refusal_reports_chosen_clock_and_next_wake_up_of_its_table() {
    let mut kernel = furnished();
    kernel.done(START_TIMER, 0, &[40, 0]);
    kernel.advance(7);
    for (call, id) in [(0, 0), (START, 16), (EXIT, 1), (CREATE_MUTEX, 0), (RELEASE, 0)] {
        let report = kernel.ask(&request(call, id, &[]));
        assert!(is_refusal(report.answer));
        assert_eq!(
            (report.chosen, report.clock, report.wake_ups, report.next_wake_up),
            (0, 7, 0, 33)
        );
    }
}
