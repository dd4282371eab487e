//! Small changes of the sample on both sides of each boundary, each with exactly the clauses that it breaks. The
//! offsets are written anew from IMAGE.md.

use crate::sample;
use second::image::layout::{LENGTH, OTHER_LIST_COUNT};
use second::sound;

/// Bytes to write, each with its offset.
type Change = Vec<(usize, Vec<u8>)>;

fn thread(id: usize, field: usize) -> usize {
    6 + 17 * id + field
}

fn semaphore(id: usize, field: usize) -> usize {
    278 + 5 * id + field
}

fn mutex(id: usize, field: usize) -> usize {
    318 + 3 * id + field
}

fn flags(id: usize, field: usize) -> usize {
    330 + 3 * id + field
}

fn timer(id: usize, field: usize) -> usize {
    342 + 17 * id + field
}

fn half(number: u16) -> Vec<u8> {
    number.to_le_bytes().to_vec()
}

fn word(number: u32) -> Vec<u8> {
    number.to_le_bytes().to_vec()
}

/// The change of one field of one byte.
fn byte(at: usize, number: u8) -> Change {
    vec![(at, vec![number])]
}

/// A list with these ids, by the number of its length's and its first place's offsets.
fn filled(length: usize, first: usize, ids: &[u8]) -> Change {
    let mut places = ids.to_vec();
    places.resize(16, 0);
    vec![(length, vec![ids.len() as u8]), (first, places)]
}

fn ready(priority: usize, ids: &[u8]) -> Change {
    filled(478 + priority, 486 + 16 * priority, ids)
}

const SLEEP: usize = 0;
const STOPPED: usize = 1;
const SEMAPHORE_2: usize = 4;
const MUTEX_1: usize = 11;
const FLAGS_3: usize = 17;

fn list(number: usize, ids: &[u8]) -> Change {
    filled(614 + 17 * number, 614 + 17 * number + 1, ids)
}

fn changed(mut image: Vec<u8>, change: &Change) -> Vec<u8> {
    for (at, bytes) in change {
        image[*at..at + bytes.len()].copy_from_slice(bytes);
    }
    image
}

fn names(image: &[u8]) -> Vec<&'static str> {
    sound::broken(image).iter().map(|clause| clause.name()).collect()
}

/// The sample with this change breaks exactly these clauses.
fn check(change: Change, expected: &[&str]) {
    assert_eq!(names(&changed(sample::bytes(), &change)), expected, "{:?}", change);
}

fn scheduling_and_chosen(scheduling: u8, chosen: u8) -> Change {
    vec![(4, vec![scheduling, chosen])]
}

#[test]
fn scheduling_off_allows_any_ready_thread_or_none() {
    for chosen in [0, 1, 2, 3, 255] {
        check(scheduling_and_chosen(1, chosen), &[]);
    }
    for chosen in 4..=15 {
        check(scheduling_and_chosen(1, chosen), &["off-chosen-not-ready"]);
    }
    for chosen in [16, 17, 128, 254] {
        check(scheduling_and_chosen(1, chosen), &["chosen-range"]);
        check(scheduling_and_chosen(0, chosen), &["chosen-range"]);
    }
    for scheduling in [2, 3, 255] {
        check(scheduling_and_chosen(scheduling, 3), &["scheduling-range"]);
    }
}

#[test]
fn scheduling_on_demands_the_head_of_the_highest_list() {
    check(scheduling_and_chosen(0, 3), &[]);
    check(scheduling_and_chosen(0, 255), &["on-none-though-ready"]);
    for chosen in 0..=2 {
        check(scheduling_and_chosen(0, chosen), &["on-chosen-in-lower-list"]);
    }
    for chosen in 4..=15 {
        check(scheduling_and_chosen(0, chosen), &["on-chosen-not-ready"]);
    }
    let without_3 = |chosen| [scheduling_and_chosen(0, chosen), ready(7, &[]), list(STOPPED, &[6, 3])].concat();
    check(without_3(0), &[]);
    check(without_3(1), &["on-chosen-behind-head"]);
    check(without_3(2), &["on-chosen-in-lower-list"]);
    check(without_3(3), &["on-chosen-not-ready"]);
}

#[test]
fn with_nobody_ready_none_is_chosen() {
    let all_stopped = |scheduling, chosen| {
        let lists = [
            ready(0, &[]),
            ready(4, &[]),
            ready(7, &[]),
            list(STOPPED, &[6, 0, 1, 2, 3]),
        ]
        .concat();
        [scheduling_and_chosen(scheduling, chosen), lists].concat()
    };
    check(all_stopped(0, 255), &[]);
    check(all_stopped(1, 255), &[]);
    for chosen in 0..=15 {
        check(all_stopped(0, chosen), &["on-chosen-though-none-ready"]);
        check(all_stopped(1, chosen), &["off-chosen-not-ready"]);
    }
}

#[test]
fn past_the_end_of_each_list_are_zeros() {
    let other = ["sleep", "stopped", "semaphore-wait", "mutex-wait", "flags-wait"];
    for priority in 0..8 {
        for (place, id) in [(15, 1), (15, 255), (2, 16), (3, 15)] {
            check(byte(486 + 16 * priority + place, id), &["ready-past-end"]);
        }
    }
    for number in 0..OTHER_LIST_COUNT {
        let family = match number {
            0 => 0,
            1 => 1,
            2..=9 => 2,
            10..=13 => 3,
            _ => 4,
        };
        for (place, id) in [(15, 1), (15, 255), (3, 16), (4, 15)] {
            check(
                byte(614 + 17 * number + 1 + place, id),
                &[&format!("{}-past-end", other[family])],
            );
        }
    }
}

#[test]
fn each_entry_of_a_list_is_a_threads_id() {
    for id in [16, 17, 255] {
        check(ready(4, &[0, id, 1]), &["ready-id-range"]);
        check(list(SLEEP, &[id, 5, 4]), &["sleep-id-range"]);
        check(list(STOPPED, &[6, id]), &["stopped-id-range"]);
        check(list(SEMAPHORE_2, &[9, 8, id]), &["semaphore-wait-id-range"]);
        check(list(MUTEX_1, &[10, id, 11]), &["mutex-wait-id-range"]);
        check(list(FLAGS_3, &[id, 12, 7, 13]), &["flags-wait-id-range"]);
        check(list(STOPPED, &[id]), &["stopped-id-range", "created-on-no-list"]);
    }
}

#[test]
fn a_created_thread_is_on_one_list_once() {
    check(list(STOPPED, &[]), &["created-on-no-list"]);
    check(byte(614 + 17 * STOPPED, 0), &["stopped-past-end", "created-on-no-list"]);
    check(ready(4, &[1, 0]), &[]);
    check([ready(4, &[1, 0]), byte(478 + 4, 1)].concat(), &["created-on-no-list"]);
    check(byte(614 + 17 * STOPPED, 2), &["created-on-two-lists"]);
    check(list(STOPPED, &[6, 8]), &["created-on-two-lists"]);
    check(list(STOPPED, &[6, 6]), &["created-twice-on-one-list"]);
    check(list(SLEEP, &[5, 4, 5]), &["created-twice-on-one-list"]);
    check(list(SEMAPHORE_2, &[9, 8, 9]), &["created-twice-on-one-list"]);
    check(list(SLEEP, &[4, 5]), &[]);
    check(list(SEMAPHORE_2, &[8, 9]), &[]);
    check(byte(thread(6, 0), 2), &["thread-created-range"]);
    check(byte(thread(6, 0), 255), &["thread-created-range"]);
}

#[test]
fn an_absent_thread_is_on_no_list_and_all_zero() {
    check(list(STOPPED, &[6, 15]), &["absent-on-list"]);
    check(list(SEMAPHORE_2, &[9, 8, 15]), &["absent-on-list"]);
    check(ready(0, &[2, 15]), &["absent-on-list"]);
    check(byte(thread(15, 0), 1), &["created-on-no-list"]);
    check([byte(thread(15, 0), 1), list(STOPPED, &[6, 15])].concat(), &[]);
    for field in 1..17 {
        check(byte(thread(15, field), 1), &["absent-not-zero"]);
    }
    check(byte(thread(15, 1), 8), &["base-range", "absent-not-zero"]);
    check(byte(thread(6, 0), 0), &["absent-on-list", "absent-not-zero"]);
}

#[test]
fn priorities_keep_their_ranges_and_their_lists() {
    let both = |id, priority| vec![(thread(id, 1), vec![priority, priority])];
    check(both(6, 7), &[]);
    check(both(6, 8), &["base-range", "current-range"]);
    check(byte(thread(6, 1), 8), &["base-range", "current-below-base"]);
    check(byte(thread(6, 1), 2), &["current-below-base"]);
    check(byte(thread(6, 1), 0), &["current-above-base"]);
    // Thread 0 stands as the owner in the unowned mutexes, and owns none of them.
    check(byte(thread(0, 1), 3), &["current-above-base"]);
    for base in 0..=4 {
        check(byte(thread(1, 1), base), &[]);
    }
    check(byte(thread(1, 1), 5), &["current-below-base"]);
    check(both(0, 5), &["ready-priority"]);
    check([both(0, 5), ready(4, &[1]), ready(5, &[0])].concat(), &[]);
    check(ready(4, &[0, 1, 2]), &["created-on-two-lists", "ready-priority"]);
    check([ready(4, &[0, 1, 2]), ready(0, &[])].concat(), &["ready-priority"]);
}

#[test]
fn wait_lists_fall_or_stay_level() {
    let both = |id, priority| vec![(thread(id, 1), vec![priority, priority])];
    check(both(8, 6), &[]);
    check(both(8, 7), &["semaphore-wait-order"]);
    check(both(9, 5), &["semaphore-wait-order"]);
    check(both(9, 7), &[]);
    check(both(11, 5), &[]);
    check(both(11, 6), &["mutex-wait-order"]);
    check(list(MUTEX_1, &[11, 10]), &["mutex-wait-order"]);
    check(list(FLAGS_3, &[12, 13, 7]), &["flags-wait-order"]);
    check(list(FLAGS_3, &[7, 12, 13]), &["flags-wait-order"]);
    check(byte(thread(10, 2), 7), &[]);
    check(byte(thread(10, 2), 8), &["current-range"]);
    check(byte(thread(10, 2), 2), &[]);
    check(byte(thread(10, 2), 1), &["mutex-wait-order"]);
    check(list(SLEEP, &[4, 5]), &[]);
}

#[test]
fn a_semaphores_count_and_maximum() {
    check(vec![(semaphore(1, 1), half(5))], &[]);
    check(vec![(semaphore(1, 1), half(6))], &["count-above-maximum"]);
    check(vec![(semaphore(1, 3), half(3))], &[]);
    check(vec![(semaphore(1, 3), half(2))], &["count-above-maximum"]);
    check(
        vec![(semaphore(1, 3), half(0))],
        &["maximum-zero", "count-above-maximum"],
    );
    check(vec![(semaphore(4, 3), half(0))], &["maximum-zero"]);
    check(vec![(semaphore(4, 1), half(256))], &["count-above-maximum"]);
    check(vec![(semaphore(2, 1), half(1))], &["count-with-waiters"]);
    check(vec![(semaphore(2, 1), half(256))], &["count-with-waiters"]);
    check(byte(semaphore(1, 0), 2), &["semaphore-created-range"]);
    check(byte(semaphore(6, 0), 0), &["semaphore-absent-not-zero"]);
    check(vec![(semaphore(0, 3), half(1))], &["semaphore-absent-not-zero"]);
    check(
        vec![(semaphore(0, 1), half(1))],
        &["count-above-maximum", "semaphore-absent-not-zero"],
    );
    check(byte(semaphore(1, 0), 0), &["semaphore-absent-not-zero"]);
    check(vec![(semaphore(1, 0), vec![0; 5])], &[]);
    check(vec![(semaphore(7, 0), vec![0; 5])], &["post-object-absent"]);
    check(
        [list(SEMAPHORE_2, &[9]), list(2, &[8])].concat(),
        &["semaphore-absent-with-waiters"],
    );
}

#[test]
fn a_mutex_has_its_owner_depth_and_waiters() {
    check(byte(mutex(1, 2), 1), &[]);
    check(byte(mutex(3, 2), 255), &[]);
    check(byte(mutex(2, 1), 1), &["unowned-owner-not-zero"]);
    check(byte(mutex(2, 2), 1), &[]);
    check(byte(mutex(3, 1), 15), &["current-above-base", "owner-absent"]);
    check(vec![(mutex(2, 1), vec![15, 1])], &["owner-absent"]);
    check(vec![(mutex(2, 1), vec![16, 1])], &["owner-range"]);
    check(
        vec![(mutex(2, 1), vec![16, 0])],
        &["owner-range", "unowned-owner-not-zero"],
    );
    let level = |id, base| byte(thread(id, 1), base);
    check([level(1, 4), byte(mutex(1, 1), 10)].concat(), &["owner-among-waiters"]);
    check([level(1, 4), byte(mutex(1, 1), 11)].concat(), &["owner-among-waiters"]);
    check([level(1, 4), byte(mutex(1, 1), 12)].concat(), &[]);
    check(
        [level(1, 4), vec![(mutex(1, 1), vec![0, 0])]].concat(),
        &["unowned-with-waiters"],
    );
    check([level(10, 5), vec![(mutex(3, 1), vec![0, 0])]].concat(), &[]);
    check(vec![(mutex(3, 1), vec![0, 0])], &["current-above-base"]);
    check(
        [list(MUTEX_1, &[10]), list(12, &[11])].concat(),
        &["unowned-with-waiters"],
    );
    check([list(MUTEX_1, &[10]), list(13, &[11])].concat(), &[]);
    check(
        [list(MUTEX_1, &[11]), list(13, &[10])].concat(),
        &["owner-among-waiters"],
    );
}

#[test]
fn a_mutex_not_created_is_zero_without_waiters() {
    check(byte(mutex(1, 0), 2), &["mutex-created-range"]);
    check(byte(mutex(3, 0), 0), &["mutex-absent-not-zero"]);
    check(byte(mutex(2, 0), 0), &[]);
    check(
        byte(mutex(1, 0), 0),
        &["mutex-absent-not-zero", "mutex-absent-with-waiters"],
    );
    let to_absent = [list(MUTEX_1, &[10]), list(10, &[11])].concat();
    check(to_absent, &["unowned-with-waiters", "mutex-absent-with-waiters"]);
}

#[test]
fn no_flag_waiters_condition_holds() {
    let flag_word = |id, number| vec![(flags(id, 1), half(number))];
    check(flag_word(0, 1), &["any-set-holds"]);
    check(flag_word(0, 0x8000), &["any-set-holds"]);
    check(flag_word(2, 0xFFFF), &[]);
    check(flag_word(3, 0x12F4), &["all-set-holds"]);
    check(flag_word(3, 0x12E4), &["all-clear-holds"]);
    check(flag_word(3, 0x92E4), &[]);
    check(flag_word(3, 0x1230), &["any-clear-holds"]);
    check(flag_word(3, 0x0200), &["any-clear-holds", "all-clear-holds"]);
    let waiter = |id, mask, mode| vec![(thread(id, 12), [half(mask), vec![mode]].concat())];
    check(waiter(14, 1, 0), &[]);
    check(waiter(14, 1, 1), &[]);
    check(waiter(14, 1, 2), &["any-clear-holds"]);
    check(waiter(14, 1, 3), &["all-clear-holds"]);
    check(waiter(14, 0, 0), &["flag-waiter-mask-zero"]);
    check(waiter(14, 0, 1), &["all-set-holds", "flag-waiter-mask-zero"]);
    check(waiter(14, 0, 2), &["flag-waiter-mask-zero"]);
    check(waiter(14, 0, 3), &["all-clear-holds", "flag-waiter-mask-zero"]);
    check(waiter(14, 1, 4), &["flag-waiter-mode-range"]);
    check(waiter(14, 1, 255), &["flag-waiter-mode-range"]);
    check(waiter(13, 0x1205, 2), &["any-clear-holds"]);
    check(waiter(13, 0x1204, 1), &["all-set-holds"]);
    check(waiter(13, 0x0004, 0), &["any-set-holds"]);
    check(waiter(13, 0x0001, 0), &[]);
    check(waiter(13, 0x0001, 3), &["all-clear-holds"]);
    check([flag_word(3, 0x1235), waiter(13, 0x0001, 3)].concat(), &[]);
}

#[test]
fn a_flag_object_not_created_is_zero_without_waiters() {
    check(byte(flags(2, 0), 2), &["flags-created-range"]);
    check(byte(flags(2, 0), 0), &["flags-absent-not-zero"]);
    check(vec![(flags(2, 0), vec![0; 3])], &[]);
    check(byte(flags(1, 1), 1), &["flags-absent-not-zero"]);
    check(byte(flags(1, 2), 128), &["flags-absent-not-zero"]);
    check(
        [list(14, &[]), list(15, &[14])].concat(),
        &["flags-absent-with-waiters"],
    );
    check(
        byte(flags(0, 0), 0),
        &["set-object-absent", "flags-absent-with-waiters"],
    );
}

#[test]
fn a_timers_period_left_and_repeat() {
    check(vec![(timer(1, 4), word(0x1122_3344))], &[]);
    check(vec![(timer(1, 4), word(0x1122_3345))], &["left-above-period"]);
    check(vec![(timer(1, 4), word(0xFFFF_FFFF))], &["left-above-period"]);
    check(vec![(timer(1, 4), word(0))], &[]);
    check(vec![(timer(3, 4), word(2))], &["left-above-period"]);
    check(byte(timer(1, 8), 0), &[]);
    check(byte(timer(2, 8), 1), &[]);
    check(byte(timer(1, 8), 2), &["repeat-range"]);
    check(byte(timer(2, 8), 255), &["repeat-range"]);
    check(vec![(timer(3, 0), vec![0; 17])], &[]);
    check(
        vec![(timer(3, 0), word(0)), (timer(3, 4), word(0))],
        &["period-zero-not-zero"],
    );
    check(byte(timer(0, 4), 1), &["left-above-period", "period-zero-not-zero"]);
    check(byte(timer(0, 8), 1), &["period-zero-not-zero"]);
    check(byte(timer(0, 9), 2), &["period-zero-not-zero", "set-mask-zero"]);
    check(byte(timer(0, 10), 1), &["period-zero-not-zero", "nothing-with-object"]);
    check(byte(timer(0, 12), 1), &["period-zero-not-zero", "nothing-with-mask"]);
    check(byte(timer(0, 16), 255), &["period-zero-not-zero"]);
    check(byte(timer(0, 0), 1), &[]);
    check(byte(timer(0, 3), 255), &[]);
}

#[test]
fn a_timers_action_keeps_the_rules_of_its_start() {
    let action = |id, kind, object, mask| vec![(timer(id, 9), [vec![kind, object], half(mask)].concat())];
    for id in [1, 2, 3] {
        check(action(id, 0, 0, 0), &[]);
        check(action(id, 0, 1, 0), &["nothing-with-object"]);
        check(action(id, 0, 0, 1), &["nothing-with-mask"]);
        check(action(id, 0, 255, 256), &["nothing-with-object", "nothing-with-mask"]);
        check(action(id, 1, 7, 0), &[]);
        check(action(id, 1, 8, 0), &["post-object-range"]);
        check(action(id, 1, 255, 0), &["post-object-range"]);
        check(action(id, 1, 3, 0), &["post-object-absent"]);
        check(action(id, 1, 7, 1), &["post-with-mask"]);
        check(action(id, 1, 7, 0x8000), &["post-with-mask"]);
        check(action(id, 2, 3, 1), &[]);
        check(action(id, 2, 3, 0xFFFF), &[]);
        check(action(id, 2, 3, 0x0100), &[]);
        check(action(id, 2, 4, 1), &["set-object-range"]);
        check(action(id, 2, 7, 1), &["set-object-range"]);
        check(action(id, 2, 1, 1), &["set-object-absent"]);
        check(action(id, 2, 3, 0), &["set-mask-zero"]);
        check(action(id, 3, 0, 0), &["kind-range"]);
        check(action(id, 255, 9, 9), &["kind-range"]);
    }
}

#[test]
fn limits_belong_to_who_waits_or_sleeps() {
    let limit = |id, number| vec![(thread(id, 7), word(number))];
    for id in [4, 5] {
        check(limit(id, 0), &["sleeper-limit-zero"]);
        check(limit(id, 1), &[]);
        check(limit(id, 0xFFFF_FFFF), &[]);
    }
    for id in 7..=14 {
        check(limit(id, 0), &[]);
        check(limit(id, 0xFFFF_FFFF), &[]);
    }
    for number in [1, 256, 0x0100_0000] {
        for id in 0..=3 {
            check(limit(id, number), &["ready-limit"]);
        }
        check(limit(6, number), &["stopped-limit"]);
    }
}

#[test]
fn masks_and_modes_belong_to_flag_waiters() {
    for id in [0, 3, 4, 6, 8, 10] {
        check(vec![(thread(id, 12), half(1))], &["mask-without-flag-wait"]);
        check(vec![(thread(id, 12), half(0x8000))], &["mask-without-flag-wait"]);
        check(byte(thread(id, 14), 1), &["mode-without-flag-wait"]);
        check(byte(thread(id, 14), 255), &["mode-without-flag-wait"]);
    }
    for id in 0..=14 {
        check(vec![(thread(id, 15), half(0xFFFF))], &[]);
        check(vec![(thread(id, 15), half(0))], &[]);
    }
}

#[test]
fn who_waits_or_sleeps_has_no_result() {
    for result in 0..=2 {
        for id in [0, 1, 2, 3, 6] {
            check(byte(thread(id, 11), result), &[]);
        }
    }
    for result in 1..=2 {
        check(byte(thread(4, 11), result), &["sleeper-result"]);
        check(byte(thread(8, 11), result), &["semaphore-waiter-result"]);
        check(byte(thread(11, 11), result), &["mutex-waiter-result"]);
        check(byte(thread(14, 11), result), &["flag-waiter-result"]);
    }
    check(byte(thread(0, 11), 3), &["result-range"]);
    check(byte(thread(6, 11), 255), &["result-range"]);
    check(byte(thread(4, 11), 3), &["result-range", "sleeper-result"]);
}

#[test]
fn what_is_left_of_a_quantum() {
    let quantum = |quantum, left| vec![(thread(0, 3), [half(quantum), half(left)].concat())];
    check(quantum(0, 0), &[]);
    check(quantum(0, 1), &["quantum-zero-with-left"]);
    check(quantum(0, 256), &["quantum-zero-with-left"]);
    check(quantum(1, 0), &["quantum-left-zero"]);
    check(quantum(1, 1), &[]);
    check(quantum(1, 2), &["quantum-left-above-quantum"]);
    check(quantum(256, 0), &["quantum-left-zero"]);
    check(quantum(256, 256), &[]);
    check(quantum(256, 257), &["quantum-left-above-quantum"]);
    check(quantum(0xFFFF, 0xFFFF), &[]);
    check(quantum(0xFFFF, 1), &[]);
    check(quantum(0xFFFF, 0), &["quantum-left-zero"]);
    check(quantum(0xFFFE, 0xFFFF), &["quantum-left-above-quantum"]);
}

/// An image in which one list holds these threads, all created, of priority 0, and nothing else is there.
fn lone_list(list: Change, threads: &[u8], fields: &[(usize, u8)]) -> Vec<u8> {
    let mut image = changed(vec![0; LENGTH], &byte(5, 255));
    for id in threads {
        image[thread(usize::from(*id), 0)] = 1;
        for (field, number) in fields {
            image[thread(usize::from(*id), *field)] = *number;
        }
    }
    changed(image, &list)
}

fn check_full(image: Vec<u8>, length_at: usize, clause: &str) {
    assert_eq!(names(&image), [""; 0]);
    assert_eq!(image[length_at], 16);
    for length in [17, 18, 128, 255] {
        assert_eq!(names(&changed(image.clone(), &byte(length_at, length))), [clause]);
    }
}

#[test]
fn a_list_holds_sixteen_and_no_more() {
    let all: Vec<u8> = (0..16).collect();
    let ready_0 = changed(lone_list(ready(0, &all), &all, &[]), &byte(5, 0));
    check_full(ready_0, 478, "ready-length");
    check_full(lone_list(list(SLEEP, &all), &all, &[(7, 1)]), 614, "sleep-length");
    check_full(lone_list(list(STOPPED, &all), &all, &[]), 614 + 17, "stopped-length");
    let waiters = lone_list(list(SEMAPHORE_2, &all), &all, &[]);
    let semaphore_2 = changed(waiters, &vec![(semaphore(2, 0), vec![1, 0, 0, 1, 0])]);
    check_full(semaphore_2, 614 + 17 * SEMAPHORE_2, "semaphore-wait-length");
    let waiters = lone_list(list(FLAGS_3, &all), &all, &[(12, 1)]);
    check_full(
        changed(waiters, &byte(flags(3, 0), 1)),
        614 + 17 * FLAGS_3,
        "flags-wait-length",
    );
}

#[test]
fn a_mutex_has_fifteen_waiters_at_most() {
    let all: Vec<u8> = (0..16).collect();
    let lists = [
        list(MUTEX_1, &all[..15]),
        list(STOPPED, &[15]),
        vec![(mutex(1, 0), vec![1, 15, 1])],
    ]
    .concat();
    let image = lone_list(lists, &all, &[]);
    assert_eq!(names(&image), [""; 0]);
    let length_at = 614 + 17 * MUTEX_1;
    let sixteen = |last| {
        changed(
            image.clone(),
            &vec![(length_at, vec![16]), (length_at + 16, vec![last])],
        )
    };
    assert_eq!(names(&sixteen(0)), ["created-twice-on-one-list"]);
    assert_eq!(names(&sixteen(15)), ["created-on-two-lists", "owner-among-waiters"]);
    let seventeen = changed(image.clone(), &byte(length_at, 17));
    assert_eq!(names(&seventeen), ["mutex-wait-length", "created-twice-on-one-list"]);
}

#[test]
fn owners_are_sound_in_every_place_and_in_a_ring() {
    for owner in [0, 4, 6, 8, 11, 12] {
        check(vec![(mutex(2, 1), vec![owner, 1])], &[]);
    }
    let ring = [
        list(MUTEX_1, &[10]),
        list(13, &[11]),
        byte(mutex(1, 1), 11),
        byte(thread(1, 1), 4),
    ]
    .concat();
    check(ring, &[]);
    for current in 5..=7 {
        let raised = [byte(thread(5, 2), current), vec![(mutex(2, 1), vec![5, 1])]].concat();
        check(raised, &[]);
    }
}
