//! Images with links written by hand, byte by byte, on both sides of each boundary, each with exactly the clauses that it
//! breaks. The offsets are written anew from IMAGE.md.

use second::links::{self, sound, LENGTH};

const NEXT: usize = 478;
const FIRST: usize = 494;
const PREVIOUS: usize = 520;
const LAST: usize = 536;

/// List 3 is a ready list; these are others, all empty unless a test fills them.
const READY_0: usize = 0;
const SLEEP: usize = 8;
const STOPPED: usize = 9;
const FLAGS_3: usize = 25;

fn thread(id: usize) -> usize {
    6 + 17 * id
}

/// Threads 4 and 9 have priority 3 and stand in this order on ready list 3, thread 4 chosen. All others are absent.
fn two_ready() -> Vec<u8> {
    let mut image = vec![0; LENGTH];
    image[5] = 4;
    for id in [4, 9] {
        image[thread(id)] = 1;
        image[thread(id) + 1] = 3;
        image[thread(id) + 2] = 3;
    }
    image[NEXT + 4] = 10;
    image[FIRST + 3] = 5;
    image[PREVIOUS + 9] = 5;
    image[LAST + 3] = 10;
    image
}

/// Threads 0 to 15 have priority 7 and stand in this order on ready list 7, thread 0 chosen.
fn sixteen_ready() -> Vec<u8> {
    let mut image = vec![0; LENGTH];
    for id in 0..16 {
        image[thread(id)..thread(id) + 3].copy_from_slice(&[1, 7, 7]);
        image[NEXT + id] = if id < 15 { id as u8 + 2 } else { 0 };
        image[PREVIOUS + id] = id as u8;
    }
    image[FIRST + 7] = 1;
    image[LAST + 7] = 16;
    image
}

fn names(image: &[u8]) -> Vec<&'static str> {
    sound::broken(image).iter().map(|clause| clause.name()).collect()
}

/// The image with these bytes breaks exactly these clauses.
fn check(mut image: Vec<u8>, bytes: &[(usize, u8)], expected: &[&str]) {
    for (at, byte) in bytes {
        image[*at] = *byte;
    }
    assert_eq!(names(&image), expected, "{:?}", bytes);
}

fn check_two(bytes: &[(usize, u8)], expected: &[&str]) {
    check(two_ready(), bytes, expected);
}

#[test]
fn the_images_by_hand_are_sound() {
    check_two(&[], &[]);
    check(sixteen_ready(), &[], &[]);
    let table = links::read(&two_ready()).expect("a sound image");
    assert_eq!((table.ready[3].as_slice(), table.chosen), (&[4, 9][..], Some(4)));
    let table = links::read(&sixteen_ready()).expect("a sound image");
    assert_eq!(table.ready[7], (0..16).collect::<Vec<usize>>());
}

#[test]
fn the_other_order_is_another_image() {
    let other_order = [
        (5, 9),
        (NEXT + 4, 0),
        (NEXT + 9, 5),
        (FIRST + 3, 10),
        (PREVIOUS + 9, 0),
        (PREVIOUS + 4, 10),
        (LAST + 3, 5),
    ];
    check_two(&other_order, &[]);
    check_two(&other_order[1..], &["on-chosen-behind-head"]);
}

#[test]
fn no_link_is_above_sixteen() {
    for number in [17, 18, 32, 128, 255] {
        for at in [NEXT + 9, NEXT, NEXT + 15] {
            check_two(&[(at, number)], &["next-range"]);
        }
        for list in [READY_0, SLEEP, FLAGS_3] {
            check_two(&[(FIRST + list, number)], &["first-range"]);
            check_two(&[(LAST + list, number)], &["last-range"]);
        }
        for at in [PREVIOUS + 4, PREVIOUS, PREVIOUS + 15] {
            check_two(&[(at, number)], &["previous-range"]);
        }
        check_two(&[(PREVIOUS + 9, number)], &["previous-range", "previous-missing"]);
        check_two(&[(LAST + 3, number)], &["last-range", "last-missing"]);
    }
    check(sixteen_ready(), &[(NEXT + 15, 17)], &["next-range"]);
    check_two(
        &[(NEXT + 4, 10 + 16)],
        &["next-range", "last-wrong", "previous-off-lists", "created-on-no-list"],
    );
}

#[test]
fn each_thread_has_the_one_before_it_as_its_previous() {
    check_two(&[(PREVIOUS + 9, 0)], &["previous-missing"]);
    for link in (1..=16).filter(|link| *link != 5) {
        check_two(&[(PREVIOUS + 9, link)], &["previous-wrong"]);
    }
    for link in 1..=16 {
        check_two(&[(PREVIOUS + 4, link)], &["previous-of-first"]);
    }
}

#[test]
fn each_list_has_the_one_read_last_as_its_last() {
    check_two(&[(LAST + 3, 0)], &["last-missing"]);
    for link in (1..=16).filter(|link| *link != 10) {
        check_two(&[(LAST + 3, link)], &["last-wrong"]);
    }
    for link in 1..=16 {
        for list in [READY_0, SLEEP, STOPPED, FLAGS_3] {
            check_two(&[(LAST + list, link)], &["last-of-empty"]);
        }
    }
}

#[test]
fn who_stands_nowhere_has_no_links() {
    for link in 1..=16 {
        check_two(&[(NEXT, link)], &["next-off-lists"]);
        check_two(&[(NEXT + 15, link)], &["next-off-lists"]);
        check_two(&[(PREVIOUS, link)], &["previous-off-lists"]);
        check_two(&[(PREVIOUS + 15, link)], &["previous-off-lists"]);
    }
    let both = ["next-off-lists", "previous-off-lists"];
    check_two(&[(NEXT, 2), (PREVIOUS + 1, 1)], &both);
    check_two(&[(NEXT, 1), (PREVIOUS, 1)], &both);
    check_two(&[(NEXT, 2), (PREVIOUS + 1, 1), (NEXT + 1, 1), (PREVIOUS, 2)], &both);
}

#[test]
fn who_is_left_out_of_a_list_stands_nowhere() {
    check_two(
        &[(NEXT + 4, 0)],
        &["last-wrong", "previous-off-lists", "created-on-no-list"],
    );
    check_two(
        &[(FIRST + 3, 10)],
        &[
            "previous-of-first",
            "next-off-lists",
            "created-on-no-list",
            "on-chosen-not-ready",
        ],
    );
    check_two(
        &[(FIRST + 3, 0)],
        &[
            "last-of-empty",
            "next-off-lists",
            "previous-off-lists",
            "created-on-no-list",
            "on-chosen-though-none-ready",
        ],
    );
    check_two(
        &[(FIRST + 3, 0), (LAST + 3, 0), (5, 255)],
        &["next-off-lists", "previous-off-lists", "created-on-no-list"],
    );
    // Thread 9 is gone, and only thread 4's next or thread 9's previous still tells of it.
    let gone = [(thread(9), 0), (thread(9) + 1, 0), (thread(9) + 2, 0), (LAST + 3, 5)];
    check_two(&[&gone[..], &[(NEXT + 4, 0), (PREVIOUS + 9, 0)]].concat(), &[]);
    check_two(&[&gone[..], &[(NEXT + 4, 0)]].concat(), &["previous-off-lists"]);
    check_two(
        &[&gone[..], &[(PREVIOUS + 9, 0)]].concat(),
        &["previous-missing", "last-wrong", "absent-on-list", "ready-priority"],
    );
}

#[test]
fn nobody_is_read_twice_on_one_list() {
    check_two(
        &[(NEXT + 9, 10)],
        &["read-twice-on-one-list", "previous-wrong", "next-behind-last"],
    );
    check_two(
        &[(NEXT + 4, 5)],
        &[
            "read-twice-on-one-list",
            "previous-missing",
            "next-behind-last",
            "last-wrong",
            "previous-off-lists",
            "created-on-no-list",
        ],
    );
    check_two(
        &[(NEXT + 9, 5)],
        &["read-twice-on-one-list", "previous-missing", "next-behind-last"],
    );
    check_two(
        &[(NEXT + 9, 5), (PREVIOUS + 4, 10)],
        &["read-twice-on-one-list", "previous-of-first", "next-behind-last"],
    );
}

#[test]
fn nobody_is_read_on_two_lists() {
    check_two(&[(FIRST + STOPPED, 5), (LAST + STOPPED, 10)], &["read-on-two-lists"]);
    check_two(
        &[(FIRST + STOPPED, 10), (LAST + STOPPED, 10)],
        &["read-on-two-lists", "previous-of-first"],
    );
    check_two(
        &[(FIRST + STOPPED, 10), (LAST + STOPPED, 10), (PREVIOUS + 9, 0)],
        &["read-on-two-lists", "previous-missing"],
    );
    // Thread 6 is stopped, and its next is thread 9, who stands behind thread 4.
    let stopped = [(thread(6), 1), (FIRST + STOPPED, 7), (LAST + STOPPED, 7)];
    check_two(&stopped, &[]);
    check_two(
        &[&stopped[..], &[(NEXT + 6, 10), (LAST + STOPPED, 10)]].concat(),
        &["read-on-two-lists", "previous-wrong"],
    );
    check_two(
        &[&stopped[..], &[(NEXT + 6, 10)]].concat(),
        &["read-on-two-lists", "previous-wrong", "last-wrong"],
    );
}

#[test]
fn the_sixteenth_has_no_next() {
    for link in 1..=16 {
        check(sixteen_ready(), &[(NEXT + 15, link)], &["next-behind-last"]);
    }
    check(
        sixteen_ready(),
        &[(NEXT + 15, 1), (PREVIOUS, 16)],
        &["previous-of-first", "next-behind-last"],
    );
}

#[test]
fn a_list_that_moves_as_a_whole_is_judged_by_the_table() {
    let to = |list: usize| [(FIRST + 3, 0), (LAST + 3, 0), (FIRST + list, 5), (LAST + list, 10)];
    check_two(&[&to(STOPPED)[..], &[(5, 255)]].concat(), &[]);
    check_two(&to(STOPPED), &["on-chosen-though-none-ready"]);
    check_two(&to(READY_0), &["ready-priority"]);
    check_two(&[&to(SLEEP)[..], &[(5, 255)]].concat(), &["sleeper-limit-zero"]);
    check_two(
        &[&to(FLAGS_3)[..], &[(5, 255)]].concat(),
        &["flag-waiter-mask-zero", "flags-absent-with-waiters"],
    );
}

#[test]
fn head_and_records_are_judged_as_with_rows() {
    check_two(&[(4, 2)], &["scheduling-range"]);
    check_two(&[(5, 16)], &["chosen-range"]);
    check_two(&[(thread(9) + 2, 4)], &["ready-priority", "current-above-base"]);
    check_two(&[(thread(9), 0)], &["absent-on-list", "absent-not-zero"]);
    check_two(&[(thread(0), 1)], &["created-on-no-list"]);
}
