//! The bytes of an image with links against IMAGE.md, reading and writing against each other, and the same table in both
//! layouts.

use crate::sample;
use second::generate::{Generator, Profile};
use second::image;
use second::links::rows::{rows_of, with_links};
use second::links::{self, sound, LENGTH};
use second::table::Table;

#[test]
fn a_fresh_image_is_zero_but_for_the_chosen_thread() {
    let mut expected = [0; LENGTH];
    expected[5] = 255;
    assert_eq!(LENGTH, 562);
    assert_eq!(links::write(&Table::fresh()), expected);
    assert_eq!(links::read(&expected), Some(Table::fresh()));
}

/// The sample's lists: ready 0 has 2; ready 4 has 0, 1; ready 7 has 3; sleep has 5, 4; stopped has 6; semaphore 2 has
/// 9, 8; mutex 1 has 10, 11; flag object 0 has 14; flag object 3 has 12, 7, 13.
#[test]
fn the_samples_links_by_hand() {
    let next = [2, 0, 0, 0, 0, 5, 0, 14, 0, 9, 12, 0, 8, 0, 0, 0];
    let first_of_ready = [3, 0, 0, 0, 1, 0, 0, 4];
    let first_of_sleep_and_stopped = [6, 7];
    let first_of_semaphores = [0, 0, 10, 0, 0, 0, 0, 0];
    let first_of_mutexes = [0, 11, 0, 0];
    let first_of_flags = [15, 0, 0, 13];
    let previous = [0, 1, 0, 0, 6, 0, 0, 13, 10, 0, 0, 11, 0, 8, 0, 0];
    let last_of_ready = [3, 0, 0, 0, 2, 0, 0, 4];
    let last_of_sleep_and_stopped = [5, 7];
    let last_of_semaphores = [0, 0, 9, 0, 0, 0, 0, 0];
    let last_of_mutexes = [0, 12, 0, 0];
    let last_of_flags = [15, 0, 0, 14];
    let mut expected = sample::bytes()[..478].to_vec();
    expected.extend(next);
    expected.extend(first_of_ready);
    expected.extend(first_of_sleep_and_stopped);
    expected.extend(first_of_semaphores);
    expected.extend(first_of_mutexes);
    expected.extend(first_of_flags);
    expected.extend(previous);
    expected.extend(last_of_ready);
    expected.extend(last_of_sleep_and_stopped);
    expected.extend(last_of_semaphores);
    expected.extend(last_of_mutexes);
    expected.extend(last_of_flags);

    assert_eq!(expected.len(), LENGTH);
    assert_eq!(sound::broken(&expected), []);
    assert_eq!(links::write(&sample::table()).to_vec(), expected);
    assert_eq!(links::read(&expected), Some(sample::table()));
    assert_eq!(with_links(&sample::bytes()), Some(expected.clone()));
    assert_eq!(rows_of(&expected), sample::bytes());
}

/// The bytes in which the image of the changed fresh table differs from the fresh image.
fn written(change: impl Fn(&mut Table)) -> Vec<(usize, u8)> {
    let mut table = Table::fresh();
    let fresh = links::write(&table);
    change(&mut table);
    let changed = links::write(&table);
    (0..LENGTH)
        .filter(|at| fresh[*at] != changed[*at])
        .map(|at| (at, changed[at]))
        .collect()
}

#[test]
fn each_list_has_its_first_and_its_last() {
    let ids = vec![15, 1, 14];
    let list = |number: usize| {
        vec![
            (478 + 1, 15),
            (478 + 15, 2),
            (494 + number, 16),
            (520 + 1, 16),
            (520 + 14, 2),
            (536 + number, 15),
        ]
    };
    for priority in 0..8 {
        assert_eq!(written(|table| table.ready[priority] = ids.clone()), list(priority));
    }
    assert_eq!(written(|table| table.sleep = ids.clone()), list(8));
    assert_eq!(written(|table| table.stopped = ids.clone()), list(9));
    for id in 0..8 {
        assert_eq!(
            written(|table| table.semaphores[id].waiters = ids.clone()),
            list(10 + id)
        );
    }
    for id in 0..4 {
        assert_eq!(written(|table| table.mutexes[id].waiters = ids.clone()), list(18 + id));
        assert_eq!(written(|table| table.flags[id].waiters = ids.clone()), list(22 + id));
    }
}

#[test]
fn one_thread_is_first_and_last() {
    assert_eq!(written(|table| table.sleep = vec![0]), [(502, 1), (544, 1)]);
    assert_eq!(
        written(|table| table.flags[3].waiters = vec![15]),
        [(519, 16), (561, 16)]
    );
}

#[test]
fn a_list_of_all_threads_uses_every_link_but_two() {
    let bytes = written(|table| table.ready[7] = (0..16).collect());
    let mut expected: Vec<(usize, u8)> = (0..15).map(|id| (478 + id, id as u8 + 2)).collect();
    expected.push((494 + 7, 1));
    expected.extend((1..16).map(|id| (520 + id, id as u8)));
    expected.push((536 + 7, 16));
    assert_eq!(bytes, expected);
}

#[test]
fn every_table_of_a_run_goes_into_both_layouts_and_back() {
    for profile in &Profile::ALL {
        for seed in 0..4 {
            let mut run = Generator::new(*profile, seed);
            let mut bytes = links::write(run.table()).to_vec();
            for step in 0..1_000 {
                let (request, report) = run.step();
                let on_bytes = links::call(&mut bytes, &request);
                let place = format!("{} seed {} step {}: {:?}", profile.name(), seed, step, request);
                assert_eq!(on_bytes, report, "{}", place);
                assert_eq!(sound::broken(&bytes), [], "{}", place);
                assert_eq!(links::write(run.table()).to_vec(), bytes, "{}", place);
                assert_eq!(links::read(&bytes).as_ref(), Some(run.table()), "{}", place);
                let rows = image::write(run.table()).to_vec();
                assert_eq!(rows_of(&bytes), rows, "{}", place);
                assert_eq!(with_links(&rows).as_ref(), Some(&bytes), "{}", place);
            }
        }
    }
}

/// The sample with rows, changed: where the change can't be told by links there is no image with links.
fn carried(changes: &[(usize, u8)]) -> Option<Vec<u8>> {
    let mut rows = sample::bytes();
    for (at, byte) in changes {
        rows[*at] = *byte;
    }
    let carried = with_links(&rows);
    assert!(carried.iter().all(|image| rows_of(image) == rows));
    carried
}

#[test]
fn what_only_rows_can_say_is_not_carried_over() {
    let sleep = 614;
    let stopped = 614 + 17;
    assert!(carried(&[]).is_some());
    assert!(
        carried(&[(stopped, 2), (stopped + 2, 15)]).is_some(),
        "an absent thread"
    );
    assert!(
        carried(&[(stopped, 0), (stopped + 1, 0)]).is_some(),
        "somebody on no list"
    );
    assert_eq!(carried(&[(stopped, 2), (stopped + 2, 16)]), None, "no thread's id");
    assert_eq!(carried(&[(stopped, 2), (stopped + 2, 6)]), None, "twice on one list");
    assert_eq!(carried(&[(stopped, 2), (stopped + 2, 5)]), None, "on two lists");
    assert_eq!(
        carried(&[(614 + 17 * 2, 1), (614 + 17 * 2 + 1, 6)]),
        None,
        "alone on two lists"
    );
    assert_eq!(carried(&[(sleep + 16, 1)]), None, "past the end");
    assert_eq!(carried(&[(sleep, 17)]), None, "longer than sixteen");
    assert_eq!(with_links(&sample::bytes()[..919]), None, "another length");
}
