//! The bytes of an image against IMAGE.md, and reading and writing against each other.

use crate::sample;
use second::generate::{Generator, Profile};
use second::image::{self, LENGTH};
use second::sound;
use second::table::{Action, Table};

#[test]
fn a_fresh_image_is_zero_but_for_the_chosen_thread() {
    let mut expected = [0; LENGTH];
    expected[5] = 255;
    assert_eq!(LENGTH, 920);
    assert_eq!(image::write(&Table::fresh()), expected);
    assert_eq!(image::read(&expected), Some(Table::fresh()));
}

#[test]
fn the_sample_by_hand_is_written_and_read() {
    let bytes = sample::bytes();
    assert_eq!(bytes.len(), LENGTH);
    assert_eq!(sound::broken(&bytes), []);
    assert_eq!(image::write(&sample::table()).to_vec(), bytes);
    assert_eq!(image::read(&bytes), Some(sample::table()));
}

/// The bytes in which the image of the changed fresh table differs from the fresh image.
fn written(change: impl Fn(&mut Table)) -> Vec<(usize, u8)> {
    let mut table = Table::fresh();
    let fresh = image::write(&table);
    change(&mut table);
    let changed = image::write(&table);
    (0..LENGTH)
        .filter(|at| fresh[*at] != changed[*at])
        .map(|at| (at, changed[at]))
        .collect()
}

#[test]
fn the_whole_tables_fields_have_their_offsets() {
    assert_eq!(
        written(|table| table.clock = 0x0403_0201),
        [(0, 1), (1, 2), (2, 3), (3, 4)]
    );
    assert_eq!(written(|table| table.scheduling_on = false), [(4, 1)]);
    assert_eq!(written(|table| table.chosen = Some(15)), [(5, 15)]);
}

#[test]
fn each_threads_fields_have_their_offsets() {
    for id in 0..16 {
        let at = 6 + 17 * id;
        assert_eq!(written(|table| table.threads[id].created = true), [(at, 1)]);
        assert_eq!(written(|table| table.threads[id].base_priority = 2), [(at + 1, 2)]);
        assert_eq!(written(|table| table.threads[id].current_priority = 3), [(at + 2, 3)]);
        let quantum = places(at + 3, &[4, 5]);
        assert_eq!(written(|table| table.threads[id].quantum = 0x0504), quantum);
        let left = places(at + 5, &[6, 7]);
        assert_eq!(written(|table| table.threads[id].quantum_left = 0x0706), left);
        let limit = places(at + 7, &[8, 9, 10, 11]);
        assert_eq!(written(|table| table.threads[id].limit_left = 0x0B0A_0908), limit);
        assert_eq!(written(|table| table.threads[id].result = 2), [(at + 11, 2)]);
        let mask = places(at + 12, &[13, 14]);
        assert_eq!(written(|table| table.threads[id].wait_mask = 0x0E0D), mask);
        assert_eq!(written(|table| table.threads[id].wait_mode = 3), [(at + 14, 3)]);
        let delivered = places(at + 15, &[16, 17]);
        assert_eq!(written(|table| table.threads[id].delivered = 0x1110), delivered);
    }
}

fn places(at: usize, bytes: &[u8]) -> Vec<(usize, u8)> {
    bytes
        .iter()
        .enumerate()
        .map(|(index, byte)| (at + index, *byte))
        .collect()
}

#[test]
fn each_objects_fields_have_their_offsets() {
    for id in 0..8 {
        let at = 278 + 5 * id;
        assert_eq!(written(|table| table.semaphores[id].created = true), [(at, 1)]);
        assert_eq!(
            written(|table| table.semaphores[id].count = 0x0302),
            [(at + 1, 2), (at + 2, 3)]
        );
        assert_eq!(
            written(|table| table.semaphores[id].maximum = 0x0504),
            [(at + 3, 4), (at + 4, 5)]
        );
    }
    for id in 0..4 {
        let at = 318 + 3 * id;
        assert_eq!(written(|table| table.mutexes[id].created = true), [(at, 1)]);
        assert_eq!(written(|table| table.mutexes[id].owner = Some(9)), [(at + 1, 9)]);
        assert_eq!(written(|table| table.mutexes[id].depth = 255), [(at + 2, 255)]);
    }
    for id in 0..4 {
        let at = 330 + 3 * id;
        assert_eq!(written(|table| table.flags[id].created = true), [(at, 1)]);
        assert_eq!(
            written(|table| table.flags[id].word = 0x0302),
            [(at + 1, 2), (at + 2, 3)]
        );
    }
}

#[test]
fn each_timers_fields_have_their_offsets() {
    for id in 0..8 {
        let at = 342 + 17 * id;
        assert_eq!(
            written(|table| table.timers[id].period = 0x0403_0201),
            places(at, &[1, 2, 3, 4])
        );
        assert_eq!(
            written(|table| table.timers[id].left = 0x0807_0605),
            places(at + 4, &[5, 6, 7, 8])
        );
        assert_eq!(written(|table| table.timers[id].repeat = true), [(at + 8, 1)]);
        let post = Action::Post { semaphore: 7 };
        assert_eq!(written(|table| table.timers[id].action = post), places(at + 9, &[1, 7]));
        let set = Action::SetFlags { flags: 3, mask: 0x0504 };
        assert_eq!(
            written(|table| table.timers[id].action = set),
            places(at + 9, &[2, 3, 4, 5])
        );
        assert_eq!(
            written(|table| table.timers[id].expiry_count = 0x0403_0201),
            places(at + 13, &[1, 2, 3, 4])
        );
    }
}

#[test]
fn each_list_has_its_offset() {
    let ids = vec![15, 1, 14];
    for priority in 0..8 {
        let mut expected = vec![(478 + priority, 3)];
        expected.extend(places(486 + 16 * priority, &[15, 1, 14]));
        assert_eq!(written(|table| table.ready[priority] = ids.clone()), expected);
    }
    let list = |number: usize| places(614 + 17 * number, &[3, 15, 1, 14]);
    assert_eq!(written(|table| table.sleep = ids.clone()), list(0));
    assert_eq!(written(|table| table.stopped = ids.clone()), list(1));
    for id in 0..8 {
        assert_eq!(
            written(|table| table.semaphores[id].waiters = ids.clone()),
            list(2 + id)
        );
    }
    for id in 0..4 {
        assert_eq!(written(|table| table.mutexes[id].waiters = ids.clone()), list(10 + id));
        assert_eq!(written(|table| table.flags[id].waiters = ids.clone()), list(14 + id));
    }
}

#[test]
fn a_full_list_fills_its_places() {
    let table = |name: usize| {
        let mut table = Table::fresh();
        let full: Vec<usize> = (0..16).rev().collect();
        if name == 0 {
            table.ready[7] = full;
        } else {
            table.flags[3].waiters = full;
        }
        image::write(&table)
    };
    let full: Vec<u8> = (0..16).rev().collect();
    assert_eq!((table(0)[485], &table(0)[598..614]), (16, &full[..]));
    assert_eq!((table(1)[903], &table(1)[904..920]), (16, &full[..]));
}

#[test]
fn every_table_of_a_run_is_sound_and_goes_into_bytes_and_back() {
    for profile in &Profile::ALL {
        for seed in 0..4 {
            let mut run = Generator::new(*profile, seed);
            let mut bytes = image::write(run.table()).to_vec();
            for step in 0..1_500 {
                let (request, report) = run.step();
                let on_bytes = image::call(&mut bytes, &request);
                let place = format!("{} seed {} step {}: {:?}", profile.name(), seed, step, request);
                assert_eq!(on_bytes, report, "{}", place);
                assert_eq!(sound::broken(&bytes), [], "{}", place);
                assert_eq!(image::write(run.table()).to_vec(), bytes, "{}", place);
                assert_eq!(image::read(&bytes).as_ref(), Some(run.table()), "{}", place);
            }
        }
    }
}
