//! What is refused with answer 1: it keeps every byte, whatever the request, and reports 255, 0, 0, 0.

use crate::sample;
use second::calls::number::{ADVANCE, CREATE_THREAD, LAST, SCHEDULING, START};
use second::image::{self, LENGTH};
use second::random::Random;
use second::sound::{self, Clause};
use second::table::{Report, Request, Table};

const REFUSED: Report = Report {
    answer: 1,
    chosen: 255,
    clock: 0,
    wake_ups: 0,
    next_wake_up: 0,
};

/// Requests that would be done, refused otherwise, or are no calls at all.
fn requests() -> Vec<Request> {
    let plain = |call, a| Request {
        call,
        id: 0,
        a,
        b: 0,
        c: 0,
        d: 0,
    };
    let mut requests = vec![
        plain(ADVANCE, 5),
        plain(SCHEDULING, 1),
        plain(SCHEDULING, 9),
        plain(0, 0),
        plain(LAST + 1, 0),
        plain(u32::MAX, 0),
    ];
    requests.push(Request {
        call: CREATE_THREAD,
        id: 15,
        a: 3,
        b: 4,
        c: 0,
        d: 0,
    });
    requests.push(Request {
        call: CREATE_THREAD,
        id: 16,
        a: 3,
        b: 4,
        c: 0,
        d: 0,
    });
    requests
}

fn assert_refused(bytes: &[u8], what: &str) {
    assert_eq!(image::read(bytes), None, "{}", what);
    for request in requests() {
        let mut after = bytes.to_vec();
        assert_eq!(image::call(&mut after, &request), REFUSED, "{} {:?}", what, request);
        assert_eq!(after, bytes, "{} {:?}", what, request);
    }
}

#[test]
fn another_length_is_refused_and_kept() {
    let sample = sample::bytes();
    let near = [LENGTH - 2, LENGTH - 1, LENGTH + 1, LENGTH + 2, 2 * LENGTH];
    for length in [0, 1, 4, 5, 6, 477, 614, 4_096, 5_000].into_iter().chain(near) {
        let mut bytes = sample.clone();
        bytes.resize(length, 0);
        assert_eq!(sound::broken(&bytes), [Clause::ImageLength]);
        assert_refused(&bytes, &format!("length {}", length));
    }
    let two_images = [sample.clone(), sample].concat();
    assert_refused(&two_images, "two images");
}

#[test]
fn an_unsound_image_is_refused_and_kept() {
    for (at, byte) in [
        (4, 2),
        (5, 16),
        (6, 2),
        (6 + 17 * 15 + 16, 1),
        (318, 7),
        (LENGTH - 1, 1),
    ] {
        let mut bytes = sample::bytes();
        bytes[at] = byte;
        assert_refused(&bytes, &format!("byte {} as {}", at, byte));
    }
    assert_refused(&[0; LENGTH], "all zero: somebody chosen and nobody ready");
    assert_refused(&[255; LENGTH], "all 255");
}

#[test]
fn a_sound_image_is_called_like_its_table() {
    for request in requests() {
        let mut bytes = sample::bytes();
        let mut table = sample::table();
        let report = second::calls::call(&mut table, &request);
        assert_eq!(image::call(&mut bytes, &request), report, "{:?}", request);
        assert_ne!(report.answer, 1, "{:?}", request);
        assert_eq!(image::read(&bytes), Some(table), "{:?}", request);
    }
}

/// The example under "Replay file", on the bytes.
#[test]
fn a_fresh_image_takes_the_documents_whole_example() {
    let mut bytes = image::write(&Table::fresh());
    for (call, id, a, expected) in [
        (CREATE_THREAD, 3, 4, (0, 255, 0, 0)),
        (START, 3, 0, (0, 3, 0, 0)),
        (ADVANCE, 0, 5, (0, 3, 5, 0)),
    ] {
        let request = Request {
            call,
            id,
            a,
            ..Request::default()
        };
        let report = image::call(&mut bytes, &request);
        assert_eq!((report.answer, report.chosen, report.clock, report.wake_ups), expected);
        assert_eq!(report.next_wake_up, 0);
    }
    let mut expected = [0; LENGTH];
    expected[0] = 5;
    expected[5] = 3;
    expected[6 + 17 * 3..6 + 17 * 3 + 3].copy_from_slice(&[1, 4, 4]);
    expected[478 + 4] = 1;
    expected[486 + 16 * 4] = 3;
    assert_eq!(bytes, expected);
}

/// Each byte of the sample with each value it can have: what is sound stays sound through a call, the rest is kept.
#[test]
fn every_byte_of_the_sample_with_every_value() {
    let sample = sample::bytes();
    let tick = Request {
        call: ADVANCE,
        a: 1,
        ..Request::default()
    };
    let on = Request {
        call: SCHEDULING,
        a: 1,
        ..Request::default()
    };
    let mut sound = 0;
    for at in 0..LENGTH {
        for value in 0..=255 {
            let mut bytes = sample.clone();
            bytes[at] = value;
            let before = bytes.clone();
            let is_sound = sound::is_sound(&bytes);
            sound += usize::from(is_sound);
            for request in [tick, on] {
                assert_eq!(
                    image::call(&mut bytes, &request).answer,
                    u32::from(!is_sound),
                    "byte {} as {}",
                    at,
                    value
                );
                assert_eq!(sound::is_sound(&bytes), is_sound, "byte {} as {}", at, value);
            }
            assert!(is_sound || bytes == before, "byte {} as {}", at, value);
        }
    }
    assert!(sound > LENGTH && sound < 60_000, "{} are sound", sound);
}

#[test]
fn any_bytes_of_any_length_are_judged() {
    let mut random = Random::new(1);
    for _ in 0..10_000 {
        let length = if random.percent(90) {
            LENGTH
        } else {
            random.between(0, 2_000) as usize
        };
        let highest = random.of(&[1, 2, 15, 17, 255]);
        let bytes: Vec<u8> = (0..length).map(|_| random.between(0, highest) as u8).collect();
        let mut after = bytes.clone();
        let report = image::call(
            &mut after,
            &Request {
                call: ADVANCE,
                id: 0,
                a: 1,
                b: 0,
                c: 0,
                d: 0,
            },
        );
        if sound::broken(&bytes).is_empty() {
            assert_eq!(report.answer, 0);
        } else {
            assert_eq!(report, REFUSED);
            assert_eq!(after, bytes);
        }
    }
}
