//! What is refused with answer 1 keeps every byte; any bytes of any length are judged; and the clauses on links say the
//! same as one sentence of IMAGE.md taken as a whole: the links are those of the lists that they lead through.

use crate::sample;
use second::calls::number::{ADVANCE, SCHEDULING};
use second::image::REFUSED;
use second::links::{self, sound, LENGTH};
use second::random::Random;
use second::table::Request;

const LINKS: usize = 478;

fn request(call: u32, a: u32) -> Request {
    Request {
        call,
        a,
        ..Request::default()
    }
}

fn assert_refused(bytes: &[u8], what: &str) {
    assert_eq!(links::read(bytes), None, "{}", what);
    for request in [request(ADVANCE, 5), request(SCHEDULING, 1), request(0, 0)] {
        let mut after = bytes.to_vec();
        assert_eq!(links::call(&mut after, &request), REFUSED, "{} {:?}", what, request);
        assert_eq!(after, bytes, "{} {:?}", what, request);
    }
}

fn sample() -> Vec<u8> {
    links::write(&sample::table()).to_vec()
}

#[test]
fn another_length_is_refused_and_kept() {
    for length in [0, 1, 5, 6, 477, 478, 494, 520, 561, 563, 920, 2 * LENGTH, 4_096] {
        let mut bytes = sample();
        bytes.resize(length, 0);
        assert_eq!(sound::broken(&bytes), [sound::Clause::ImageLength]);
        assert_refused(&bytes, &format!("length {}", length));
    }
    assert_refused(&sample::bytes(), "the same table with rows");
}

/// The links of two tables differ in both halves, so that no link can change alone.
#[test]
fn every_link_of_the_sample_with_every_other_value() {
    for at in LINKS..LENGTH {
        for value in 0..=255 {
            let mut bytes = sample();
            let right = bytes[at] == value;
            bytes[at] = value;
            assert_eq!(sound::is_sound(&bytes), right, "byte {} as {}", at, value);
        }
        let mut bytes = sample();
        bytes[at] ^= 1;
        assert_refused(&bytes, &format!("byte {}", at));
    }
}

#[test]
fn head_and_records_of_the_sample_with_every_value_are_judged_as_with_rows() {
    for at in 0..LINKS {
        for value in 0..=255 {
            let (mut bytes, mut rows) = (sample(), sample::bytes());
            bytes[at] = value;
            rows[at] = value;
            let same = second::sound::is_sound(&rows);
            assert_eq!(sound::is_sound(&bytes), same, "byte {} as {}", at, value);
        }
    }
}

/// The lists as read, by hand: each begins with its first and goes on with the next, to sixteen threads at most.
fn lists(image: &[u8]) -> Vec<Vec<u8>> {
    let list = |first: u8| {
        let mut links = Vec::new();
        let mut link = first;
        while link > 0 && link <= 16 && links.len() < 16 {
            links.push(link);
            link = image[LINKS + usize::from(link) - 1];
        }
        links
    };
    image[494..520].iter().map(|first| list(*first)).collect()
}

/// Whether nobody is read twice and the 84 bytes are those that these lists have.
fn are_those_of_the_lists(image: &[u8]) -> bool {
    let lists = lists(image);
    let mut read: Vec<u8> = lists.concat();
    read.sort_unstable();
    let once = read.windows(2).all(|pair| pair[0] < pair[1]);
    let mut links = vec![0; LENGTH];
    for (number, list) in lists.iter().enumerate() {
        links[494 + number] = list.first().copied().unwrap_or(0);
        links[536 + number] = list.last().copied().unwrap_or(0);
        for pair in list.windows(2) {
            links[478 + usize::from(pair[0]) - 1] = pair[1];
            links[520 + usize::from(pair[1]) - 1] = pair[0];
        }
    }
    once && links[LINKS..] == image[LINKS..]
}

/// A few links of a short chain, or many, so that right ones come up by chance as well.
fn random_links(random: &mut Random) -> Vec<u8> {
    let mut image = vec![0; LENGTH];
    let highest = random.of(&[2, 3, 16, 17]);
    for _ in 0..random.between(0, 8) {
        let at = random.between(LINKS as u32, LENGTH as u32 - 1) as usize;
        image[at] = random.between(0, highest) as u8;
    }
    for _ in 0..random.between(0, 3) {
        let (id, list) = (random.below(16) as usize, random.below(26) as usize);
        image[494 + list] = id as u8 + 1;
        image[536 + list] = id as u8 + 1;
    }
    image
}

#[test]
fn the_clauses_on_links_say_that_the_links_are_those_of_the_lists() {
    let mut random = Random::new(6);
    let mut right = 0;
    for _ in 0..200_000 {
        let image = random_links(&mut random);
        let expected = are_those_of_the_lists(&image);
        assert_eq!(sound::links_are_right(&image), expected, "{:?}", &image[LINKS..]);
        right += u32::from(expected);
    }
    assert!(right > 10_000 && right < 190_000, "{} are right", right);
}

#[test]
fn any_bytes_of_any_length_are_judged() {
    let mut random = Random::new(1);
    for _ in 0..20_000 {
        let length = if random.percent(90) {
            LENGTH
        } else {
            random.between(0, 2_000) as usize
        };
        let highest = random.of(&[1, 2, 15, 16, 17, 255]);
        let bytes: Vec<u8> = (0..length).map(|_| random.between(0, highest) as u8).collect();
        let mut after = bytes.clone();
        let report = links::call(&mut after, &request(ADVANCE, 1));
        if sound::is_sound(&bytes) {
            assert_eq!(report.answer, 0);
        } else {
            assert_eq!((report, after), (REFUSED, bytes));
        }
    }
}
