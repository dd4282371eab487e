//! Files of cases with links and their answers, by hand and generated, and what the maker says that it did.

use crate::file::{length, numbers, split, REFUSALS};
use second::calls::number::LAST;
use second::cases::{Summary, ANSWER_BYTES, NUMBER_BYTES};
use second::links::cases::{answers, cases, Made, Maker};
use second::links::sound::{self, Clause};
use second::links::{self, LENGTH};
use second::table::Table;
use std::collections::HashSet;

/// A file and its answers, each with its summary.
fn answered(file: &[u8]) -> (Vec<u8>, Summary) {
    let mut output = Vec::new();
    let summary = answers(&mut &file[..], &mut output).unwrap();
    (output, summary)
}

/// Fresh: thread 2 is created and goes to the stopped list, which is list 9; then an image that isn't sound, one of the
/// other layout's length, and an advance.
#[test]
fn the_answers_to_cases_by_hand() {
    let fresh = links::write(&Table::fresh()).to_vec();
    let create = numbers(&[1, 2, 5, 0, 0, 0]);
    let mut created = fresh.clone();
    created[6 + 17 * 2..6 + 17 * 2 + 3].copy_from_slice(&[1, 5, 5]);
    created[494 + 9] = 3;
    created[536 + 9] = 3;
    let mut file = [length(&fresh), fresh.clone(), create.clone()].concat();
    let mut expected = [numbers(&[0, 0, 255, 0, 0, 0]), created.clone()].concat();

    let mut stale = created;
    stale[520] = 3;
    file.extend([length(&stale), stale.clone(), create.clone()].concat());
    expected.extend([numbers(&[1, 1, 255, 0, 0, 0]), stale].concat());

    let mut long = fresh.clone();
    long.resize(920, 0);
    file.extend([length(&long), long.clone(), create].concat());
    expected.extend([numbers(&[1, 1, 255, 0, 0, 0]), long].concat());

    file.extend([length(&fresh), fresh.clone(), numbers(&[22, 0, 7, 0, 0, 0])].concat());
    let mut later = fresh;
    later[0] = 7;
    expected.extend([numbers(&[0, 0, 255, 7, 0, 0]), later].concat());

    let (output, summary) = answered(&file);
    assert_eq!(output, expected);
    assert_eq!(summary.to_string(), "4 cases: 2 sound, 2 unsound");
}

#[test]
fn two_thousand_cases_hold_all_that_the_maker_does() {
    let mut maker = Maker::new(1);
    let mut made = HashSet::new();
    for _ in 0..2_000 {
        let case = maker.case();
        let sound = sound::is_sound(&case.image);
        match case.made {
            Made::AsItIs => assert!(sound),
            Made::Links(damage) => assert!(!sound, "{:?}", damage),
            Made::Table(clause) => {
                let broken = sound::broken(&case.image);
                assert!(broken.contains(&Clause::Table(clause)), "{:?} in {:?}", clause, broken);
                assert!(sound::links_are_right(&case.image), "{:?}", clause);
            }
            Made::LinksBlindly(_) => assert_eq!(case.image.len(), LENGTH),
            Made::Blindly(_) => (),
        }
        made.insert(case.made);
    }
    for one in Made::all() {
        assert!(made.contains(&one), "{}", one.name());
    }
    assert_eq!(made.len(), Made::all().len());
}

/// Also alone, where that can be: a clause that is never the only one broken isn't tested by the file.
#[test]
fn generated_cases_hold_every_answer_and_every_clause() {
    let mut file = Vec::new();
    let summary = cases(5, 12_000, &mut file).unwrap();
    let (output, again) = answered(&file);
    assert_eq!(summary, again);
    assert_eq!(summary.cases, 12_000);
    assert!(summary.sound > 5_500 && summary.unsound > 4_500, "{}", summary);

    let mut rest = &output[..];
    let (mut answers, mut done) = (HashSet::new(), HashSet::new());
    let (mut clauses, mut alone) = (HashSet::new(), HashSet::new());
    for (image, request) in split(&file) {
        let answer = u32::from(rest[NUMBER_BYTES]);
        let after = &rest[ANSWER_BYTES..ANSWER_BYTES + image.len()];
        let broken = sound::broken(image);
        assert_eq!(sound::broken(after), broken, "{:?}", request);
        assert_eq!(
            (u32::from(rest[0]), answer == 1),
            (u32::from(answer == 1), !broken.is_empty())
        );
        assert!(!REFUSALS.contains(&answer) || after == image, "{:?}", request);
        answers.insert(answer);
        if !REFUSALS.contains(&answer) {
            done.insert(request[0]);
        }
        if broken.len() == 1 {
            alone.insert(broken[0]);
        }
        clauses.extend(broken);
        rest = &rest[ANSWER_BYTES + image.len()..];
    }
    assert!(rest.is_empty());
    assert_eq!(answers, (0..=10).collect());
    assert_eq!(done, (1..=LAST).collect());
    assert_eq!(clauses, Clause::all().into_iter().collect());
    let never_alone = |clause: &&Clause| !alone.contains(*clause);
    let missing: Vec<&str> = Clause::OF_LINKS
        .iter()
        .filter(never_alone)
        .map(|clause| clause.name())
        .collect();
    assert_eq!(missing, ["read-twice-on-one-list"]);
}

#[test]
fn lists_of_every_length_come_up() {
    let mut maker = Maker::new(3);
    let mut lengths = [0; 17];
    let (mut sound, mut several) = (0, 0);
    for _ in 0..4_000 {
        if let Some(table) = links::read(&maker.case().image) {
            let lists: Vec<usize> = second::table::ListName::all()
                .map(|name| table.list(name).len())
                .collect();
            sound += 1;
            several += u32::from(lists.iter().filter(|length| (2..=5).contains(*length)).count() >= 3);
            lists.iter().for_each(|length| lengths[*length] += 1);
        }
    }
    assert!(lengths.iter().all(|count| *count > 20), "{:?}", lengths);
    assert!(
        lengths[16] * 25 > sound,
        "{} of {} have a full list",
        lengths[16],
        sound
    );
    assert!(
        several * 5 > sound as u32,
        "{} of {} have several short lists",
        several,
        sound
    );
}

#[test]
fn the_same_seed_gives_the_same_cases() {
    let file = |seed| {
        let mut file = Vec::new();
        cases(seed, 300, &mut file).unwrap();
        file
    };
    assert_eq!(file(9), file(9));
    assert_ne!(file(9), file(10));
    assert_eq!(cases(9, 0, &mut Vec::new()).unwrap(), Summary::default());
}
