//! Files of cases and their answers, by hand and generated.

use crate::file::{length, numbers, split, REFUSALS};
use crate::sample;
use second::calls::number::LAST;
use second::cases::{answers, cases, Summary, ANSWER_BYTES, NUMBER_BYTES, REQUEST_BYTES};
use second::image::{self, LENGTH};
use second::sound::{self, Clause};
use second::table::Table;
use std::collections::HashSet;
use std::io;

fn answered(file: &[u8]) -> io::Result<(Vec<u8>, Summary)> {
    let mut output = Vec::new();
    let summary = answers(&mut &file[..], &mut output)?;
    Ok((output, summary))
}

/// The one place where the form of a case and of its answer stand in plain numbers.
#[test]
fn the_answers_to_cases_by_hand() {
    let fresh = image::write(&Table::fresh());
    let mut unsound = sample::bytes();
    unsound[4] = 2;
    let mut file = Vec::new();
    let mut expected = Vec::new();

    file.extend([length(&fresh), fresh.to_vec(), numbers(&[22, 0, 0x0102_0304, 0, 0, 0])].concat());
    let mut after = fresh.to_vec();
    after[..4].copy_from_slice(&[4, 3, 2, 1]);
    expected.extend([numbers(&[0, 0, 255, 0x0102_0304, 0, 0]), after].concat());

    file.extend([length(&fresh), fresh.to_vec(), numbers(&[258, 256, 0, 0, 0, 0])].concat());
    expected.extend([numbers(&[0, 2, 255, 0, 0, 0]), fresh.to_vec()].concat());

    file.extend([length(&unsound), unsound.clone(), numbers(&[22, 0, 1, 0, 0, 0])].concat());
    expected.extend([numbers(&[1, 1, 255, 0, 0, 0]), unsound].concat());

    file.extend([numbers(&[0]), numbers(&[22, 0, 1, 0, 0, 0])].concat());
    expected.extend(numbers(&[1, 1, 255, 0, 0, 0]));

    let long: Vec<u8> = (0..10_000).map(|index| (index % 251) as u8).collect();
    file.extend([numbers(&[10_000]), long.clone(), numbers(&[0, 0, 0, 0, 0, 0])].concat());
    expected.extend([numbers(&[1, 1, 255, 0, 0, 0]), long].concat());

    let (output, summary) = answered(&file).unwrap();
    assert_eq!(output, expected);
    assert_eq!(
        summary,
        Summary {
            cases: 5,
            sound: 2,
            unsound: 3
        }
    );
    assert_eq!(summary.to_string(), "5 cases: 2 sound, 3 unsound");
    assert_eq!(answered(&[]).unwrap(), (Vec::new(), Summary::default()));
}

#[test]
fn a_file_that_is_cut_off_is_an_error_that_says_where() {
    let fresh = image::write(&Table::fresh());
    let case = [length(&fresh), fresh.to_vec(), vec![0; REQUEST_BYTES]].concat();
    let file = [case.clone(), case].concat();
    let (whole_file, image_end, case_end) = (file.len(), NUMBER_BYTES + LENGTH, file.len() / 2);
    for (end, part, number) in [
        (1, "length", 1),
        (NUMBER_BYTES - 1, "length", 1),
        (NUMBER_BYTES, "image", 1),
        (image_end - 1, "image", 1),
        (image_end, "request", 1),
        (case_end - 1, "request", 1),
        (case_end + 2, "length", 2),
        (whole_file - 1, "request", 2),
    ] {
        let error = answered(&file[..end]).unwrap_err();
        assert_eq!(error.kind(), io::ErrorKind::InvalidData);
        let expected = format!("ends at byte {} within the {} of case {}", end, part, number);
        assert!(error.to_string().contains(&expected), "{}", error);
    }
    let huge = [numbers(&[u32::MAX]), vec![0; 5_000]].concat();
    let expected = "ends at byte 5004 within the image of case 1";
    assert!(answered(&huge).unwrap_err().to_string().contains(expected));
}

#[test]
fn generated_cases_hold_every_answer_and_every_clause() {
    let mut file = Vec::new();
    let summary = cases(5, 12_000, &mut file).unwrap();
    let (output, again) = answered(&file).unwrap();
    assert_eq!(summary, again);
    assert_eq!(summary.cases, 12_000);
    assert!(summary.sound > 5_500 && summary.unsound > 4_500, "{}", summary);

    let mut rest = &output[..];
    let mut answers = HashSet::new();
    let mut done = HashSet::new();
    let mut clauses = HashSet::new();
    let mut wide = 0;
    for (image, request) in split(&file) {
        let answer = u32::from(rest[NUMBER_BYTES]);
        let after = &rest[ANSWER_BYTES..ANSWER_BYTES + image.len()];
        let broken = sound::broken(image);
        assert_eq!(sound::broken(after), broken, "{:?}", request);
        assert_eq!(
            (u32::from(rest[0]), answer == 1),
            (u32::from(answer == 1), !broken.is_empty())
        );
        assert!(!REFUSALS.contains(&answer) || after == image, "{:?}", request);
        answers.insert(answer);
        if !REFUSALS.contains(&answer) {
            done.insert(request[0]);
        }
        wide += u32::from(request[0] > 255 || request[1] > 255);
        clauses.extend(broken);
        rest = &rest[ANSWER_BYTES + image.len()..];
    }
    assert!(rest.is_empty());
    assert_eq!(answers, (0..=10).collect());
    assert_eq!(done, (1..=LAST).collect());
    assert_eq!(clauses, Clause::ALL.into_iter().collect());
    assert!(wide > 20, "{} calls or ids beyond a byte", wide);
}

#[test]
fn the_same_seed_gives_the_same_cases() {
    let file = |seed| {
        let mut file = Vec::new();
        cases(seed, 300, &mut file).unwrap();
        file
    };
    assert_eq!(file(9), file(9));
    assert_ne!(file(9), file(10));
    assert_eq!(cases(9, 0, &mut Vec::new()).unwrap(), Summary::default());
}
