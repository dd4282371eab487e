//! The built program from outside: what it prints, where, and with which exit status.

use second::cases::{ANSWER_BYTES, NUMBER_BYTES, REQUEST_BYTES};
use second::image::LENGTH;
use second::links;
use std::fs;
use std::io::Write;
use std::path::{Path, PathBuf};
use std::process::{Command, Output, Stdio};

/// The three records of document 01's replay example.
fn example() -> Vec<u8> {
    let mut file = Vec::new();
    for start in [[0x01, 0x03, 0x04], [0x02, 0x03, 0x00], [0x16, 0x00, 0x05]] {
        file.extend_from_slice(&[0xAC, 0xDC]);
        file.extend_from_slice(&start);
        file.extend_from_slice(&[0; 15]);
    }
    file
}

/// The word for each layout of the image, and the length of its images.
const LAYOUTS: [(&str, usize); 2] = [("image", LENGTH), ("links", links::LENGTH)];

const EXAMPLE_LINES: &str = "0 255 0 0\n0 3 0 0\n0 3 5 0\n";

fn second(arguments: &[&str]) -> Output {
    second_with_input(arguments, &[])
}

fn second_with_input(arguments: &[&str], input: &[u8]) -> Output {
    let mut child = Command::new(env!("CARGO_BIN_EXE_second"))
        .args(arguments)
        .stdin(Stdio::piped())
        .stdout(Stdio::piped())
        .stderr(Stdio::piped())
        .spawn()
        .expect("the program runs");
    let mut standard_input = child.stdin.take().expect("a pipe was asked for");
    // A program that reads no input may have closed the pipe already.
    let _ = standard_input.write_all(input);
    drop(standard_input);
    child.wait_with_output().expect("the program ends")
}

/// A file in the tests' own directory, under a name that no other test uses.
fn written(name: &str, bytes: &[u8]) -> PathBuf {
    let path = Path::new(env!("CARGO_TARGET_TMPDIR")).join(name);
    fs::write(&path, bytes).expect("the tests' directory can be written");
    path
}

fn text(bytes: &[u8]) -> &str {
    std::str::from_utf8(bytes).expect("text")
}

fn assert_prints(output: &Output, expected: &str) {
    assert_eq!(text(&output.stdout), expected);
    assert_eq!((text(&output.stderr), output.status.code()), ("", Some(0)));
}

/// Nothing on standard output, a message that names what is wrong, and the status.
fn assert_fails(output: &Output, status: i32, named: &str) {
    assert_eq!(text(&output.stdout), "");
    assert!(
        text(&output.stderr).contains(named),
        "`{}` names not `{}`",
        text(&output.stderr),
        named
    );
    assert_eq!(output.status.code(), Some(status));
}

#[test]
fn replay_from_a_file() {
    let path = written("example.replay", &example());
    assert_prints(&second(&["replay", path.to_str().unwrap()]), EXAMPLE_LINES);
}

#[test]
fn replay_from_standard_input() {
    assert_prints(&second_with_input(&["replay"], &example()), EXAMPLE_LINES);
    assert_prints(&second_with_input(&["replay"], &[]), "");
}

#[test]
fn a_bad_record_is_no_failure_of_the_program() {
    let mut file = example();
    file.truncate(50);
    let path = written("short.replay", &file);
    let expected = "0 255 0 0\n0 3 0 0\nbad record at 40\n";
    assert_prints(&second(&["replay", path.to_str().unwrap()]), expected);
    file = example();
    file[20] = 0;
    assert_prints(&second_with_input(&["replay"], &file), "0 255 0 0\nbad record at 20\n");
}

#[test]
fn files_that_cannot_be_read_are_status_1() {
    let missing = Path::new(env!("CARGO_TARGET_TMPDIR")).join("no such file");
    let missing = missing.to_str().unwrap();
    let directory = env!("CARGO_TARGET_TMPDIR");
    for path in [missing, directory] {
        assert_fails(&second(&["replay", path]), 1, path);
        for layout in LAYOUTS {
            for command in ["check", "after", "answers"] {
                assert_fails(&second(&[layout.0, command, path]), 1, path);
            }
        }
    }
}

#[test]
fn command_lines_that_are_not_understood_are_status_2() {
    let cases: &[(&[&str], &str)] = &[
        (&["replays"], "replays"),
        (&["replay", "one", "two"], "two"),
        (&["replay", "--fast"], "--fast"),
        (&["profiles", "more"], "more"),
        (&["coverage", "more"], "more"),
        (&["image"], "fresh, check, after, cases, answers"),
        (&["links"], "`links` needs one of fresh, check, after, cases, answers"),
        (&["links", "stale"], "links stale"),
        (&["links", "fresh", "more"], "more"),
        (&["links", "check"], "`links check` needs a file"),
        (&["links", "cases", "--count", "1"], "--seed"),
        (&["image", "stale"], "stale"),
        (&["image", "fresh", "more"], "more"),
        (&["image", "check"], "file"),
        (&["image", "after"], "file"),
        (&["image", "answers"], "file"),
        (&["image", "cases", "--seed", "1"], "--count"),
        (&["image", "cases", "--seed", "1", "--count"], "--count"),
        (
            &["image", "cases", "--seed", "1", "--count", "4294967296"],
            "4294967296",
        ),
        (&["generate", "--seed", "1", "--records", "5"], "--profile"),
        (&["generate", "--seed", "x", "--records", "5", "--profile", "p"], "`x`"),
        (
            &["generate", "--seed", "1", "--records", "-5", "--profile", "p"],
            "`-5`",
        ),
        (
            &["generate", "--seed", "1", "--records", "5", "--profile", "no such one"],
            "no such one",
        ),
        (&["generate", "--seed", "1", "--seed", "2"], "--seed"),
        (&["generate", "--size", "1"], "--size"),
    ];
    for (arguments, named) in cases {
        assert_fails(&second(arguments), 2, named);
    }
}

#[test]
fn help_shows_every_command() {
    let help = second(&["--help"]);
    assert_eq!((help.status.code(), text(&help.stderr)), (Some(0), ""));
    for command in [
        "replay", "generate", "profiles", "coverage", "fresh", "check", "after", "cases", "answers", "links",
        "Examples",
    ] {
        assert!(
            text(&help.stdout).contains(command),
            "the help says nothing of {}",
            command
        );
    }
    assert_eq!(second(&[]).stdout, help.stdout);
    assert_eq!(second(&["image", "--help"]).stdout, help.stdout);
}

/// More lines than any pipe holds, into a pipe that nobody reads.
#[test]
fn a_closed_pipe_ends_the_program_quietly() {
    let path = written("long.replay", &example().repeat(20_000));
    let mut child = Command::new(env!("CARGO_BIN_EXE_second"))
        .args(["replay", path.to_str().unwrap()])
        .stdout(Stdio::piped())
        .stderr(Stdio::piped())
        .spawn()
        .expect("the program runs");
    drop(child.stdout.take());
    let output = child.wait_with_output().expect("the program ends");
    assert_eq!((text(&output.stderr), output.status.code()), ("", Some(0)));
}

#[test]
fn a_fresh_image_is_sound_and_so_is_the_one_after_a_replay() {
    for (word, length) in LAYOUTS {
        let fresh = second(&[word, "fresh"]);
        assert_eq!((fresh.stdout.len(), fresh.status.code()), (length, Some(0)));
        assert!(fresh
            .stdout
            .iter()
            .enumerate()
            .all(|(at, byte)| *byte == if at == 5 { 255 } else { 0 }));
        let path = written(&format!("fresh.{}", word), &fresh.stdout);
        assert_prints(&second(&[word, "check", path.to_str().unwrap()]), "sound\n");

        let replay = written(&format!("after {}.replay", word), &example());
        let after = second(&[word, "after", replay.to_str().unwrap()]);
        assert_eq!((after.stdout.len(), after.stdout[0], after.stdout[5]), (length, 5, 3));
        let path = written(&format!("after.{}", word), &after.stdout);
        assert_prints(&second(&[word, "check", path.to_str().unwrap()]), "sound\n");
    }
}

#[test]
fn an_image_that_is_not_sound_is_no_failure_of_the_program() {
    for (word, length) in LAYOUTS {
        let path = written(&format!("short.{}", word), &vec![0; length - 1]);
        assert_prints(&second(&[word, "check", path.to_str().unwrap()]), "image-length\n");
    }
    let mut image = vec![0; links::LENGTH];
    image[478] = 255;
    image[536] = 1;
    let path = written("wrong.links", &image);
    let expected = "next-range\nlast-of-empty\non-chosen-though-none-ready\n";
    assert_prints(&second(&["links", "check", path.to_str().unwrap()]), expected);
}

#[test]
fn generated_files_replay_alike_each_time() {
    let arguments = ["generate", "--records", "50", "--profile", "mixed", "--seed"];
    let file = |seed| second(&[&arguments[..], &[seed]].concat()).stdout;
    assert_eq!(file("3").len(), 50 * 20);
    assert_eq!(file("3"), file("3"));
    assert_ne!(file("3"), file("4"));
    let lines = second_with_input(&["replay"], &file("3")).stdout;
    assert_eq!(text(&lines).lines().count(), 50);
}

#[test]
fn every_profile_named_generates_a_file_of_its_own() {
    let names = second(&["profiles"]).stdout;
    let files: Vec<Vec<u8>> = text(&names)
        .lines()
        .map(|name| second(&["generate", "--seed", "2", "--records", "9", "--profile", name]))
        .map(|made| {
            assert_eq!((text(&made.stderr), made.status.code()), ("", Some(0)));
            made.stdout
        })
        .collect();
    assert_eq!(files.len(), 12);
    assert!((1..files.len()).all(|later| !files[..later].contains(&files[later])));
}

/// Beside its image a case has a length and a request, an answer soundness and report. A file cut short is named with
/// status 1.
#[test]
fn cases_and_their_answers() {
    for (word, _) in LAYOUTS {
        let cases = second(&[word, "cases", "--seed", "7", "--count", "20"]);
        assert!(cases.status.success() && text(&cases.stderr).contains("20 cases"));
        let path = written(&format!("cases.{}", word), &cases.stdout);
        let answers = second(&[word, "answers", path.to_str().unwrap()]);
        assert!(answers.status.success() && text(&answers.stderr).contains("20 cases"));
        let images = cases.stdout.len() - 20 * (NUMBER_BYTES + REQUEST_BYTES);
        assert_eq!(answers.stdout.len(), images + 20 * ANSWER_BYTES);

        let name = format!("short cases.{}", word);
        let path = written(&name, &cases.stdout[..cases.stdout.len() - 1]);
        let answers = second(&[word, "answers", path.to_str().unwrap()]);
        assert_eq!(answers.status.code(), Some(1));
        assert!(text(&answers.stderr).contains(&name));
    }
}
