//! What must hold over any run, whatever is called: the paragraphs of 01 on soundness, refusals, ticks and wake-ups,
//! tried on random runs of every profile with fixed seeds, and what the generator and the coverage promise.

use second::calls::answer::is_refusal;
use second::calls::number::ADVANCE;
use second::generate::{file, Generator, Profile};
use second::random::Random;
use second::replay::{encode, replay, MARK, RECORD};
use second::table::{ListName, Report, Request, Table, NONE_CHOSEN, THREADS};
use second::{coverage, image, jump, sound, tick};

/// Runs every profile over some seeds; the test sees the table before each step, the step, and the table after.
fn over_all_runs(seeds: u64, steps: u32, test: impl Fn(Profile, &Table, &Request, &Report, &Table)) {
    for profile in &Profile::ALL {
        for seed in 0..seeds {
            let mut generator = Generator::new(*profile, 1_000 + seed);
            for _ in 0..steps {
                let before = generator.table().clone();
                let (request, report) = generator.step();
                test(*profile, &before, &request, &report, generator.table());
            }
        }
    }
}

/// Tables from the midst of runs of every profile, each with numbers to draw from.
fn over_tables(seeds: u64, steps: u32, test: impl Fn(&Table, &mut Random)) {
    let mut random = Random::new(7);
    for profile in &Profile::ALL {
        for seed in 0..seeds {
            let mut generator = Generator::new(*profile, 2_000 + seed);
            for step in 0..steps {
                generator.step();
                if step % 5 == 0 {
                    test(generator.table(), &mut random);
                }
            }
        }
    }
}

#[test]
fn sound_stays_sound_and_images_keep_the_table() {
    over_all_runs(4, 500, |profile, _, request, _, after| {
        let bytes = image::write(after);
        let broken: Vec<&str> = sound::broken(&bytes).iter().map(|clause| clause.name()).collect();
        assert!(
            broken.is_empty(),
            "{} after {:?} in {}",
            broken.join(", "),
            request,
            profile.name()
        );
        assert_eq!(image::read(&bytes).as_ref(), Some(after));
    });
}

#[test]
fn refusals_change_no_byte_and_report_no_wake_ups() {
    over_all_runs(4, 600, |_, before, request, report, after| {
        if is_refusal(report.answer) {
            assert_eq!(image::write(before)[..], image::write(after)[..], "{:?}", request);
        }
        if is_refusal(report.answer) || request.call != ADVANCE {
            assert_eq!(report.wake_ups, 0, "{:?}", request);
        }
    });
}

#[test]
fn reports_are_those_of_the_table_handed_back() {
    over_all_runs(4, 600, |_, before, request, report, after| {
        assert_eq!(report.chosen, after.chosen.map_or(NONE_CHOSEN, |id| id as u32));
        assert_eq!(report.clock, after.clock);
        assert_eq!(report.next_wake_up, tick::next_wake_up(after));
        let passed = if request.call == ADVANCE && report.answer == 0 {
            request.a
        } else {
            0
        };
        assert_eq!(after.clock, before.clock.wrapping_add(passed));
        assert!(report.wake_ups <= passed);
    });
}

#[test]
fn the_chosen_thread_heads_the_highest_list() {
    over_all_runs(4, 600, |_, before, _, _, after| {
        if after.scheduling_on {
            let highest = after.ready.iter().rev().find(|list| !list.is_empty());
            assert_eq!(after.chosen, highest.map(|list| list[0]));
        } else {
            assert!(after.chosen.map_or(true, |id| after.is_ready(id)));
            assert!(before.scheduling_on || after.chosen == before.chosen);
        }
    });
}

#[test]
fn every_created_thread_stands_on_exactly_one_list() {
    over_all_runs(4, 600, |_, _, request, _, after| {
        for id in 0..THREADS {
            let places = ListName::all()
                .flat_map(|name| after.list(name))
                .filter(|place| **place == id)
                .count();
            assert_eq!(
                places,
                usize::from(after.threads[id].created),
                "thread {} after {:?}",
                id,
                request
            );
        }
    });
}

/// Two advances after each other, and both in one.
fn check_split(table: &Table, first: u32, second: u32, advance: fn(&mut Table, u32) -> u32) -> (Table, u32) {
    let mut in_two = table.clone();
    let wake_ups_in_two = advance(&mut in_two, first) + advance(&mut in_two, second);
    let mut in_one = table.clone();
    let wake_ups_in_one = advance(&mut in_one, first + second);
    assert_eq!(
        wake_ups_in_two, wake_ups_in_one,
        "{} then {} from {:?}",
        first, second, table
    );
    assert_eq!(in_two, in_one, "{} then {} from {:?}", first, second, table);
    (in_one, wake_ups_in_one)
}

#[test]
fn an_advance_can_be_split_and_both_advances_agree() {
    over_tables(3, 400, |table, random| {
        let next = tick::next_wake_up(table).min(3_000);
        let longest = random.of(&[3, 30, 300, 2_000]);
        let first = random.of(&[
            0,
            1,
            next,
            next.saturating_sub(1),
            next + 1,
            random.clone().between(0, longest),
        ]);
        let second = random.between(0, longest);
        let plain = check_split(table, first, second, tick::advance);
        let jumped = check_split(table, first, second, jump::advance);
        assert_eq!(plain, jumped);
    });
}

#[test]
fn a_long_advance_can_be_split() {
    let mut random = Random::new(3);
    let mut long_ones = 0;
    for seed in 0..20 {
        let mut generator = Generator::new(Profile::Long, seed);
        for _ in 0..400 {
            let before = generator.table().clone();
            let (request, report) = generator.step();
            if request.call == ADVANCE && report.answer == 0 && request.a > 100_000 {
                let first = random.between(0, request.a);
                let whole = check_split(&before, first, request.a - first, jump::advance);
                assert_eq!(whole, (generator.table().clone(), report.wake_ups));
                long_ones += 1;
            }
        }
    }
    assert!(long_ones > 100, "only {} long advances", long_ones);
}

/// Whether the coming tick is a wake-up, by the records alone: a quantum, a timer or a limit reaches 0 in it.
fn is_due(table: &Table) -> bool {
    let rotates = |id: usize| {
        let thread = &table.threads[id];
        let sharers = table.ready.iter().find(|list| list.contains(&id)).map_or(0, Vec::len);
        table.scheduling_on && thread.quantum > 0 && sharers >= 2 && thread.quantum_left == 1
    };
    table.chosen.map_or(false, rotates)
        || table.timers.iter().any(|timer| timer.left == 1)
        || table.threads.iter().any(|thread| thread.limit_left == 1)
}

#[test]
fn a_tick_is_a_wake_up_exactly_if_something_is_due() {
    over_tables(2, 300, |table, _| {
        let mut table = table.clone();
        for _ in 0..60 {
            let due = is_due(&table);
            assert_eq!(tick::tick(&mut table), due);
        }
    });
}

#[test]
fn the_next_wake_up_is_the_first_that_comes() {
    const TRIED: u32 = 2_500;
    over_tables(3, 300, |table, _| {
        let named = tick::next_wake_up(table);
        let mut ahead = table.clone();
        let first = (1..=TRIED).find(|_| tick::tick(&mut ahead));
        match first {
            Some(first) => assert_eq!(named, first),
            None => assert!(named == 0 || named > TRIED),
        }
        if named > TRIED {
            let mut ahead = table.clone();
            assert_eq!(jump::advance(&mut ahead, named - 1), 0);
            assert!(is_due(&ahead) && tick::tick(&mut ahead));
        }
    });
}

#[test]
fn before_the_next_wake_up_no_list_and_no_choice_changes() {
    over_tables(3, 300, |table, _| {
        let next = tick::next_wake_up(table);
        let quiet = if next == 0 { 300 } else { (next - 1).min(300) };
        let mut ahead = table.clone();
        for _ in 0..quiet {
            tick::tick(&mut ahead);
            assert!(ListName::all().all(|name| ahead.list(name) == table.list(name)));
            assert_eq!(ahead.chosen, table.chosen);
        }
    });
}

#[test]
fn the_same_seed_gives_the_same_file() {
    for profile in &Profile::ALL {
        assert_eq!(file(*profile, 5, 300), file(*profile, 5, 300));
        assert_ne!(file(*profile, 5, 300), file(*profile, 6, 300));
    }
}

/// FNV-1a over the files of all profiles. It changes with the generator, and with the kernel that it looks at.
const SUM_OF_THE_FILES: u64 = 691_810_489_401_271_032;

#[test]
fn the_files_are_the_same_on_every_machine() {
    let bytes = Profile::ALL.iter().flat_map(|profile| file(*profile, 1, 500));
    let sum = bytes.fold(0xCBF2_9CE4_8422_2325, |sum: u64, byte| {
        (sum ^ u64::from(byte)).wrapping_mul(0x0000_0100_0000_01B3)
    });
    assert_eq!(sum, SUM_OF_THE_FILES);
}

fn replayed(file: &[u8]) -> (Vec<String>, Table) {
    let mut output = Vec::new();
    let table = replay(&mut &file[..], &mut output).expect("memory can be read and written");
    let text = String::from_utf8(output).expect("the lines are plain text");
    assert!(text.is_empty() || text.ends_with('\n'));
    (text.lines().map(String::from).collect(), table)
}

#[test]
fn a_replay_gives_the_reports_that_the_generator_saw() {
    for profile in &Profile::ALL {
        let mut generator = Generator::new(*profile, 11);
        let mut bytes = Vec::new();
        let mut lines = Vec::new();
        for _ in 0..1_000 {
            let (request, report) = generator.step();
            bytes.extend(encode(&request));
            lines.push(format!(
                "{} {} {} {}",
                report.answer, report.chosen, report.clock, report.wake_ups
            ));
        }
        let (replayed_lines, table) = replayed(&bytes);
        assert_eq!(replayed_lines, lines);
        assert_eq!(&table, generator.table());
        if *profile != Profile::Broken {
            assert_eq!(bytes, file(*profile, 11, 1_000));
        }
    }
}

/// The offset of the first record that is short or has a wrong mark.
fn first_bad(file: &[u8]) -> Option<usize> {
    (0..file.len())
        .step_by(RECORD)
        .find(|at| at + RECORD > file.len() || file[*at..*at + 2] != MARK)
}

#[test]
fn broken_files_end_with_the_right_line() {
    let mut short_lengths = [0; RECORD];
    let (mut empty, mut at_once, mut more_behind) = (0, 0, 0);
    for seed in 0..2_000 {
        let bytes = file(Profile::Broken, seed, 30);
        let (lines, _) = replayed(&bytes);
        let bad = match first_bad(&bytes) {
            Some(bad) => bad,
            None => {
                assert!(bytes.is_empty() && lines.is_empty());
                empty += 1;
                continue;
            }
        };
        assert_eq!(lines.len(), bad / RECORD + 1);
        assert_eq!(lines[bad / RECORD], format!("bad record at {}", bad));
        assert!(lines[..bad / RECORD].iter().all(|line| line.split(' ').count() == 4));
        at_once += u32::from(bad == 0);
        more_behind += u32::from(bytes.len() >= bad + 2 * RECORD);
        if bytes.len() < bad + RECORD {
            short_lengths[bytes.len() - bad] += 1;
        }
    }
    assert!(short_lengths[1..].iter().all(|count| *count > 0), "{:?}", short_lengths);
    assert!(empty > 50 && at_once > 50 && more_behind > 500);
}

#[test]
fn calls_and_ids_are_bytes_unless_wide_is_asked_for() {
    for profile in &Profile::ALL {
        let mut generator = Generator::new(*profile, 4);
        assert!((0..2_000)
            .map(|_| generator.step().0)
            .all(|request| request.call < 256 && request.id < 256));
    }
    let mut generator = Generator::new(Profile::Bad, 4);
    generator.wide(true);
    let requests: Vec<Request> = (0..5_000).map(|_| generator.step().0).collect();
    for beyond in [256, 257, 65_536, u32::MAX] {
        assert!(requests.iter().any(|request| request.call == beyond));
        assert!(requests.iter().any(|request| request.id == beyond));
    }
}

#[test]
fn long_runs_stay_alive_and_cheap() {
    for profile in &Profile::ALL {
        let mut generator = Generator::new(*profile, 8);
        let (mut running, mut waits, mut plain_ticks) = (0, 0, 0);
        const RECORDS: u32 = 40_000;
        for record in 0..RECORDS {
            let (request, report) = generator.step();
            assert!(report.wake_ups < 2_500, "{:?} {:?}", request, report);
            if request.call == ADVANCE && report.answer == 0 && request.a <= 100_000 {
                plain_ticks += request.a;
            }
            if record >= RECORDS / 2 {
                running += u32::from(report.chosen != NONE_CHOSEN);
                waits += u32::from(report.answer == 10);
            }
        }
        assert!(running > RECORDS / 6, "{} runs in {}", running, profile.name());
        assert!(waits > RECORDS / 40, "{} waits in {}", waits, profile.name());
        assert!(
            plain_ticks / RECORDS < 1_000,
            "{} ticks a record in {}",
            plain_ticks / RECORDS,
            profile.name()
        );
    }
}

#[test]
fn the_fixed_seeds_reach_everything() {
    let coverage = coverage::run();
    assert_eq!(coverage.missing_pairs(), []);
    assert_eq!(coverage.impossible_pairs(), []);
    assert_eq!(coverage.missing_situations(), Vec::<&str>::new());
    assert!(coverage.complete());
}
