//! Each clause of soundness is broken by its damage, most of them alone; each edit keeps an image sound.

use second::damage::edit::{edit, Edit};
use second::damage::{break_clause, spoil, Spoil};
use second::generate::{Generator, Profile};
use second::image;
use second::random::Random;
use second::sound::{self, Clause};
use std::collections::HashSet;

/// No image whatever breaks these alone.
///
/// - BaseRange: a current priority in range is then below the base, and one out of range breaks its own range.
/// - MutexWaitLength: all sixteen places are then entries, so that the owner is among them, or some thread is there
///   twice.
/// - MutexAbsentWithWaiters: without depth the waiters wait for an unowned mutex; with depth the mutex isn't all zero.
const NEVER_ALONE: [Clause; 3] = [
    Clause::BaseRange,
    Clause::MutexWaitLength,
    Clause::MutexAbsentWithWaiters,
];

/// Looks at images out of runs in every profile.
fn for_images(seeds: u64, steps: u32, mut look: impl FnMut(&[u8])) {
    for profile in &Profile::ALL {
        for seed in 0..seeds {
            let mut run = Generator::new(*profile, seed);
            for step in 0..steps {
                run.step();
                if step % 4 == 0 {
                    look(&image::write(run.table()));
                }
            }
        }
    }
}

#[test]
fn each_clause_is_broken_by_its_damage_and_most_alone() {
    let mut random = Random::new(2);
    let mut reached = HashSet::new();
    let mut alone = HashSet::new();
    for_images(12, 200, |image| {
        for clause in Clause::ALL {
            if let Some(damaged) = break_clause(clause, image, &mut random) {
                let broken = sound::broken(&damaged);
                assert!(broken.contains(&clause), "{} isn't among {:?}", clause.name(), broken);
                reached.insert(clause);
                if broken.len() == 1 {
                    alone.insert(clause);
                }
            }
        }
    });
    for clause in Clause::ALL {
        assert!(reached.contains(&clause), "{} is never broken", clause.name());
        let is_alone = alone.contains(&clause);
        let expected = !NEVER_ALONE.contains(&clause);
        assert_eq!(is_alone, expected, "whether {} is broken alone", clause.name());
    }
}

#[test]
fn each_edit_keeps_an_image_sound_and_changes_it() {
    let mut random = Random::new(3);
    let mut changes = vec![0; Edit::ALL.len()];
    for_images(6, 200, |image| {
        let mut image = image.to_vec();
        for (index, kind) in Edit::ALL.iter().enumerate() {
            if let Some(edited) = edit(*kind, &image, &mut random) {
                assert_eq!(sound::broken(&edited), [], "{:?}", kind);
                changes[index] += u32::from(edited != image);
                if random.percent(50) {
                    image = edited;
                }
            }
        }
    });
    for (kind, changes) in Edit::ALL.iter().zip(changes) {
        assert!(changes > 20, "{:?} changes an image {} times", kind, changes);
    }
}

/// A spoilt image that is still sound is a table like any other.
#[test]
fn spoilt_images_are_judged() {
    let mut random = Random::new(4);
    let (mut sound, mut unsound) = (0, 0);
    for_images(4, 200, |image| {
        for kind in Spoil::ALL {
            let spoilt = spoil(kind, image, &mut random);
            assert_eq!(spoilt.len() == image::LENGTH, kind != Spoil::WrongLength);
            match image::read(&spoilt) {
                None => unsound += 1,
                Some(table) => {
                    sound += 1;
                    assert_eq!(image::write(&table).to_vec(), spoilt);
                }
            }
        }
    });
    assert!(sound > 100 && unsound > 1_000, "{} sound, {} unsound", sound, unsound);
}

#[test]
fn the_clauses_have_names_of_their_own() {
    let names: HashSet<&str> = Clause::ALL.iter().map(|clause| clause.name()).collect();
    let breaches: HashSet<&str> = Clause::ALL.iter().map(|clause| clause.breach()).collect();
    assert_eq!(names.len(), Clause::ALL.len());
    assert_eq!(breaches.len(), Clause::ALL.len());
    let plain =
        |name: &&str| !name.is_empty() && name.chars().all(|letter| letter.is_ascii_lowercase() || letter == '-');
    assert!(names.iter().all(plain));
}
