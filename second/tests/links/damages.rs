//! Each damage to the links gives an image that isn't sound, each clause on links is broken, and all but one of them
//! alone, with every other thing in order.

use second::damage::deal::dealt;
use second::damage::edit::{edit, Edit};
use second::generate::{Generator, Profile};
use second::links::damage::{blind, damage, Damage};
use second::links::rows::rows_of;
use second::links::sound::{self, Clause};
use second::links::{self, LENGTH};
use second::random::Random;
use std::collections::{HashMap, HashSet};
use std::mem::discriminant;

/// No image whatever breaks this alone: who is read twice on one list has two places before it, and one previous; and
/// such a list never ends.
const NEVER_ALONE: [Clause; 1] = [Clause::ReadTwiceOnOneList];

/// Looks at sound images out of runs in every profile, some of them edited, crowded ones among them.
fn for_images(seeds: u64, steps: u32, mut look: impl FnMut(&[u8])) {
    let mut random = Random::new(8);
    for profile in &Profile::ALL {
        for seed in 0..seeds {
            let mut run = Generator::new(*profile, seed);
            for step in 0..steps {
                run.step();
                if step % 8 == 0 {
                    look(&links::write(run.table()));
                }
                if step % 64 == 32 {
                    crowd(&mut run, &mut random);
                }
            }
        }
    }
}

fn crowd(run: &mut Generator, random: &mut Random) {
    let rows = second::image::write(run.table());
    if let Some(crowded) = edit(Edit::Crowd, &rows, random) {
        run.set_table(second::image::read(&crowded).expect("an edit keeps an image sound"));
    }
}

#[test]
fn each_damage_breaks_soundness_and_each_clause_is_broken_mostly_alone() {
    let mut random = Random::new(2);
    let mut done: HashMap<Damage, u32> = HashMap::new();
    let mut reached = HashSet::new();
    let mut alone = HashSet::new();
    for_images(12, 200, |image| {
        for kind in Damage::ALL {
            if let Some(damaged) = damage(kind, image, &mut random) {
                let broken = sound::broken(&damaged);
                assert!(!broken.is_empty(), "{:?} gives a sound image", kind);
                *done.entry(kind).or_default() += 1;
                reached.extend(broken.iter().copied());
                if broken.len() == 1 {
                    alone.insert(broken[0]);
                }
            }
        }
    });
    for kind in Damage::ALL {
        assert!(
            done.get(&kind).map_or(false, |count| *count > 100),
            "{:?} is rare",
            kind
        );
    }
    for clause in Clause::OF_LINKS {
        assert!(reached.contains(&clause), "{} is never broken", clause.name());
        let expected = !NEVER_ALONE.contains(&clause);
        assert_eq!(
            alone.contains(&clause),
            expected,
            "whether {} is broken alone",
            clause.name()
        );
    }
}

#[test]
fn dealt_out_threads_keep_an_image_sound() {
    let mut random = Random::new(3);
    let mut families = HashSet::new();
    for_images(4, 200, |image| {
        let rows = dealt(&rows_of(image), &mut random);
        assert_eq!(second::sound::broken(&rows), []);
        let table = second::image::read(&rows).expect("a sound image");
        families.extend(
            (0..16)
                .filter_map(|id| table.list_of(id))
                .map(|name| discriminant(&name)),
        );
    });
    assert_eq!(families.len(), 6);
}

/// A spoilt image that is still sound is a table like any other.
#[test]
fn blindly_changed_links_are_judged() {
    let mut random = Random::new(4);
    let (mut kept, mut refused) = (0, 0);
    for_images(6, 200, |image| {
        for kind in blind::Spoil::ALL {
            if let Some(spoilt) = blind::spoil(kind, image, &mut random) {
                assert_eq!((spoilt.len(), &spoilt[..478]), (LENGTH, &image[..478]), "{:?}", kind);
                match links::read(&spoilt) {
                    None => refused += 1,
                    Some(table) => {
                        kept += 1;
                        assert_eq!(links::write(&table).to_vec(), spoilt, "{:?}", kind);
                    }
                }
            }
        }
    });
    assert!(kept > 100 && refused > 1_000, "{} kept, {} refused", kept, refused);
}

#[test]
fn the_clauses_have_names_of_their_own() {
    let all = Clause::all();
    let names: HashSet<&str> = all.iter().map(|clause| clause.name()).collect();
    let breaches: HashSet<&str> = all.iter().map(|clause| clause.breach()).collect();
    assert_eq!((names.len(), breaches.len()), (all.len(), all.len()));
    let plain =
        |name: &&str| !name.is_empty() && name.chars().all(|letter| letter.is_ascii_lowercase() || letter == '-');
    assert!(names.iter().all(plain));
}
