//! The profiles: what a generated run is about, and how often it turns to which subject.
//! A mood is what a run prefers for a while, so that runs differ from each other and from themselves.

use crate::random::Random;
use crate::table::{FLAG_OBJECTS, HIGHEST_QUANTUM, HIGHEST_WORD, MUTEXES, PRIORITIES, SEMAPHORES};

/// What a run is about.
#[derive(Clone, Copy, PartialEq, Eq, Debug)]
pub enum Profile {
    Threads,
    Semaphores,
    Mutexes,
    Flags,
    Timers,
    Quanta,
    Scheduling,
    Ties,
    Long,
    Bad,
    Broken,
    Mixed,
}

/// How often each subject is picked, relative to the others, and how many of a hundred requests are then spoiled.
pub struct Weights {
    pub threads: u32,
    pub quanta: u32,
    pub semaphores: u32,
    pub mutexes: u32,
    pub flags: u32,
    pub timers: u32,
    pub scheduling: u32,
    pub advance: u32,
    pub any: u32,
    pub spoiled: u32,
}

const EVERYTHING: Weights = Weights {
    threads: 22,
    quanta: 6,
    semaphores: 14,
    mutexes: 10,
    flags: 14,
    timers: 12,
    scheduling: 3,
    advance: 20,
    any: 3,
    spoiled: 2,
};

impl Profile {
    pub const ALL: [Profile; 12] = [
        Profile::Threads,
        Profile::Semaphores,
        Profile::Mutexes,
        Profile::Flags,
        Profile::Timers,
        Profile::Quanta,
        Profile::Scheduling,
        Profile::Ties,
        Profile::Long,
        Profile::Bad,
        Profile::Broken,
        Profile::Mixed,
    ];

    /// The name on the command line.
    pub fn name(self) -> &'static str {
        match self {
            Profile::Threads => "threads",
            Profile::Semaphores => "semaphores",
            Profile::Mutexes => "mutexes",
            Profile::Flags => "flags",
            Profile::Timers => "timers",
            Profile::Quanta => "quanta",
            Profile::Scheduling => "scheduling",
            Profile::Ties => "ties",
            Profile::Long => "long",
            Profile::Bad => "bad",
            Profile::Broken => "broken",
            Profile::Mixed => "mixed",
        }
    }

    pub fn from_name(name: &str) -> Option<Profile> {
        Profile::ALL.iter().copied().find(|profile| profile.name() == name)
    }

    pub(super) fn weights(self) -> Weights {
        let mut weights = EVERYTHING;
        match self {
            Profile::Threads => weights.threads = 200,
            Profile::Semaphores => weights.semaphores = 120,
            Profile::Mutexes => {
                weights.threads = 40;
                weights.mutexes = 160;
            }
            Profile::Flags => weights.flags = 120,
            Profile::Timers => {
                weights.timers = 70;
                weights.semaphores = 40;
                weights.flags = 40;
                weights.advance = 50;
                weights.mutexes = 4;
            }
            Profile::Quanta => {
                weights.quanta = 60;
                weights.advance = 60;
            }
            Profile::Scheduling => {
                weights.scheduling = 50;
                weights.threads = 40;
            }
            Profile::Ties => {
                weights.threads = 40;
                weights.semaphores = 40;
                weights.flags = 30;
                weights.timers = 50;
                weights.advance = 40;
                weights.mutexes = 4;
            }
            Profile::Long => weights.advance = 50,
            Profile::Bad => {
                weights.any = 60;
                weights.spoiled = 50;
            }
            Profile::Broken | Profile::Mixed => {}
        }
        weights
    }
}

/// The objects that a run creates; the others stay absent, so that naming them stays a fault.
pub struct Objects {
    pub semaphores: Vec<usize>,
    pub mutexes: Vec<usize>,
    pub flags: Vec<usize>,
}

impl Objects {
    pub fn draw(random: &mut Random) -> Objects {
        Objects {
            semaphores: some_below(SEMAPHORES, random),
            mutexes: some_below(MUTEXES, random),
            flags: some_below(FLAG_OBJECTS, random),
        }
    }
}

/// At least one of the ids below the bound, mostly all but a few.
fn some_below(bound: usize, random: &mut Random) -> Vec<usize> {
    let left_out = random.of(&[0, 10, 25, 60]);
    let always = random.below(bound as u32) as usize;
    (0..bound)
        .filter(|id| *id == always || !random.percent(left_out))
        .collect()
}

/// What a run prefers for a while.
pub struct Mood {
    pub lowest_priority: u32,
    pub highest_priority: u32,
    /// Threads with ids below this are created.
    pub threads: usize,
    /// The highest quantum that is usual.
    pub quantum: u32,
    /// The highest number of ticks that is usual for limits, sleeps, periods and advances.
    pub ticks: u32,
    /// How many of a hundred numbers of ticks equal something that is pending.
    pub tied: u32,
    /// How many of a hundred numbers of ticks are very long.
    pub long: u32,
    /// The bits that masks and words are made of.
    pub bits: u32,
}

impl Mood {
    pub fn draw(profile: Profile, random: &mut Random) -> Mood {
        let (lowest_priority, highest_priority) = usual_priorities(profile, random);
        Mood {
            lowest_priority,
            highest_priority,
            threads: match profile {
                Profile::Bad => random.of(&[1, 2, 3, 8, 16]),
                _ => random.of(&[3, 6, 10, 16, 16]),
            },
            quantum: usual_quantum(profile, random),
            ticks: match profile {
                Profile::Ties | Profile::Quanta => random.of(&[2, 4, 8]),
                Profile::Long => random.of(&[10, 1_000, 70_000, 3_000_000]),
                _ => random.of(&[3, 8, 20, 60, 300]),
            },
            tied: match profile {
                Profile::Ties => 70,
                Profile::Timers | Profile::Quanta => 35,
                _ => 15,
            },
            long: match profile {
                Profile::Long => random.of(&[30, 80]),
                Profile::Mixed | Profile::Bad => random.of(&[0, 0, 2, 30]),
                _ => random.of(&[0, 0, 2]),
            },
            bits: random.of(&[0x0003, 0x000F, 0x8001, 0x0F0C, HIGHEST_WORD]),
        }
    }
}

/// One priority for all, some neighbours, or all eight.
fn usual_priorities(profile: Profile, random: &mut Random) -> (u32, u32) {
    let highest = PRIORITIES as u32 - 1;
    let lowest = random.of(&[0, 0, 0, 2, 5, highest]);
    let spread = match profile {
        Profile::Ties => random.of(&[0, 0, 1, highest]),
        _ => random.of(&[0, 1, 2, highest, highest]),
    };
    (lowest, (lowest + spread).min(highest))
}

/// Long runs need long quanta, or the rotations alone would make an advance too costly.
fn usual_quantum(profile: Profile, random: &mut Random) -> u32 {
    match profile {
        Profile::Long => random.of(&[0, 2_000, 20_000, HIGHEST_QUANTUM]),
        Profile::Quanta | Profile::Ties => random.of(&[1, 2, 3, 5]),
        _ => random.of(&[0, 1, 3, 8, 100, HIGHEST_QUANTUM]),
    }
}

#[cfg(test)]
mod tests {
    use super::Profile;

    #[test]
    fn names_are_read_back() {
        for profile in &Profile::ALL {
            assert_eq!(Profile::from_name(profile.name()), Some(*profile));
        }
        assert_eq!(Profile::from_name("none of them"), None);
    }
}
