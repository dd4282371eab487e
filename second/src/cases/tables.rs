//! The sound tables under the cases: runs of the generator in every profile, which go on from case to case, and edits
//! that lead where runs hardly come.

use crate::damage::deal::dealt;
use crate::damage::edit::{edit, Edit};
use crate::generate::{Generator, Profile};
use crate::image;
use crate::random::Random;
use crate::table::{Request, Table};

/// The runs begin anew after some time: in a long one every object is created, and none can be missing.
const LONGEST_RUN: u32 = 400;
const MOST_STEPS: u32 = 6;
const MOST_EDITS: u32 = 3;

pub struct Tables {
    pub random: Random,
    runs: Vec<Run>,
    /// The run whose turn it is.
    run: usize,
    turns: usize,
    edits: usize,
}

/// A run of the generator that goes on from case to case.
struct Run {
    profile: Profile,
    generator: Generator,
    steps_left: u32,
}

impl Tables {
    pub fn new(seed: u64) -> Tables {
        let mut random = Random::new(seed);
        let runs = Profile::ALL
            .iter()
            .map(|profile| Run::new(*profile, &mut random))
            .collect();
        Tables {
            random,
            runs,
            run: 0,
            turns: 0,
            edits: 0,
        }
    }

    /// Goes on to the next table: each profile in turn, and each of its runs by turns as it is and after edits. Says
    /// whether the turn is one for a damage.
    pub fn go_on(&mut self) -> bool {
        self.run = self.turns % self.runs.len();
        let turn = self.turns / self.runs.len() % 4;
        self.turns += 1;
        self.runs[self.run].go_on(&mut self.random);
        if turn >= 2 {
            self.edit();
        }
        turn % 2 == 1
    }

    /// The run goes on from the edited table.
    fn edit(&mut self) {
        let mut image = image::write(self.table()).to_vec();
        for _ in 0..self.random.between(1, MOST_EDITS) {
            let next = Edit::ALL[self.edits % Edit::ALL.len()];
            self.edits += 1;
            image = edit(next, &image, &mut self.random).unwrap_or(image);
        }
        self.set_table_of(&image);
    }

    /// The run goes on from a table whose threads are dealt out over a few lists.
    pub fn deal(&mut self) {
        let image = dealt(&image::write(self.table()), &mut self.random);
        self.set_table_of(&image);
    }

    fn set_table_of(&mut self, image: &[u8]) {
        let table = image::read(image).expect("an edit keeps an image sound");
        self.set_table(table);
    }

    pub fn table(&self) -> &Table {
        self.runs[self.run].generator.table()
    }

    /// The run goes on from another sound table.
    pub fn set_table(&mut self, table: Table) {
        self.runs[self.run].generator.set_table(table);
    }

    /// A request that matters for the table.
    pub fn request(&mut self) -> Request {
        self.runs[self.run].generator.pick()
    }
}

impl Run {
    fn new(profile: Profile, random: &mut Random) -> Run {
        let seed = random.number();
        let steps_left = random.between(1, LONGEST_RUN);
        let mut generator = Generator::new(profile, seed);
        generator.wide(true);
        Run {
            profile,
            generator,
            steps_left,
        }
    }

    fn go_on(&mut self, random: &mut Random) {
        for _ in 0..random.between(1, MOST_STEPS) {
            if self.steps_left == 0 {
                *self = Run::new(self.profile, random);
            }
            self.steps_left -= 1;
            self.generator.step();
        }
    }
}
