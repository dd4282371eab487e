//! Files of cases with links, in the form of `crate::cases`.

mod maker;

pub use maker::{Made, Maker};

use super::sound;
use crate::cases::{write_answers, write_cases, Summary};
use std::io::{self, BufRead, Write};

/// A file of cases, the same for the same seed.
pub fn cases(seed: u64, count: u32, output: &mut dyn Write) -> io::Result<Summary> {
    let mut maker = Maker::new(seed);
    let make = || {
        let case = maker.case();
        (case.image, case.request)
    };
    write_cases(count, make, sound::is_sound, output)
}

pub fn answers(input: &mut dyn BufRead, output: &mut dyn Write) -> io::Result<Summary> {
    write_answers(input, sound::is_sound, super::call, output)
}
