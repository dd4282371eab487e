//! Changes of a sound image: one that breaks a named clause of soundness, ones that know nothing of the table, and (in
//! `edit`) ones that keep it sound. Chance picks the place among all where the change is possible.

pub(crate) mod crowd;
pub mod deal;
pub(crate) mod draft;
pub mod edit;
mod lists;
mod objects;
mod threads;
mod timers;
mod whole;

use crate::random::Random;
use crate::sound::Clause;
use draft::Draft;

/// A small change that breaks this clause, where possible no other; None where the image has no place for it.
pub fn break_clause(clause: Clause, image: &[u8], random: &mut Random) -> Option<Vec<u8>> {
    let mut draft = Draft::of(image, random);
    whole::damage(clause, &mut draft)
        .or_else(|| lists::damage(clause, &mut draft))
        .or_else(|| threads::damage(clause, &mut draft))
        .or_else(|| objects::damage(clause, &mut draft))
        .or_else(|| timers::damage(clause, &mut draft))?;
    Some(draft.image)
}

/// A change that doesn't look at what the bytes mean. What comes out may still be sound, but for `WrongLength`.
#[derive(Clone, Copy, PartialEq, Eq, Hash, Debug)]
pub enum Spoil {
    OneByte,
    OneBit,
    TwoBytesSwapped,
    RunCopied,
    AllRandom,
    WrongLength,
}

impl Spoil {
    pub const ALL: [Spoil; 6] = [
        Spoil::OneByte,
        Spoil::OneBit,
        Spoil::TwoBytesSwapped,
        Spoil::RunCopied,
        Spoil::AllRandom,
        Spoil::WrongLength,
    ];
}

/// An image of at least one byte, spoilt.
pub fn spoil(spoil: Spoil, image: &[u8], random: &mut Random) -> Vec<u8> {
    let mut draft = Draft::of(image, random);
    let last = image.len() as u32 - 1;
    let here = draft.between(0, last) as usize;
    let there = draft.between(0, last) as usize;
    match spoil {
        Spoil::OneByte => draft.image[here] = draft.between(0, 255) as u8,
        Spoil::OneBit => draft.image[here] ^= 1 << draft.between(0, 7),
        Spoil::TwoBytesSwapped => draft.image.swap(here, there),
        Spoil::RunCopied => copy_run(&mut draft, here, there),
        Spoil::AllRandom => (0..image.len()).for_each(|at| draft.image[at] = draft.between(0, 255) as u8),
        Spoil::WrongLength => whole::wrong_length(&mut draft).expect("every image has a wrong length"),
    }
    draft.image
}

fn copy_run(draft: &mut Draft, from: usize, to: usize) {
    let room = draft.image.len() - from.max(to);
    let length = draft.between(1, room.min(64) as u32) as usize;
    draft.image.copy_within(from..from + length, to);
}
