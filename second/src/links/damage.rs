//! Damages to the links of a sound image. Each gives an image that isn't sound, and wherever it can one in which little
//! else is wrong than what it is named for. Changes that know nothing of the lists are in `blind`.

pub mod blind;
mod ends;
mod halves;
mod members;
mod ranges;
mod rings;
mod shared;
mod threads;
mod whole;

use super::layout::{first, last, next, previous, BACKWARD, FORWARD, LISTS};
use super::sound;
use crate::damage::draft::Draft;
use crate::random::Random;
use crate::table::THREADS;

#[derive(Clone, Copy, PartialEq, Eq, Hash, Debug)]
pub enum Damage {
    NextAboveSixteen,
    FirstAboveSixteen,
    PreviousAboveSixteen,
    LastAboveSixteen,

    NextMissing,
    NextWrong,
    NextToItself,
    NextBehindLast,
    NextBehindSixteenth,
    PreviousMissing,
    PreviousWrong,
    PreviousOfFirst,
    NextOffLists,
    PreviousOffLists,

    FirstMissing,
    FirstInOwnMiddle,
    LastMissing,
    LastWrong,
    LastOfEmpty,
    FirstsSwapped,
    LastsSwapped,

    RingClosed,
    RingOffLists,
    RingWithFirst,
    ChainOffLists,
    ListLeft,

    FirstShared,
    FirstInOthersMiddle,
    TailShared,

    ThreadsTurned,
    EndsTurned,
    OrderInOneHalf,
    ListInOneHalf,

    OtherLayout,
}

impl Damage {
    pub const ALL: [Damage; 34] = [
        Damage::NextAboveSixteen,
        Damage::FirstAboveSixteen,
        Damage::PreviousAboveSixteen,
        Damage::LastAboveSixteen,
        Damage::NextMissing,
        Damage::NextWrong,
        Damage::NextToItself,
        Damage::NextBehindLast,
        Damage::NextBehindSixteenth,
        Damage::PreviousMissing,
        Damage::PreviousWrong,
        Damage::PreviousOfFirst,
        Damage::NextOffLists,
        Damage::PreviousOffLists,
        Damage::FirstMissing,
        Damage::FirstInOwnMiddle,
        Damage::LastMissing,
        Damage::LastWrong,
        Damage::LastOfEmpty,
        Damage::FirstsSwapped,
        Damage::LastsSwapped,
        Damage::RingClosed,
        Damage::RingOffLists,
        Damage::RingWithFirst,
        Damage::ChainOffLists,
        Damage::ListLeft,
        Damage::FirstShared,
        Damage::FirstInOthersMiddle,
        Damage::TailShared,
        Damage::ThreadsTurned,
        Damage::EndsTurned,
        Damage::OrderInOneHalf,
        Damage::ListInOneHalf,
        Damage::OtherLayout,
    ];
}

/// How many draws the one is picked from that breaks least.
const DRAWS: u32 = 12;

/// The sound image with this damage; None where it has no place for it. By turns of chance any one, or of several the
/// one that breaks the fewest clauses, so that a reader who misses just one demand is found out.
pub fn damage(damage: Damage, image: &[u8], random: &mut Random) -> Option<Vec<u8>> {
    let draws = random.of(&[1, DRAWS]);
    (0..draws)
        .filter_map(|_| drawn(damage, image, random))
        .min_by_key(|damaged| sound::broken(damaged).len())
}

fn drawn(damage: Damage, image: &[u8], random: &mut Random) -> Option<Vec<u8>> {
    let mut draft = Draft::of(image, random);
    change(damage, &mut draft)?;
    Some(draft.image)
}

fn change(damage: Damage, draft: &mut Draft) -> Option<()> {
    match damage {
        Damage::NextAboveSixteen => ranges::above_sixteen(draft, (0..THREADS).map(next)),
        Damage::FirstAboveSixteen => ranges::above_sixteen(draft, (0..LISTS).map(first)),
        Damage::PreviousAboveSixteen => ranges::above_sixteen(draft, (0..THREADS).map(previous)),
        Damage::LastAboveSixteen => ranges::above_sixteen(draft, (0..LISTS).map(last)),
        Damage::NextMissing => threads::next_missing(draft),
        Damage::NextWrong => threads::next_wrong(draft),
        Damage::NextToItself => threads::next_to_itself(draft),
        Damage::NextBehindLast => threads::next_behind_last(draft),
        Damage::NextBehindSixteenth => threads::next_behind_sixteenth(draft),
        Damage::PreviousMissing => threads::previous_missing(draft),
        Damage::PreviousWrong => threads::previous_wrong(draft),
        Damage::PreviousOfFirst => threads::previous_of_first(draft),
        Damage::NextOffLists => threads::off_lists(draft, FORWARD),
        Damage::PreviousOffLists => threads::off_lists(draft, BACKWARD),
        Damage::FirstMissing => ends::first_missing(draft),
        Damage::FirstInOwnMiddle => ends::first_in_own_middle(draft),
        Damage::LastMissing => ends::last_missing(draft),
        Damage::LastWrong => ends::last_wrong(draft),
        Damage::LastOfEmpty => ends::last_of_empty(draft),
        Damage::FirstsSwapped => ends::swapped(draft, FORWARD),
        Damage::LastsSwapped => ends::swapped(draft, BACKWARD),
        Damage::RingClosed => rings::closed(draft),
        Damage::RingOffLists => rings::off_lists(draft),
        Damage::RingWithFirst => rings::with_first(draft),
        Damage::ChainOffLists => rings::chain_off_lists(draft),
        Damage::ListLeft => rings::list_left(draft),
        Damage::FirstShared => shared::first(draft),
        Damage::FirstInOthersMiddle => shared::middle(draft),
        Damage::TailShared => shared::tail(draft),
        Damage::ThreadsTurned => halves::threads_turned(draft),
        Damage::EndsTurned => halves::ends_turned(draft),
        Damage::OrderInOneHalf => halves::order_in_one(draft),
        Damage::ListInOneHalf => halves::list_in_one(draft),
        Damage::OtherLayout => whole::other_layout(draft),
    }
}
