//! Changes of the links that ask nobody. What comes out may still be sound: a list that moves as a whole is in order by
//! its links, and only the table tells whether it may stand there.

use super::members::{another_list, list_of_at_least, put_link};
use crate::damage::draft::Draft;
use crate::links::layout::{first, last, next, previous, Half, BACKWARD, FORWARD, HIGHEST_LINK, LENGTH, LINKS};
use crate::random::Random;
use crate::table::THREADS;

#[derive(Clone, Copy, PartialEq, Eq, Hash, Debug)]
pub enum Spoil {
    OneLink,
    OneLinkByOne,
    OneBitOfALink,
    TwoLinksSwapped,
    RunOfLinksCopied,
    LinksRandom,
    ThreadsPermuted,
    ListsSwapped,
    ListTurned,
    HalvesTurned,
}

impl Spoil {
    pub const ALL: [Spoil; 10] = [
        Spoil::OneLink,
        Spoil::OneLinkByOne,
        Spoil::OneBitOfALink,
        Spoil::TwoLinksSwapped,
        Spoil::RunOfLinksCopied,
        Spoil::LinksRandom,
        Spoil::ThreadsPermuted,
        Spoil::ListsSwapped,
        Spoil::ListTurned,
        Spoil::HalvesTurned,
    ];
}

/// A sound image with links, spoilt; None where it has no list to swap or to turn.
pub fn spoil(spoil: Spoil, image: &[u8], random: &mut Random) -> Option<Vec<u8>> {
    let mut draft = Draft::of(image, random);
    let here = any_link_place(&mut draft);
    let there = any_place(&mut draft);
    match spoil {
        Spoil::OneLink => draft.image[here] = any_link(&mut draft),
        Spoil::OneLinkByOne => by_one(&mut draft, here),
        Spoil::OneBitOfALink => draft.image[here] ^= 1 << draft.between(0, 7),
        Spoil::TwoLinksSwapped => draft.image.swap(here, there),
        Spoil::RunOfLinksCopied => copy_run(&mut draft, here, there),
        Spoil::LinksRandom => (LINKS..LENGTH).for_each(|at| draft.image[at] = any_link(&mut draft)),
        Spoil::ThreadsPermuted => permute(&mut draft),
        Spoil::ListsSwapped => swap_lists(&mut draft)?,
        Spoil::ListTurned => turn_list(&mut draft)?,
        Spoil::HalvesTurned => {
            (0..Half::BYTES).for_each(|place| draft.image.swap(FORWARD.start() + place, BACKWARD.start() + place))
        }
    }
    Some(draft.image)
}

fn any_place(draft: &mut Draft) -> usize {
    draft.between(LINKS as u32, LENGTH as u32 - 1) as usize
}

/// Mostly the place of somebody's link, where there are such.
fn any_link_place(draft: &mut Draft) -> usize {
    let all: Vec<usize> = (LINKS..LENGTH).collect();
    let links: Vec<usize> = all.iter().copied().filter(|at| draft.image[*at] != 0).collect();
    draft.prefer(&links, &all).expect("there are links")
}

/// A link, or the number above all of them.
fn any_link(draft: &mut Draft) -> u8 {
    draft.between(0, u32::from(HIGHEST_LINK) + 1) as u8
}

/// The mistake of who takes an id for a link, or a link for an id.
fn by_one(draft: &mut Draft, at: usize) {
    let link = draft.image[at];
    draft.image[at] = if link > 0 && draft.coin() { link - 1 } else { link + 1 };
}

fn copy_run(draft: &mut Draft, from: usize, to: usize) {
    let room = LENGTH - from.max(to);
    let length = draft.between(1, room as u32) as usize;
    draft.image.copy_within(from..from + length, to);
}

/// All threads stand in rings, each previous that of its next.
fn permute(draft: &mut Draft) {
    let mut ids: Vec<usize> = (0..THREADS).collect();
    draft.shuffle(&mut ids);
    for (id, other) in ids.into_iter().enumerate() {
        put_link(draft, next(id), other);
        put_link(draft, previous(other), id);
    }
}

/// Two lists, one of them mostly empty, change places with all their threads.
fn swap_lists(draft: &mut Draft) -> Option<()> {
    let (here, _) = list_of_at_least(draft, 1)?;
    let there = another_list(draft, here)?;
    draft.image.swap(first(here), first(there));
    draft.image.swap(last(here), last(there));
    Some(())
}

/// A list stands from behind.
fn turn_list(draft: &mut Draft) -> Option<()> {
    let (list, ids) = list_of_at_least(draft, 2)?;
    draft.image.swap(first(list), last(list));
    for id in ids {
        draft.image.swap(next(id), previous(id));
    }
    Some(())
}
