//! What the damages ask of the links, while these are still right, and how they write a link.

use crate::damage::draft::Draft;
use crate::links::layout::{self, link_to, HIGHEST_LINK, LISTS};

/// A list with at least so many threads, and its threads.
pub fn list_of_at_least(draft: &mut Draft, least: usize) -> Option<(usize, Vec<usize>)> {
    let lists: Vec<usize> = (0..LISTS).filter(|list| ids(draft, *list).len() >= least).collect();
    let list = draft.pick(&lists)?;
    Some((list, ids(draft, list)))
}

pub fn empty_list(draft: &mut Draft) -> Option<usize> {
    let lists: Vec<usize> = (0..LISTS).filter(|list| ids(draft, *list).is_empty()).collect();
    draft.pick(&lists)
}

/// A list other than this one, mostly an empty one: nobody loses a place there.
pub fn another_list(draft: &mut Draft, list: usize) -> Option<usize> {
    let others: Vec<usize> = (0..LISTS).filter(|other| *other != list).collect();
    let empty: Vec<usize> = others
        .iter()
        .copied()
        .filter(|other| ids(draft, *other).is_empty())
        .collect();
    draft.prefer(&empty, &others)
}

pub fn ids(draft: &Draft, list: usize) -> Vec<usize> {
    layout::ids(&draft.image, list)
}

/// Those who stand nowhere, which are the absent ones, in an order of chance.
pub fn off_lists(draft: &mut Draft) -> Vec<usize> {
    let mut absent = draft.absent();
    draft.shuffle(&mut absent);
    absent
}

/// So many of them or more, from the front; None where there are fewer.
pub fn some_of(draft: &mut Draft, ids: &[usize], least: usize) -> Option<Vec<usize>> {
    if ids.len() < least {
        return None;
    }
    let count = draft.number(least as u32, ids.len() as u32) as usize;
    Some(ids[..count].to_vec())
}

pub fn put_link(draft: &mut Draft, at: usize, id: usize) {
    draft.put(at, u32::from(link_to(id)));
}

/// Writes a link in range, other than the one there and than 0; one of the threads named, mostly, where that is other.
pub fn put_another(draft: &mut Draft, at: usize, better: &[usize]) -> Option<()> {
    let right = draft.image[at];
    let other = |link: &u8| *link != right;
    let all: Vec<u8> = (1..=HIGHEST_LINK).filter(other).collect();
    let better: Vec<u8> = better.iter().map(|id| link_to(*id)).filter(other).collect();
    let link = draft.prefer(&better, &all)?;
    draft.put(at, u32::from(link));
    Some(())
}
