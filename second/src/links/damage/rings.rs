//! Rings and chains: links that agree with one another and yet are those of no lists.

use super::members::{empty_list, list_of_at_least, off_lists as standing_nowhere, put_link, some_of};
use crate::damage::draft::Draft;
use crate::links::layout::{first, last, next, previous};

/// Each of them leads to the one behind it, in both halves.
fn chain(draft: &mut Draft, ids: &[usize]) {
    for pair in ids.windows(2) {
        put_link(draft, next(pair[0]), pair[1]);
        put_link(draft, previous(pair[1]), pair[0]);
    }
}

fn ring(draft: &mut Draft, ids: &[usize]) {
    chain(draft, ids);
    chain(draft, &[ids[ids.len() - 1], ids[0]]);
}

/// The last of a list leads back to one of its threads; at times that one's previous agrees.
pub fn closed(draft: &mut Draft) -> Option<()> {
    let (_, ids) = list_of_at_least(draft, 1)?;
    let end = *ids.last()?;
    let back_to = draft.prefer(&ids[..1], &ids)?;
    put_link(draft, next(end), back_to);
    if draft.coin() {
        put_link(draft, previous(back_to), end);
    }
    Some(())
}

/// A ring of some who stand nowhere. No list leads there.
pub fn off_lists(draft: &mut Draft) -> Option<()> {
    let nowhere = standing_nowhere(draft);
    let ids = some_of(draft, &nowhere, 1)?;
    ring(draft, &ids);
    Some(())
}

/// The same ring, and an empty list begins in it.
pub fn with_first(draft: &mut Draft) -> Option<()> {
    let nowhere = standing_nowhere(draft);
    let ids = some_of(draft, &nowhere, 1)?;
    let list = empty_list(draft)?;
    ring(draft, &ids);
    put_link(draft, first(list), ids[0]);
    put_link(draft, last(list), ids[ids.len() - 1]);
    Some(())
}

pub fn chain_off_lists(draft: &mut Draft) -> Option<()> {
    let nowhere = standing_nowhere(draft);
    let ids = some_of(draft, &nowhere, 2)?;
    chain(draft, &ids);
    Some(())
}

/// A list loses its first and last, and its threads keep their links; at times they close to a ring.
pub fn list_left(draft: &mut Draft) -> Option<()> {
    let (list, ids) = list_of_at_least(draft, 2)?;
    draft.put(first(list), 0);
    draft.put(last(list), 0);
    if draft.coin() {
        ring(draft, &ids);
    }
    Some(())
}
