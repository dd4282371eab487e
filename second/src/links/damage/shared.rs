//! Two lists that have threads in common.

use super::members::{another_list, ids, list_of_at_least, put_link};
use crate::damage::draft::Draft;
use crate::links::layout::{first as first_of, last as last_of, next, previous, LISTS};

/// A list, mostly an empty one, gets the first and the last of another: each link agrees with the rest, on either list.
pub fn first(draft: &mut Draft) -> Option<()> {
    let (list, ids) = list_of_at_least(draft, 1)?;
    let other = another_list(draft, list)?;
    put_link(draft, first_of(other), ids[0]);
    put_link(draft, last_of(other), ids[ids.len() - 1]);
    Some(())
}

/// A list begins with a later one of another list. That one's previous agrees with one list or the other.
pub fn middle(draft: &mut Draft) -> Option<()> {
    let (list, ids) = list_of_at_least(draft, 2)?;
    let other = another_list(draft, list)?;
    let later = draft.pick(&ids[1..])?;
    put_link(draft, first_of(other), later);
    put_link(draft, last_of(other), ids[ids.len() - 1]);
    if draft.coin() {
        draft.put(previous(later), 0);
    }
    Some(())
}

/// A list goes on, behind one of its threads and mostly behind its last, with threads of another list, and ends as
/// that one does. The previous of the thread where they meet agrees with one list or the other.
pub fn tail(draft: &mut Draft) -> Option<()> {
    let (list, own) = list_of_at_least(draft, 1)?;
    let filled: Vec<usize> = (0..LISTS)
        .filter(|other| *other != list && !ids(draft, *other).is_empty())
        .collect();
    let other = draft.pick(&filled)?;
    let others = ids(draft, other);
    let end = draft.prefer(&own[own.len() - 1..], &own)?;
    let met = draft.pick(&others)?;
    put_link(draft, next(end), met);
    put_link(draft, last_of(list), others[others.len() - 1]);
    if draft.coin() {
        put_link(draft, previous(met), end);
    }
    Some(())
}
