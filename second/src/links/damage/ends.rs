//! Damage to the first or the last of a list.

use super::members::{another_list, empty_list, list_of_at_least, put_another, put_link};
use crate::damage::draft::Draft;
use crate::links::layout::{first, last, previous, Half};

pub fn first_missing(draft: &mut Draft) -> Option<()> {
    let (list, _) = list_of_at_least(draft, 1)?;
    draft.put(first(list), 0);
    Some(())
}

/// The list begins with a later one; at times that one has no previous, as a first should.
pub fn first_in_own_middle(draft: &mut Draft) -> Option<()> {
    let (list, ids) = list_of_at_least(draft, 2)?;
    let later = draft.pick(&ids[1..])?;
    put_link(draft, first(list), later);
    if draft.coin() {
        draft.put(previous(later), 0);
    }
    Some(())
}

pub fn last_missing(draft: &mut Draft) -> Option<()> {
    let (list, _) = list_of_at_least(draft, 1)?;
    draft.put(last(list), 0);
    Some(())
}

pub fn last_wrong(draft: &mut Draft) -> Option<()> {
    let (list, ids) = list_of_at_least(draft, 1)?;
    put_another(draft, last(list), &ids)
}

pub fn last_of_empty(draft: &mut Draft) -> Option<()> {
    let list = empty_list(draft)?;
    put_another(draft, last(list), &[])
}

/// Two lists, one of them mostly empty, change their ends of one half and keep those of the other.
pub fn swapped(draft: &mut Draft, half: Half) -> Option<()> {
    let (list, _) = list_of_at_least(draft, 1)?;
    let other = another_list(draft, list)?;
    draft.image.swap(half.end(list), half.end(other));
    Some(())
}
