//! The two halves of the links tell two stories, each of them in order by itself.

use super::members::{another_list, ids, list_of_at_least};
use crate::damage::draft::Draft;
use crate::links::layout::{first, last, lay_half, next, previous, Half, BACKWARD, FORWARD};

/// Next and previous change places for each thread of a list, and its first and last stay.
pub fn threads_turned(draft: &mut Draft) -> Option<()> {
    let (_, ids) = list_of_at_least(draft, 2)?;
    for id in ids {
        draft.image.swap(next(id), previous(id));
    }
    Some(())
}

/// First and last of a list change places, and its threads keep their links.
pub fn ends_turned(draft: &mut Draft) -> Option<()> {
    let (list, _) = list_of_at_least(draft, 2)?;
    draft.image.swap(first(list), last(list));
    Some(())
}

fn one_half(draft: &mut Draft) -> Option<Half> {
    draft.pick(&[FORWARD, BACKWARD])
}

/// Lays a list out in one half; the ids stand from the front in either.
fn lay(draft: &mut Draft, half: Half, list: usize, mut ids: Vec<usize>) {
    if half == BACKWARD {
        ids.reverse();
    }
    lay_half(&mut draft.image, half, list, &ids);
}

/// In one half two threads of a list stand in each other's place.
pub fn order_in_one(draft: &mut Draft) -> Option<()> {
    let (list, mut ids) = list_of_at_least(draft, 2)?;
    let half = one_half(draft)?;
    let here = draft.between(0, ids.len() as u32 - 2) as usize;
    let there = draft.number(here as u32 + 1, ids.len() as u32 - 1) as usize;
    ids.swap(here, there);
    lay(draft, half, list, ids);
    Some(())
}

/// In one half somebody stands on another list, at its end.
pub fn list_in_one(draft: &mut Draft) -> Option<()> {
    let (list, mut left) = list_of_at_least(draft, 1)?;
    let half = one_half(draft)?;
    let other = another_list(draft, list)?;
    let place = draft.between(0, left.len() as u32 - 1) as usize;
    let mut joined = ids(draft, other);
    joined.push(left.remove(place));
    lay(draft, half, list, left);
    lay(draft, half, other, joined);
    Some(())
}
