//! Damage to the next or the previous of one thread.

use super::members::{list_of_at_least, off_lists as standing_nowhere, put_another, put_link};
use crate::damage::crowd::{crowd_on, is_there};
use crate::damage::draft::Draft;
use crate::links::layout::{ids, named_by, next, previous, Half, LISTS};
use crate::links::rows::{rows_of, with_links};
use crate::table::{ListName, THREADS};

/// One of a list's threads without its last, and the list.
fn somebody_before_the_last(draft: &mut Draft) -> Option<(usize, Vec<usize>)> {
    let (_, ids) = list_of_at_least(draft, 2)?;
    let id = draft.pick(&ids[..ids.len() - 1])?;
    Some((id, ids))
}

fn somebody_behind_the_first(draft: &mut Draft) -> Option<(usize, Vec<usize>)> {
    let (_, ids) = list_of_at_least(draft, 2)?;
    let id = draft.pick(&ids[1..])?;
    Some((id, ids))
}

pub fn next_missing(draft: &mut Draft) -> Option<()> {
    let (id, _) = somebody_before_the_last(draft)?;
    draft.put(next(id), 0);
    Some(())
}

pub fn next_wrong(draft: &mut Draft) -> Option<()> {
    let (id, ids) = somebody_before_the_last(draft)?;
    put_another(draft, next(id), &ids)
}

pub fn next_to_itself(draft: &mut Draft) -> Option<()> {
    let (_, ids) = list_of_at_least(draft, 1)?;
    let id = draft.pick(&ids)?;
    put_link(draft, next(id), id);
    Some(())
}

/// At times the thread behind the last knows its previous, so that only the list's last tells where the list ends.
pub fn next_behind_last(draft: &mut Draft) -> Option<()> {
    let (_, ids) = list_of_at_least(draft, 1)?;
    let last = *ids.last()?;
    let nowhere = standing_nowhere(draft);
    put_another(draft, next(last), &nowhere)?;
    if draft.coin() {
        let behind = named_by(draft.image[next(last)])?;
        put_link(draft, previous(behind), last);
    }
    Some(())
}

/// All sixteen stand on one list, and the last of them has a next. At times the ring is whole, with its previous.
pub fn next_behind_sixteenth(draft: &mut Draft) -> Option<()> {
    fill_a_list(draft)?;
    let (_, ids) = list_of_at_least(draft, THREADS)?;
    let (first, last) = (ids[0], ids[THREADS - 1]);
    put_another(draft, next(last), &[first])?;
    if draft.between(0, 3) == 0 {
        put_link(draft, previous(first), last);
    }
    Some(())
}

/// Brings all threads onto one list, unless they stand so already.
fn fill_a_list(draft: &mut Draft) -> Option<()> {
    if (0..LISTS).any(|list| ids(&draft.image, list).len() == THREADS) {
        return Some(());
    }
    draft.image = rows_of(&draft.image);
    let has_room_for_all = |name: &ListName| !matches!(name, ListName::MutexWait(_)) && is_there(draft, *name);
    let lists: Vec<ListName> = ListName::all().filter(has_room_for_all).collect();
    let name = draft.pick(&lists)?;
    crowd_on(draft, name);
    draft.image = with_links(&draft.image)?;
    Some(())
}

pub fn previous_missing(draft: &mut Draft) -> Option<()> {
    let (id, _) = somebody_behind_the_first(draft)?;
    draft.put(previous(id), 0);
    Some(())
}

pub fn previous_wrong(draft: &mut Draft) -> Option<()> {
    let (id, ids) = somebody_behind_the_first(draft)?;
    put_another(draft, previous(id), &ids)
}

pub fn previous_of_first(draft: &mut Draft) -> Option<()> {
    let (_, ids) = list_of_at_least(draft, 1)?;
    put_another(draft, previous(ids[0]), &ids)
}

/// Somebody absent keeps a link of the time on a list.
pub fn off_lists(draft: &mut Draft, half: Half) -> Option<()> {
    let nowhere = standing_nowhere(draft);
    let id = draft.pick(&nowhere)?;
    let created = draft.created();
    put_another(draft, half.link(id), &created)
}
