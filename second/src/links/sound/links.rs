//! The links (IMAGE.md, when the links are right). A number above sixteen breaks its range alone: everything else here
//! takes it for a link to nobody. So nothing else is broken where only the range is.

use super::Clause;
use crate::image::layout::PLACES;
use crate::links::layout::{self, first, last, named_by, next, previous, HIGHEST_LINK, LISTS};
use crate::sound::Found;
use crate::table::THREADS;

pub fn check(image: &[u8], found: &mut Found<Clause>) {
    ranges(image, found);
    let lists: Vec<Vec<usize>> = (0..LISTS).map(|list| layout::ids(image, list)).collect();
    read_once(&lists, found);
    for (list, ids) in lists.iter().enumerate() {
        previous_of_each(image, ids, found);
        next_of_the_last(image, ids, found);
        last_of_the_list(named_by(image[last(list)]), ids.last().copied(), found);
    }
    for id in (0..THREADS).filter(|id| !lists.iter().any(|ids| ids.contains(id))) {
        found.note(Clause::NextOffLists, named_by(image[next(id)]).is_some());
        found.note(Clause::PreviousOffLists, named_by(image[previous(id)]).is_some());
    }
}

fn ranges(image: &[u8], found: &mut Found<Clause>) {
    let above = |at: usize| image[at] > HIGHEST_LINK;
    found.note(Clause::NextRange, (0..THREADS).map(next).any(above));
    found.note(Clause::FirstRange, (0..LISTS).map(first).any(above));
    found.note(Clause::PreviousRange, (0..THREADS).map(previous).any(above));
    found.note(Clause::LastRange, (0..LISTS).map(last).any(above));
}

fn read_once(lists: &[Vec<usize>], found: &mut Found<Clause>) {
    for (list, ids) in lists.iter().enumerate() {
        for (place, id) in ids.iter().enumerate() {
            found.note(Clause::ReadTwiceOnOneList, ids[..place].contains(id));
            found.note(
                Clause::ReadOnTwoLists,
                lists[..list].iter().any(|other| other.contains(id)),
            );
        }
    }
}

/// At each reading of a thread, also where it is read twice.
fn previous_of_each(image: &[u8], ids: &[usize], found: &mut Found<Clause>) {
    let mut before = None;
    for id in ids {
        let named = named_by(image[previous(*id)]);
        match before {
            None => found.note(Clause::PreviousOfFirst, named.is_some()),
            Some(_) => {
                found.note(Clause::PreviousMissing, named.is_none());
                found.note(Clause::PreviousWrong, named.is_some() && named != before);
            }
        }
        before = Some(*id);
    }
}

/// Only the sixteenth can have one: reading goes on as long as it may.
fn next_of_the_last(image: &[u8], ids: &[usize], found: &mut Found<Clause>) {
    if let Some(sixteenth) = ids.get(PLACES - 1) {
        found.note(Clause::NextBehindLast, named_by(image[next(*sixteenth)]).is_some());
    }
}

fn last_of_the_list(named: Option<usize>, read_last: Option<usize>, found: &mut Found<Clause>) {
    match read_last {
        None => found.note(Clause::LastOfEmpty, named.is_some()),
        Some(_) => {
            found.note(Clause::LastMissing, named.is_none());
            found.note(Clause::LastWrong, named.is_some() && named != read_last);
        }
    }
}
