//! Where the links stand (IMAGE.md, the image with links), and the reading and laying out of one list. Head and records
//! stand where `image::layout` says. A link is a thread's id plus one, and 0 for none.

use crate::image::layout::PLACES;
use crate::table::{FLAG_OBJECTS, MUTEXES, PRIORITIES, SEMAPHORES, THREADS};

/// Behind the records: a next for each thread, a first for each list, a previous for each thread, a last for each list.
pub const LINKS: usize = 478;
pub const LENGTH: usize = LINKS + 2 * (THREADS + LISTS);

/// The ready lists, sleep, stopped, and the wait lists of the objects, numbered as `ListName::all` names them.
pub const LISTS: usize = PRIORITIES + 2 + SEMAPHORES + MUTEXES + FLAG_OBJECTS;

pub const HIGHEST_LINK: u8 = THREADS as u8;

/// One of the two halves of the links, which have one form: a link for each thread, then an end for each list.
#[derive(Clone, Copy, PartialEq, Eq, Debug)]
pub struct Half(usize);

/// Next and first: each list from its front.
pub const FORWARD: Half = Half(LINKS);
/// Previous and last: each list from behind.
pub const BACKWARD: Half = Half(LINKS + THREADS + LISTS);

impl Half {
    pub const BYTES: usize = THREADS + LISTS;

    /// Where the half begins.
    pub fn start(self) -> usize {
        self.0
    }

    /// Where the link of a thread stands to the one who comes after it in this half.
    pub fn link(self, id: usize) -> usize {
        self.0 + id
    }

    /// Where the link of a list stands to the one with whom this half begins.
    pub fn end(self, list: usize) -> usize {
        self.0 + THREADS + list
    }
}

pub fn next(id: usize) -> usize {
    FORWARD.link(id)
}

pub fn first(list: usize) -> usize {
    FORWARD.end(list)
}

pub fn previous(id: usize) -> usize {
    BACKWARD.link(id)
}

pub fn last(list: usize) -> usize {
    BACKWARD.end(list)
}

pub fn link_to(id: usize) -> u8 {
    id as u8 + 1
}

/// Whom a link names. A number above sixteen is no link and names nobody.
pub fn named_by(link: u8) -> Option<usize> {
    if link <= HIGHEST_LINK {
        usize::from(link).checked_sub(1)
    } else {
        None
    }
}

/// The threads of a list from its front, sixteen at most, so that a ring ends too.
pub fn ids(image: &[u8], list: usize) -> Vec<usize> {
    let mut ids = Vec::new();
    let mut at = first(list);
    while let Some(id) = named_by(image[at]) {
        if ids.len() == PLACES {
            break;
        }
        ids.push(id);
        at = next(id);
    }
    ids
}

/// Lays out one list, whose threads stand nowhere yet and are on no other list.
pub fn lay(image: &mut [u8], list: usize, ids: &[usize]) {
    let from_behind: Vec<usize> = ids.iter().rev().copied().collect();
    lay_half(image, FORWARD, list, ids);
    lay_half(image, BACKWARD, list, &from_behind);
}

/// The links of one half for a list with these threads, in the order of that half.
pub fn lay_half(image: &mut [u8], half: Half, list: usize, ids: &[usize]) {
    let mut at = half.end(list);
    for id in ids {
        image[at] = link_to(*id);
        at = half.link(*id);
    }
    image[at] = 0;
}
