//! Soundness of an image with links, clause by clause, on the bytes (IMAGE.md, the image with links; 01, The table, the
//! paragraph on soundness). It takes any bytes of any length. The links have clauses of their own; all else is asked
//! of the image with rows of the same lists.

mod clause;
mod links;

pub use clause::Clause;

use super::layout::LENGTH;
use super::rows::rows_of;
use crate::sound;
use crate::sound::Found;

/// The broken clauses, each once, those of the links first; none exactly if the image is sound. Where links are wrong,
/// the table is judged that is read off them.
pub fn broken(image: &[u8]) -> Vec<Clause> {
    if image.len() != LENGTH {
        return vec![Clause::ImageLength];
    }
    let mut broken = broken_links(image);
    let of_the_table = sound::broken(&rows_of(image));
    broken.extend(of_the_table.into_iter().filter_map(Clause::of_table));
    broken
}

pub fn is_sound(image: &[u8]) -> bool {
    broken(image).is_empty()
}

/// Whether the links of an image of the right length are those of the lists that they lead through.
pub fn links_are_right(image: &[u8]) -> bool {
    broken_links(image).is_empty()
}

fn broken_links(image: &[u8]) -> Vec<Clause> {
    let mut found = Found::nothing();
    links::check(image, &mut found);
    found.in_order()
}
