//! Soundness of an image, clause by clause, on the bytes (01, The table, the paragraph on soundness; IMAGE.md).
//! It takes any bytes of any length. Each file below reads some parts of the paragraph, and each of its functions
//! looks at one thing; the parts on threads are asked of created threads, for absent ones are all zero anyway.

mod chosen;
mod clause;
mod found;
mod lists;
mod objects;
mod places;
mod threads;
mod timers;

pub use clause::Clause;
pub(crate) use found::Found;

use crate::image::layout::LENGTH;
use places::Places;

/// The broken clauses, each once, in the paragraph's order; none exactly if the image is sound.
pub fn broken(image: &[u8]) -> Vec<Clause> {
    if image.len() != LENGTH {
        return vec![Clause::ImageLength];
    }
    let places = Places::of(image);
    let mut found = Found::nothing();
    lists::check(image, &mut found);
    threads::check(image, &places, &mut found);
    objects::check(image, &mut found);
    timers::check(image, &mut found);
    chosen::check(image, &places, &mut found);
    found.in_order()
}

pub fn is_sound(image: &[u8]) -> bool {
    broken(image).is_empty()
}
