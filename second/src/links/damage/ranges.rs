//! Numbers above sixteen, which are no links.

use crate::damage::draft::Draft;
use crate::links::layout::HIGHEST_LINK;

/// One of these places gets a number above sixteen, mostly one that holds no link: who takes such a number for none
/// finds nothing else wrong there. At times it is the right link and a multiple of sixteen, for who looks at low bits.
pub fn above_sixteen(draft: &mut Draft, places: impl Iterator<Item = usize>) -> Option<()> {
    let all: Vec<usize> = places.collect();
    let none: Vec<usize> = all.iter().copied().filter(|at| draft.image[*at] == 0).collect();
    let at = draft.prefer(&none, &all)?;
    let lowest = u32::from(HIGHEST_LINK) + 1;
    let any = draft.number(lowest, 255);
    let same_low_bits = u32::from(draft.image[at]) + 16 * draft.between(2, 14);
    let number = draft.pick(&[lowest, 255, any, same_low_bits])?;
    draft.put(at, number);
    Some(())
}
