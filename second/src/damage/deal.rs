//! The edit that deals all sixteen threads out over a few lists, so that several lists have a middle: who is taken out
//! there has somebody before and somebody behind.

use super::crowd::{choose_anew, empty_all_lists, fill, is_there};
use super::draft::Draft;
use crate::random::Random;
use crate::table::{ListName, THREADS};

const FEWEST_LISTS: u32 = 3;
const MOST_LISTS: u32 = 7;

/// The sound image with its threads dealt out.
pub fn dealt(image: &[u8], random: &mut Random) -> Vec<u8> {
    let mut draft = Draft::of(image, random);
    let names = some_lists(&mut draft);
    let mut hands = vec![Vec::new(); names.len()];
    let mut ids: Vec<usize> = (0..THREADS).collect();
    draft.shuffle(&mut ids);
    for id in ids {
        let hand = draft.between(0, names.len() as u32 - 1) as usize;
        hands[hand].push(id);
    }
    empty_all_lists(&mut draft);
    for (name, mut hand) in names.into_iter().zip(hands).filter(|(_, hand)| !hand.is_empty()) {
        fill(&mut draft, name, &mut hand);
    }
    choose_anew(&mut draft);
    draft.image
}

/// In the order of all lists: the stopped list, which takes up owners of mutexes, comes before the mutexes' own. At times
/// only wait lists, of which there are else few.
fn some_lists(draft: &mut Draft) -> Vec<ListName> {
    let mut there: Vec<(usize, ListName)> = ListName::all()
        .enumerate()
        .filter(|(_, name)| is_there(draft, *name))
        .collect();
    let wait_lists = there.iter().filter(|(_, name)| name.is_wait_list()).count();
    if wait_lists as u32 >= FEWEST_LISTS && draft.coin() {
        there.retain(|(_, name)| name.is_wait_list());
    }
    draft.shuffle(&mut there);
    there.truncate(draft.between(FEWEST_LISTS, MOST_LISTS) as usize);
    there.sort_unstable_by_key(|(place, _)| *place);
    there.into_iter().map(|(_, name)| name).collect()
}
