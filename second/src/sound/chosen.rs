//! Scheduling and the chosen thread (01, soundness, parts 1, 15 and 16). A chosen that is no thread's id breaks its
//! range alone, and a scheduling that is neither on nor off leaves nothing to demand of the choice.

use super::found::Found;
use super::places::Places;
use super::Clause;
use crate::image::layout::{self, NONE_CHOSEN, SCHEDULING_OFF, SCHEDULING_ON};
use crate::table::{ListName, PRIORITIES, THREADS};

pub fn check(image: &[u8], places: &Places, found: &mut Found) {
    let scheduling = image[layout::SCHEDULING];
    let chosen = image[layout::CHOSEN];
    let is_thread = usize::from(chosen) < THREADS;
    found.note(
        Clause::SchedulingRange,
        scheduling != SCHEDULING_ON && scheduling != SCHEDULING_OFF,
    );
    found.note(Clause::ChosenRange, !is_thread && chosen != NONE_CHOSEN);
    if scheduling == SCHEDULING_ON {
        let highest = highest_ready(image);
        found.note(Clause::OnNoneThoughReady, !highest.is_empty() && chosen == NONE_CHOSEN);
        found.note(Clause::OnChosenThoughNoneReady, highest.is_empty() && is_thread);
        if is_thread && !highest.is_empty() && highest[0] != chosen {
            let ready = places.thread(usize::from(chosen)).ready;
            let in_highest = highest.contains(&chosen);
            found.note(Clause::OnChosenInLowerList, ready && !in_highest);
            found.note(Clause::OnChosenBehindHead, in_highest);
            found.note(Clause::OnChosenNotReady, !ready);
        }
    }
    if scheduling == SCHEDULING_OFF {
        found.note(
            Clause::OffChosenNotReady,
            is_thread && !places.thread(usize::from(chosen)).ready,
        );
    }
}

/// The ids of the highest ready list that isn't empty; none where all eight are.
fn highest_ready(image: &[u8]) -> &[u8] {
    (0..PRIORITIES)
        .rev()
        .map(|priority| layout::ids(image, ListName::Ready(priority)))
        .find(|ids| !ids.is_empty())
        .unwrap_or(&[])
}
