//! Damage to the image's length, to scheduling and to the choice (01, soundness, parts 1, 15 and 16).

use super::draft::{Draft, READY};
use crate::image::layout::{CHOSEN, NONE_CHOSEN, SCHEDULING, SCHEDULING_OFF, SCHEDULING_ON};
use crate::sound::Clause;
use crate::table::THREADS;

pub fn damage(clause: Clause, draft: &mut Draft) -> Option<()> {
    match clause {
        Clause::ImageLength => wrong_length(draft),
        Clause::SchedulingRange => scheduling_range(draft),
        Clause::ChosenRange => chosen_range(draft),
        Clause::OnChosenInLowerList => in_lower_list(draft),
        Clause::OnChosenBehindHead => behind_head(draft),
        Clause::OnChosenNotReady => not_ready_while_on(draft),
        Clause::OnNoneThoughReady => none_though_ready(draft),
        Clause::OnChosenThoughNoneReady => chosen_though_none_ready(draft),
        Clause::OffChosenNotReady => not_ready_while_off(draft),
        _ => None,
    }
}

/// Zeros behind the end, where the image grows: a reader that looked no further than an image's end would be content.
pub fn wrong_length(draft: &mut Draft) -> Option<()> {
    let right = draft.image.len();
    let random = draft.between(0, 2_000) as usize;
    let length = draft.pick(&[0, 1, 5, 6, right - 1, right + 1, 2 * right, 4_096, random])?;
    let length = if length == right { right + 1 } else { length };
    draft.image.resize(length, 0);
    Some(())
}

fn scheduling_range(draft: &mut Draft) -> Option<()> {
    let number = draft.number(2, 255);
    draft.put(SCHEDULING, number);
    Some(())
}

fn chosen_range(draft: &mut Draft) -> Option<()> {
    let number = draft.number(16, 254);
    draft.put(CHOSEN, number);
    Some(())
}

fn choose(draft: &mut Draft, scheduling: u8, chosen: usize) -> Option<()> {
    draft.put(SCHEDULING, u32::from(scheduling));
    draft.put(CHOSEN, chosen as u32);
    Some(())
}

fn in_lower_list(draft: &mut Draft) -> Option<()> {
    let highest = draft.highest_ready();
    let mut lower = draft.on_lists_like(READY);
    lower.retain(|id| !highest.contains(id));
    let chosen = draft.pick(&lower)?;
    choose(draft, SCHEDULING_ON, chosen)
}

fn behind_head(draft: &mut Draft) -> Option<()> {
    let highest = draft.highest_ready();
    let chosen = draft.pick(highest.get(1..)?)?;
    choose(draft, SCHEDULING_ON, chosen)
}

fn not_ready(draft: &mut Draft) -> Option<usize> {
    let ready = draft.on_lists_like(READY);
    let others: Vec<usize> = (0..THREADS).filter(|id| !ready.contains(id)).collect();
    draft.pick(&others)
}

fn not_ready_while_on(draft: &mut Draft) -> Option<()> {
    if draft.highest_ready().is_empty() {
        return None;
    }
    let chosen = not_ready(draft)?;
    choose(draft, SCHEDULING_ON, chosen)
}

fn none_though_ready(draft: &mut Draft) -> Option<()> {
    if draft.highest_ready().is_empty() {
        return None;
    }
    choose(draft, SCHEDULING_ON, usize::from(NONE_CHOSEN))
}

fn chosen_though_none_ready(draft: &mut Draft) -> Option<()> {
    if !draft.highest_ready().is_empty() {
        return None;
    }
    let chosen = not_ready(draft)?;
    choose(draft, SCHEDULING_ON, chosen)
}

fn not_ready_while_off(draft: &mut Draft) -> Option<()> {
    let chosen = not_ready(draft)?;
    choose(draft, SCHEDULING_OFF, chosen)
}
