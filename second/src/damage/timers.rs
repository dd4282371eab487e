//! Damage to the timers (01, soundness, parts 1 and 9; the rules of call 19).

use super::draft::Draft;
use crate::image::layout::{
    self, TIMER_COUNT, TIMER_KIND, TIMER_LEFT, TIMER_MASK, TIMER_OBJECT, TIMER_PERIOD, TIMER_REPEAT,
};
use crate::sound::Clause;
use crate::table::{FLAG_OBJECTS, SEMAPHORES};

pub fn damage(clause: Clause, draft: &mut Draft) -> Option<()> {
    match clause {
        Clause::RepeatRange => repeat_range(draft),
        Clause::LeftAbovePeriod => left_above_period(draft),
        Clause::PeriodZeroNotZero => period_zero_not_zero(draft),
        Clause::KindRange => kind_range(draft),
        Clause::NothingWithObject => nothing_with_object(draft),
        Clause::NothingWithMask => nothing_with_mask(draft),
        Clause::PostObjectRange => post_object_range(draft),
        Clause::PostObjectAbsent => post(draft, false, false),
        Clause::PostWithMask => post(draft, true, true),
        Clause::SetObjectRange => set_object_range(draft),
        Clause::SetObjectAbsent => set(draft, false, true),
        Clause::SetMaskZero => set(draft, true, false),
        _ => None,
    }
}

fn repeat_range(draft: &mut Draft) -> Option<()> {
    let at = draft.pick(&draft.timers(true))?;
    let repeat = draft.number(2, 255);
    draft.put(at + TIMER_REPEAT, repeat);
    Some(())
}

fn left_above_period(draft: &mut Draft) -> Option<()> {
    let at = draft.pick(&draft.timers(true))?;
    let period = draft.word(at + TIMER_PERIOD);
    let left = draft.word(at + TIMER_LEFT);
    if left >= 2 && (draft.coin() || period == u32::MAX) {
        let period = draft.number(1, left - 1);
        draft.put_word(at + TIMER_PERIOD, period);
    } else if period < u32::MAX {
        let left = draft.number(period + 1, u32::MAX);
        draft.put_word(at + TIMER_LEFT, left);
    } else {
        return None;
    }
    Some(())
}

/// A field of a timer never started, or the period of one that was.
fn period_zero_not_zero(draft: &mut Draft) -> Option<()> {
    let at = match draft.pick(&draft.timers(false)) {
        Some(at) => at,
        None => return period_taken_away(draft),
    };
    let number = draft.number(1, 65_535);
    match draft.between(0, 8) {
        0 => draft.put_word(at + TIMER_LEFT, number),
        1 | 2 => draft.put(at + TIMER_REPEAT, 1),
        3 => draft.put(at + TIMER_KIND, 1),
        4 => draft.put(at + TIMER_OBJECT, number.min(7)),
        5 => draft.put_half(at + TIMER_MASK, number),
        6 | 7 => draft.put_word(at + TIMER_COUNT, number),
        _ => return period_taken_away(draft),
    }
    Some(())
}

fn period_taken_away(draft: &mut Draft) -> Option<()> {
    let at = draft.pick(&draft.timers(true))?;
    draft.put_word(at + TIMER_PERIOD, 0);
    if draft.image[at..at + layout::TIMER_BYTES].iter().all(|byte| *byte == 0) {
        draft.put_word(at + TIMER_COUNT, 1);
    }
    Some(())
}

fn put_action(draft: &mut Draft, at: usize, kind: u32, object: u32, mask: u32) -> Option<()> {
    draft.put(at + TIMER_KIND, kind);
    draft.put(at + TIMER_OBJECT, object);
    draft.put_half(at + TIMER_MASK, mask);
    Some(())
}

fn kind_range(draft: &mut Draft) -> Option<()> {
    let at = draft.pick(&draft.timers(true))?;
    let kind = draft.number(3, 255);
    draft.put(at + TIMER_KIND, kind);
    Some(())
}

fn nothing_with_object(draft: &mut Draft) -> Option<()> {
    let at = draft.pick(&draft.timers(true))?;
    let object = draft.number(1, 255);
    put_action(draft, at, 0, object, 0)
}

fn nothing_with_mask(draft: &mut Draft) -> Option<()> {
    let at = draft.pick(&draft.timers(true))?;
    let mask = draft.number(1, 65_535);
    put_action(draft, at, 0, 0, mask)
}

fn post_object_range(draft: &mut Draft) -> Option<()> {
    let at = draft.pick(&draft.timers(true))?;
    let object = draft.number(SEMAPHORES as u32, 255);
    put_action(draft, at, 1, object, 0)
}

fn post(draft: &mut Draft, created: bool, with_mask: bool) -> Option<()> {
    let at = draft.pick(&draft.timers(true))?;
    let object = draft.pick(&draft.semaphores(created))? as u32;
    let mask = if with_mask { draft.number(1, 65_535) } else { 0 };
    put_action(draft, at, 1, object, mask)
}

/// The objects 4 to 7 are semaphores' ids, but no flag object's.
fn set_object_range(draft: &mut Draft) -> Option<()> {
    let at = draft.pick(&draft.timers(true))?;
    let highest = draft.pick(&[SEMAPHORES as u32 - 1, 255])?;
    let object = draft.number(FLAG_OBJECTS as u32, highest);
    let mask = draft.number(1, 65_535);
    put_action(draft, at, 2, object, mask)
}

fn set(draft: &mut Draft, created: bool, with_mask: bool) -> Option<()> {
    let at = draft.pick(&draft.timers(true))?;
    let object = draft.pick(&draft.flag_objects(created))? as u32;
    let mask = if with_mask { draft.number(1, 65_535) } else { 0 };
    put_action(draft, at, 2, object, mask)
}
