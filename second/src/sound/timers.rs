//! The timers (01, soundness, parts 1 and 9): what is left, a timer never started, and the action by the rules of
//! call 19. The rules hold for a stopped timer too.

use super::found::Found;
use super::Clause;
use crate::image::layout::{self, half, word};
use crate::table::{FLAG_OBJECTS, SEMAPHORES, TIMERS};

pub fn check(image: &[u8], found: &mut Found) {
    for id in 0..TIMERS {
        let at = layout::timer(id);
        let timer = &image[at..at + layout::TIMER_BYTES];
        let period = word(timer, layout::TIMER_PERIOD);
        found.note(Clause::RepeatRange, timer[layout::TIMER_REPEAT] > 1);
        found.note(Clause::LeftAbovePeriod, word(timer, layout::TIMER_LEFT) > period);
        found.note(
            Clause::PeriodZeroNotZero,
            period == 0 && timer.iter().any(|byte| *byte != 0),
        );
        action(image, timer, found);
    }
}

fn action(image: &[u8], timer: &[u8], found: &mut Found) {
    let object = usize::from(timer[layout::TIMER_OBJECT]);
    let mask = half(timer, layout::TIMER_MASK);
    match timer[layout::TIMER_KIND] {
        0 => {
            found.note(Clause::NothingWithObject, object != 0);
            found.note(Clause::NothingWithMask, mask != 0);
        }
        1 => {
            let in_range = object < SEMAPHORES;
            found.note(Clause::PostObjectRange, !in_range);
            found.note(
                Clause::PostObjectAbsent,
                in_range && is_absent(image, layout::semaphore(object)),
            );
            found.note(Clause::PostWithMask, mask != 0);
        }
        2 => {
            let in_range = object < FLAG_OBJECTS;
            found.note(Clause::SetObjectRange, !in_range);
            found.note(
                Clause::SetObjectAbsent,
                in_range && is_absent(image, layout::flags(object)),
            );
            found.note(Clause::SetMaskZero, mask == 0);
        }
        _ => found.note(Clause::KindRange, true),
    }
}

fn is_absent(image: &[u8], at: usize) -> bool {
    image[at + layout::CREATED] == 0
}
