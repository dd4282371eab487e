//! Calls 19 and 20: timers (01, Calls). Timers are always there; what they do at expiry is in the tick.

use super::answer::{DONE, OUT_OF_RANGE};
use super::refusals::{created_flags, created_semaphore, timer, unused, within};
use super::Outcome;
use crate::table::{Action, Request, Table, Timer, HIGHEST_WORD, KIND_NOTHING, KIND_POST, KIND_SET_FLAGS};

/// Call 19: `a` is the period, `b` whether it repeats; `c` has the kind in its low byte and the object above it; `d` is
/// the mask.
pub fn start_timer(table: &mut Table, request: &Request) -> Outcome {
    let id = timer(request.id)?;
    let kind = request.c % 256;
    let object = request.c / 256;
    if kind == KIND_POST {
        created_semaphore(table, object)?;
    }
    if kind == KIND_SET_FLAGS {
        created_flags(table, object)?;
    }
    within(request.a, 1, u32::MAX)?;
    within(request.b, 0, 1)?;
    let action = action_within_its_rules(kind, object, request.d)?;

    table.timers[id] = Timer {
        period: request.a,
        left: request.a,
        repeat: request.b == 1,
        action,
        expiry_count: table.timers[id].expiry_count,
    };
    Ok(DONE)
}

/// 4 for an action against its rules; the object is known to be there for kinds 1 and 2.
fn action_within_its_rules(kind: u32, object: u32, mask: u32) -> Result<Action, u32> {
    match kind {
        KIND_NOTHING => {
            unused(&[object, mask])?;
            Ok(Action::Nothing)
        }
        KIND_POST => {
            unused(&[mask])?;
            Ok(Action::Post {
                semaphore: object as usize,
            })
        }
        KIND_SET_FLAGS => {
            within(mask, 1, HIGHEST_WORD)?;
            Ok(Action::SetFlags {
                flags: object as usize,
                mask,
            })
        }
        _ => Err(OUT_OF_RANGE),
    }
}

/// Call 20.
pub fn stop_timer(table: &mut Table, request: &Request) -> Outcome {
    let id = timer(request.id)?;
    unused(&[request.a, request.b, request.c, request.d])?;

    table.timers[id].left = 0;
    Ok(DONE)
}
