//! Requests about timers that matter where the table stands: calls 19 and 20 (01, Calls).

use super::scene::{request, Scene};
use super::spans;
use crate::calls::number::*;
use crate::table::{Action, Request, HIGHEST_WORD, KIND_NOTHING, KIND_POST, KIND_SET_FLAGS, TIMERS};

pub fn pick(scene: &mut Scene) -> Request {
    let running = scene.running_timers();
    let stop_share = if running.len() > 4 { 35 } else { 15 };
    if scene.random.percent(stop_share) {
        return stop(scene);
    }
    let id = match scene.random.any(&running) {
        Some(id) if scene.random.percent(30) => id,
        _ => scene.random.below(TIMERS as u32) as usize,
    };
    let period = match scene.random.any(&waking_timers(scene)) {
        Some(other) if scene.random.percent(scene.mood.tied) => scene.table.timers[other].left,
        _ => spans::ticks(scene),
    };
    let (action, mask) = action(scene);
    // Too many that repeat would keep every semaphore full and every flag set.
    let repeat = u32::from(scene.random.percent(if action == KIND_NOTHING { 50 } else { 20 }));
    request(START_TIMER, id, &[period, repeat, action, mask])
}

/// The running timers that will wake somebody as things stand: another that expires with one of them shows the order.
fn waking_timers(scene: &Scene) -> Vec<usize> {
    let table = scene.table;
    let wakes = |id: &usize| match table.timers[*id].action {
        Action::Nothing => false,
        Action::Post { semaphore } => !table.semaphores[semaphore].waiters.is_empty(),
        Action::SetFlags { flags, .. } => !table.flags[flags].waiters.is_empty(),
    };
    scene.running_timers().into_iter().filter(wakes).collect()
}

fn stop(scene: &mut Scene) -> Request {
    let running = scene.running_timers();
    let id = match scene.random.any(&running) {
        Some(id) if scene.random.percent(70) => id,
        _ => scene.random.below(TIMERS as u32) as usize,
    };
    request(STOP_TIMER, id, &[])
}

/// The numbers c and d: a post where threads wait or where it is lost, a set that wakes, or nothing.
fn action(scene: &mut Scene) -> (u32, u32) {
    match scene.random.below(9) {
        0..=3 => post(scene).unwrap_or((KIND_NOTHING, 0)),
        4..=7 => set(scene).unwrap_or((KIND_NOTHING, 0)),
        _ => (KIND_NOTHING, 0),
    }
}

fn post(scene: &mut Scene) -> Option<(u32, u32)> {
    let created = scene.created_semaphores();
    let awaited = scene.semaphores(|semaphore| !semaphore.waiters.is_empty());
    let full = scene.semaphores(|semaphore| semaphore.count == semaphore.maximum);
    let id = match scene.random.below(10) {
        0..=7 => scene.first_of(&[awaited, created]),
        8 => scene.first_of(&[full, created]),
        _ => scene.first_of(&[created]),
    }?;
    Some((KIND_POST + 256 * id as u32, 0))
}

fn set(scene: &mut Scene) -> Option<(u32, u32)> {
    let created = scene.created_flags();
    let awaited = scene.flags(|flags| !flags.waiters.is_empty());
    let id = match scene.random.below(4) {
        0..=2 => scene.first_of(&[awaited, created]),
        _ => scene.first_of(&[created]),
    }?;
    let masks = scene.table.flags[id]
        .waiters
        .iter()
        .map(|thread| scene.table.threads[*thread].wait_mask);
    let masks: Vec<u32> = masks.collect();
    let mask = match scene.random.below(6) {
        0..=1 => scene.random.any(&masks),
        2 => masks.iter().copied().reduce(|all, mask| all | mask),
        3 if scene.random.once_in(4) => Some(HIGHEST_WORD),
        _ => None,
    };
    let mask = mask.unwrap_or_else(|| scene.mask());
    Some((KIND_SET_FLAGS + 256 * id as u32, mask))
}
