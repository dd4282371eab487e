//! Short plans that make several things fall due in one tick, so that the order within the tick shows (01, One tick):
//! two timers that wake, a set that wakes many, a timer at the last moment of a limit, many sleepers, a timer beside a
//! rotation.

use super::profile::Profile;
use super::scene::{request, Scene};
use super::{flags, spans};
use crate::calls::number::*;
use crate::table::{
    ListName, Request, HIGHEST_WORD, KIND_NOTHING, KIND_POST, KIND_SET_FLAGS, MODE_ALL_SET, MODE_ANY_SET, TIMERS,
};
use crate::tick::whose_quantum_counts;

/// The numbers c and d of a timer that is to be started.
type Action = (u32, u32);

pub fn is_due(scene: &mut Scene) -> bool {
    let seldom = match scene.profile {
        Profile::Ties => 8,
        Profile::Timers => 25,
        _ => 120,
    };
    scene.random.once_in(seldom)
}

/// The requests of a plan, in order; none where the table has nothing for it.
pub fn plan(scene: &mut Scene) -> Vec<Request> {
    let plan = match scene.random.below(5) {
        0 => two_timers(scene),
        1 => one_set_for_many(scene),
        2 => last_moment(scene),
        3 => many_sleepers(scene),
        _ => beside_rotation(scene),
    };
    plan.unwrap_or_default()
}

/// What a timer can do to wake this thread: a post or a set, for the first waiter or a flag waiter.
fn waking(scene: &Scene, thread: usize) -> Option<Action> {
    let table = scene.table;
    match table.list_of(thread)? {
        ListName::SemaphoreWait(id) if table.semaphores[id].waiters[0] == thread => {
            Some((KIND_POST + 256 * id as u32, 0))
        }
        ListName::FlagsWait(id) => match flags::wanted(table.flags[id].word, &table.threads[thread]) {
            (SET, mask) => Some((KIND_SET_FLAGS + 256 * id as u32, mask)),
            _ => None,
        },
        _ => None,
    }
}

fn start(scene: &mut Scene, timer: usize, period: u32, (action, mask): Action) -> Request {
    let repeat = u32::from(scene.random.percent(20));
    request(START_TIMER, timer, &[period, repeat, action, mask])
}

/// Just before, to, or just after the tick in which it all falls due.
fn advance(scene: &mut Scene, ticks: u32) -> Request {
    request(ADVANCE, 0, &[spans::near(scene, ticks)])
}

fn some_timer(scene: &mut Scene) -> usize {
    scene.random.below(TIMERS as u32) as usize
}

fn short(scene: &mut Scene) -> u32 {
    scene.random.between(1, scene.mood.ticks.min(100))
}

/// A wait that really waits, and what a timer does to end it.
fn wait_and_end(scene: &mut Scene) -> Option<(Request, Action)> {
    let table = scene.table;
    let limit = spans::limit(scene);
    if scene.random.percent(50) {
        let empty = scene.semaphores(|semaphore| semaphore.count == 0);
        let id = scene.random.any(&empty)?;
        return Some((request(PEND, id, &[limit]), (KIND_POST + 256 * id as u32, 0)));
    }
    let lacking = scene.flags(|flags| flags.word != HIGHEST_WORD);
    let id = scene.random.any(&lacking)?;
    let bit = scene.bit_of(!table.flags[id].word & HIGHEST_WORD);
    let mode = scene.random.of(&[MODE_ANY_SET, MODE_ALL_SET]);
    Some((
        request(WAIT, id, &[bit, mode, limit]),
        (KIND_SET_FLAGS + 256 * id as u32, bit),
    ))
}

/// Two threads wait, and two timers end it in the same tick: the one with the lower id first.
fn two_timers(scene: &mut Scene) -> Option<Vec<Request>> {
    let (one_wait, one_end) = wait_and_end(scene)?;
    let (other_wait, other_end) = wait_and_end(scene)?;
    let ticks = short(scene);
    let timer = some_timer(scene);
    let next = (timer + scene.random.between(1, TIMERS as u32 - 1) as usize) % TIMERS;
    let starts = [
        start(scene, timer, ticks, one_end),
        start(scene, next, ticks, other_end),
    ];
    Some(vec![one_wait, other_wait, starts[0], starts[1], advance(scene, ticks)])
}

/// Several threads wait for bits of one word, and a timer sets them all.
fn one_set_for_many(scene: &mut Scene) -> Option<Vec<Request>> {
    let table = scene.table;
    let lacking = scene.flags(|flags| flags.word != HIGHEST_WORD);
    let id = scene.random.any(&lacking)?;
    let bits = !table.flags[id].word & HIGHEST_WORD;
    let mut plan = Vec::new();
    for _ in 0..scene.random.between(2, 4) {
        let mask = [scene.bit_of(bits), bits, table.flags[id].word | scene.bit_of(bits)];
        let mode = scene.random.of(&[MODE_ANY_SET, MODE_ALL_SET]);
        let limit = spans::limit(scene);
        plan.push(request(WAIT, id, &[scene.random.of(&mask), mode, limit]));
    }
    let ticks = short(scene);
    let timer = some_timer(scene);
    plan.push(start(scene, timer, ticks, (KIND_SET_FLAGS + 256 * id as u32, bits)));
    plan.push(advance(scene, ticks));
    Some(plan)
}

fn last_moment(scene: &mut Scene) -> Option<Vec<Request>> {
    let threads = scene.limited_threads();
    let woken = threads.into_iter().filter_map(|id| Some((id, waking(scene, id)?)));
    let woken: Vec<(usize, Action)> = woken.collect();
    let (thread, action) = scene.random.any(&woken)?;
    let limit = scene.table.threads[thread].limit_left;
    let timer = some_timer(scene);
    Some(vec![start(scene, timer, limit, action), advance(scene, limit)])
}

/// One after another goes to sleep at the same clock; with scheduling off or none ready they are refused.
fn many_sleepers(scene: &mut Scene) -> Option<Vec<Request>> {
    let ticks = short(scene);
    let sleepers = scene.random.between(2, 7) as usize;
    let mut plan = vec![request(SLEEP, 0, &[ticks]); sleepers];
    plan.push(advance(scene, ticks));
    Some(plan)
}

fn beside_rotation(scene: &mut Scene) -> Option<Vec<Request>> {
    let running = whose_quantum_counts(scene.table)?;
    let left = scene.table.threads[running].quantum_left;
    let threads = scene.created_threads();
    let mut actions: Vec<Action> = threads.iter().filter_map(|id| waking(scene, *id)).collect();
    actions.push((KIND_NOTHING, 0));
    let action = scene.random.of(&actions);
    let timer = some_timer(scene);
    Some(vec![start(scene, timer, left, action), advance(scene, left)])
}
