//! Numbers of ticks: how long to wait or sleep, which period, how far to advance (01, One tick).
//! The interesting ones lie at, just before and just after what is pending. The cost of an advance is held down.

use super::profile::Profile;
use super::scene::Scene;
use crate::calls::LONGEST_PLAIN_ADVANCE;
use crate::table::{Action, Table};
use crate::tick;

/// A span of single ticks that is cheap at any time.
const CHEAP: u32 = 2_000;
/// The wake-ups that an advance may usually have, and those it may have now and then.
pub const USUAL_WAKE_UPS: u64 = 100;
const MOST_WAKE_UPS: u64 = 2_000;

const LONG: [u32; 10] = [
    65_535,
    65_536,
    99_999,
    100_000,
    100_001,
    1_000_000,
    1 << 31,
    u32::MAX - 1,
    u32::MAX,
    u32::MAX,
];

/// Limits: none, or so many ticks.
pub fn limit(scene: &mut Scene) -> u32 {
    if scene.random.percent(35) {
        0
    } else {
        ticks(scene)
    }
}

/// Ticks of a sleep, a limit or a period: at least 1.
pub fn ticks(scene: &mut Scene) -> u32 {
    if scene.random.percent(scene.mood.tied) {
        if let Some(tied) = pending(scene) {
            return near(scene, tied).max(1);
        }
    }
    if scene.random.percent(scene.mood.long) {
        return long(scene);
    }
    scene.random.between(1, scene.mood.ticks)
}

fn long(scene: &mut Scene) -> u32 {
    if scene.random.percent(50) {
        scene.random.of(&LONG)
    } else {
        scene.random.uneven().max(1)
    }
}

/// Mostly the number itself, else one less or one more.
pub fn near(scene: &mut Scene, number: u32) -> u32 {
    match scene.random.below(8) {
        0 => number.saturating_sub(1),
        1 => number.saturating_add(1),
        _ => number,
    }
}

/// How many ticks from now something falls due: a timer, a later expiry of it, a limit or a rotation.
fn pending(scene: &mut Scene) -> Option<u32> {
    let table = scene.table;
    let mut due: Vec<u32> = scene
        .limited_threads()
        .iter()
        .map(|id| table.threads[*id].limit_left)
        .collect();
    for id in scene.running_timers() {
        let timer = &table.timers[id];
        due.push(timer.left);
        if timer.repeat {
            due.push(timer.left.saturating_add(timer.period));
        }
    }
    if let Some(running) = scene.running() {
        due.push(table.threads[running].quantum_left);
    }
    due.retain(|ticks| *ticks > 0);
    scene.random.any(&due)
}

/// How far one would like to advance.
pub fn span(scene: &mut Scene) -> u32 {
    let next = tick::next_wake_up(scene.table);
    match scene.random.below(20) {
        0..=3 => 1,
        4..=6 if next > 0 => next,
        7..=8 if next > 0 => next - 1,
        9..=10 if next > 0 => next.saturating_add(1),
        11..=13 => pending(scene).map_or(1, |ticks| near(scene, ticks)),
        14 => far(scene),
        15 if scene.mood.long > 10 => far(scene),
        16 => scene.random.below(3),
        _ => scene.random.between(1, scene.mood.ticks),
    }
}

/// Around the place where the two advances part, to the end of the clock and over it, and beyond.
fn far(scene: &mut Scene) -> u32 {
    let to_the_top = u32::MAX - scene.table.clock;
    match scene.random.below(10) {
        0..=2 => scene
            .random
            .between(LONGEST_PLAIN_ADVANCE - 1, LONGEST_PLAIN_ADVANCE + 1),
        3 => to_the_top,
        4 => to_the_top.wrapping_add(1),
        5 => to_the_top.saturating_sub(1),
        _ => long(scene),
    }
}

/// The wanted span, or another where that would cost too much: too many wake-ups, or too many single ticks.
pub fn affordable(scene: &mut Scene, wanted: u32) -> u32 {
    let most = if scene.random.once_in(15) {
        MOST_WAKE_UPS
    } else {
        USUAL_WAKE_UPS
    };
    let mut span = wanted;
    while span > 1 && wake_ups_within(scene.table, span) > most {
        span /= 2;
    }
    let seldom = match scene.profile {
        _ if span >= LONGEST_PLAIN_ADVANCE - 1 => 2,
        Profile::Long => 40,
        _ => 8,
    };
    if span <= CHEAP || span > LONGEST_PLAIN_ADVANCE || scene.random.once_in(seldom) {
        return span;
    }
    let longer = span + LONGEST_PLAIN_ADVANCE;
    if scene.profile == Profile::Long && wake_ups_within(scene.table, longer) <= MOST_WAKE_UPS {
        longer
    } else {
        span % CHEAP
    }
}

/// No fewer wake-ups than an advance by so many ticks has, or a few more.
pub fn wake_ups_within(table: &Table, span: u32) -> u64 {
    let timers = table.timers.iter().filter(|timer| timer.left > 0);
    let expiries: u64 = timers
        .map(|timer| {
            if timer.repeat {
                1 + u64::from(span) / u64::from(timer.period)
            } else {
                1
            }
        })
        .sum();
    let limits = table.threads.iter().filter(|thread| thread.limit_left > 0).count() as u64;
    let rotations = least_quantum(table).map_or(0, |quantum| 1 + u64::from(span) / u64::from(quantum));
    expiries + limits + rotations
}

/// The least quantum by which threads may rotate: in the running thread's list, or in any where lists may change.
fn least_quantum(table: &Table) -> Option<u32> {
    if !table.scheduling_on {
        return None;
    }
    let acts = |action: Action| action != Action::Nothing;
    let changes = table.threads.iter().any(|thread| thread.limit_left > 0)
        || table.timers.iter().any(|timer| timer.left > 0 && acts(timer.action));
    let quanta: Vec<u32> = if changes {
        table.threads.iter().map(|thread| thread.quantum).collect()
    } else {
        let running = &table.threads[table.chosen?];
        let list = &table.ready[running.current_priority];
        if list.len() < 2 || running.quantum == 0 {
            return None;
        }
        list.iter().map(|id| table.threads[*id].quantum).collect()
    };
    quanta.into_iter().filter(|quantum| *quantum > 0).min()
}
