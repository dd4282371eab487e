//! Requests about flag objects that matter where the table stands: calls 15 to 18 (01, Calls; the modes below them).
//! Masks lie near the word: one bit short of a condition, or just enough for it.

use super::scene::{request, Scene};
use super::spans;
use crate::calls::number::*;
use crate::table::{Request, Thread, HIGHEST_WORD, MODE_ALL_SET, MODE_ANY_SET};

pub fn pick(scene: &mut Scene) -> Request {
    if scene.created_flags().is_empty() || scene.random.once_in(15) {
        return create(scene);
    }
    if scene.random.percent(scene.share_of_waits()) {
        wait(scene)
    } else {
        change(scene)
    }
}

fn create(scene: &mut Scene) -> Request {
    let (table, objects) = (scene.table, scene.objects);
    let id = scene.id_to_create(&objects.flags, |id| table.flags[id].created);
    let word = match scene.random.below(4) {
        0 => 0,
        1 => HIGHEST_WORD,
        _ => scene.random.word() & scene.mood.bits,
    };
    request(CREATE_FLAGS, id, &[word])
}

/// The flag objects at which threads wait, more often than the others.
fn busy_flags(scene: &mut Scene) -> usize {
    let created = scene.created_flags();
    let awaited = scene.flags(|flags| !flags.waiters.is_empty());
    match scene.random.any(&awaited) {
        Some(id) if scene.random.percent(60) => id,
        _ => scene.random.of(&created),
    }
}

fn wait(scene: &mut Scene) -> Request {
    let id = busy_flags(scene);
    let word = scene.table.flags[id].word;
    let mode = scene.random.below(4);
    // The bits that count for the mode as they should be, and those that aren't yet.
    let (there, lacking) = if mode == MODE_ANY_SET || mode == MODE_ALL_SET {
        (word, !word & HIGHEST_WORD)
    } else {
        (!word & HIGHEST_WORD, word)
    };
    let usual = scene.mask();
    let mask = match scene.random.below(6) {
        0 if lacking != 0 => scene.bit_of(lacking),
        1 if lacking != 0 => (there & scene.mood.bits) | scene.bit_of(lacking),
        2 if lacking & usual != 0 => lacking & usual,
        3 if there & usual != 0 => there & usual,
        _ => usual,
    };
    let limit = spans::limit(scene);
    request(WAIT, id, &[mask, mode, limit])
}

/// Set or clear: what one waiter lacks, what several lack, all but a bit of it, or anything.
fn change(scene: &mut Scene) -> Request {
    let id = busy_flags(scene);
    let flags = &scene.table.flags[id];
    let waiters: Vec<Thread> = flags
        .waiters
        .iter()
        .map(|thread| scene.table.threads[*thread])
        .collect();
    let (call, mask) = match scene.random.any(&waiters) {
        Some(waiter) if scene.random.percent(70) => wanted(flags.word, &waiter),
        _ => (towards_the_middle(scene, flags.word), scene.mask()),
    };
    let mask = match scene.random.below(6) {
        0 if mask & (mask - 1) != 0 => mask & (mask - 1),
        1 => scene.bit_of(mask),
        2 => mask | waiters.iter().fold(0, |masks, waiter| masks | waiter.wait_mask),
        _ => mask,
    };
    request(call, id, &[mask])
}

/// Set or clear, so that words don't stay full or empty.
fn towards_the_middle(scene: &mut Scene, word: u32) -> u32 {
    let bits = scene.mood.bits;
    match word & bits {
        0 => SET,
        set if set == bits => CLEAR,
        _ => scene.random.of(&[SET, CLEAR]),
    }
}

/// The call and the bits that make a waiter's condition hold.
pub fn wanted(word: u32, waiter: &Thread) -> (u32, u32) {
    if waiter.wait_mode == MODE_ANY_SET || waiter.wait_mode == MODE_ALL_SET {
        (SET, waiter.wait_mask & !word)
    } else {
        (CLEAR, waiter.wait_mask & word)
    }
}
