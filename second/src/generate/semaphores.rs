//! Requests about semaphores that matter where the table stands: calls 9 to 11 (01, Calls).

use super::scene::{request, Scene};
use super::spans;
use crate::calls::number::*;
use crate::table::{Request, HIGHEST_MAXIMUM};

pub fn pick(scene: &mut Scene) -> Request {
    if scene.created_semaphores().is_empty() || scene.random.once_in(12) {
        return create(scene);
    }
    if scene.random.percent(scene.share_of_waits()) {
        pend(scene)
    } else {
        post(scene)
    }
}

/// Small ones that fill up soon, and now and then the largest.
fn create(scene: &mut Scene) -> Request {
    let (table, objects) = (scene.table, scene.objects);
    let id = scene.id_to_create(&objects.semaphores, |id| table.semaphores[id].created);
    let maximum = scene.random.of(&[1, 1, 2, 3, 5, HIGHEST_MAXIMUM]);
    let count = match scene.random.below(6) {
        0 => maximum,
        1 => maximum - 1,
        2 => scene.random.between(0, maximum),
        _ => 0,
    };
    request(CREATE_SEMAPHORE, id, &[count, maximum])
}

/// At count 0 mostly, with waiters or without; elsewhere it brings the count down.
fn pend(scene: &mut Scene) -> Request {
    let created = scene.created_semaphores();
    let awaited = scene.semaphores(|semaphore| !semaphore.waiters.is_empty());
    let empty = scene.semaphores(|semaphore| semaphore.count == 0);
    let id = match scene.random.below(8) {
        0..=1 => scene.first_of(&[awaited, empty]),
        2..=5 => scene.first_of(&[empty]),
        _ => None,
    };
    let id = id.unwrap_or_else(|| scene.random.of(&created));
    let limit = spans::limit(scene);
    request(PEND, id, &[limit])
}

/// Where threads wait, where the count is at its maximum, where there is room, or anywhere.
fn post(scene: &mut Scene) -> Request {
    let created = scene.created_semaphores();
    let awaited = scene.semaphores(|semaphore| !semaphore.waiters.is_empty());
    let full = scene.semaphores(|semaphore| semaphore.count == semaphore.maximum);
    let id = match scene.random.below(8) {
        0..=4 => scene.first_of(&[awaited]),
        5 => scene.first_of(&[full]),
        _ => None,
    };
    let id = id.unwrap_or_else(|| scene.random.of(&created));
    request(POST, id, &[])
}
