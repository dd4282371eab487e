//! Requests about threads that matter where the table stands: calls 1 to 8 (01, Calls).

use super::profile::Profile;
use super::scene::{request, Scene};
use super::spans;
use crate::calls::number::*;
use crate::table::{Request, THREADS};

pub fn pick(scene: &mut Scene) -> Request {
    let exit = if scene.created_threads().len() > scene.mood.threads {
        30
    } else {
        3
    };
    match scene.random.weighted(&[16, 22, 12, exit, 8, 18, 18]) {
        0 => create(scene),
        1 => start(scene),
        2 => stop(scene),
        3 => request(EXIT, 0, &[]),
        4 => request(YIELD, 0, &[]),
        5 => sleep(scene),
        _ => set_priority(scene),
    }
}

/// Round robins: quanta set while they run down, and what makes others take over and come back.
pub fn pick_quanta(scene: &mut Scene) -> Request {
    match scene.random.weighted(&[40, 15, 10, 15, 20]) {
        0 => set_quantum(scene),
        1 => request(YIELD, 0, &[]),
        2 => create(scene),
        3 => start(scene),
        _ => join_running(scene),
    }
}

/// An absent thread where there is one.
pub fn create(scene: &mut Scene) -> Request {
    let absent = scene.absent_threads();
    let id = scene
        .random
        .any(&absent)
        .unwrap_or(scene.random.below(THREADS as u32) as usize);
    let priority = scene.priority();
    let quantum = scene.quantum();
    request(CREATE_THREAD, id, &[priority, quantum])
}

/// A stopped thread where there is one; without one mostly a new thread or a sleep, seldom the wrong state.
pub fn start(scene: &mut Scene) -> Request {
    let stopped = scene.table.stopped.clone();
    match scene.random.any(&stopped) {
        _ if scene.random.once_in(12) => request(START, scene.some_thread(), &[]),
        Some(id) => request(START, id, &[]),
        None if !scene.absent_threads().is_empty() => create(scene),
        None => sleep(scene),
    }
}

/// The running thread, an owner, another ready thread, or one in any place.
fn stop(scene: &mut Scene) -> Request {
    let table = scene.table;
    let ready = scene.ready_threads();
    let owners: Vec<usize> = ready.iter().copied().filter(|id| table.owns_a_mutex(*id)).collect();
    let id = match scene.random.below(8) {
        0..=2 => scene.running(),
        3 => scene.random.any(&owners),
        4..=6 => scene.random.any(&ready),
        _ => None,
    };
    let id = id.unwrap_or_else(|| scene.some_thread());
    request(STOP, id, &[])
}

pub fn sleep(scene: &mut Scene) -> Request {
    let ticks = spans::ticks(scene);
    request(SLEEP, 0, &[ticks])
}

/// Owners, waiters, the running thread or any other; the same priority, a neighbour, or another.
fn set_priority(scene: &mut Scene) -> Request {
    let table = scene.table;
    let created = scene.created_threads();
    let owners: Vec<usize> = created.iter().copied().filter(|id| table.owns_a_mutex(*id)).collect();
    let waiters: Vec<usize> = created.iter().copied().filter(|id| table.is_waiting(*id)).collect();
    let id = match scene.random.below(8) {
        0..=1 => scene.running(),
        2..=3 => scene.random.any(&owners),
        4..=5 => scene.random.any(&waiters),
        _ => None,
    };
    let id = id.unwrap_or_else(|| scene.some_thread());
    let thread = &table.threads[id];
    let priority = match scene.random.below(8) {
        0 => thread.current_priority as u32,
        1 => thread.base_priority as u32,
        2 => thread.current_priority.saturating_sub(1) as u32,
        3 => (thread.current_priority as u32 + 1).min(7),
        _ => scene.priority(),
    };
    request(SET_PRIORITY, id, &[priority])
}

/// Another thread into the running thread's list, so that a rotation has somebody to turn to.
fn join_running(scene: &mut Scene) -> Request {
    let priority = scene
        .running()
        .map(|id| scene.table.threads[id].current_priority as u32);
    let priority = priority.unwrap_or_else(|| scene.priority());
    let id = scene.some_thread();
    request(SET_PRIORITY, id, &[priority])
}

/// The running thread half of the time; 1, what is left, and usual ones.
fn set_quantum(scene: &mut Scene) -> Request {
    let id = match scene.running() {
        Some(id) if scene.random.percent(50) => id,
        _ => scene.some_thread(),
    };
    let quantum = match scene.random.below(8) {
        0 if scene.profile != Profile::Long => 1,
        1 => scene.table.threads[id].quantum_left,
        _ => scene.quantum(),
    };
    request(SET_QUANTUM, id, &[quantum])
}
