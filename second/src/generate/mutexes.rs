//! Requests about mutexes that matter where the table stands: calls 12 to 14 (01, Calls), and what brings owners into
//! every place: ready, waiting, asleep, stopped. A ring of owners that wait without limits would never come loose
//! again, so only few of them are allowed.

use super::scene::{request, Scene};
use super::{spans, threads};
use crate::calls::number::*;
use crate::table::{ListName, Mutex, Request, Table, HIGHEST_DEPTH, MUTEXES};

pub fn pick(scene: &mut Scene) -> Request {
    let none_created = !scene.table.mutexes.iter().any(|mutex| mutex.created);
    if none_created || scene.random.once_in(15) {
        return create(scene);
    }
    if runs_at_full_depth(scene) && scene.random.percent(50) {
        return park_owner(scene);
    }
    match scene.random.weighted(&[46, 28, 18, 8]) {
        0 => claim(scene),
        1 => release(scene),
        2 => park_owner(scene),
        _ => threads::start(scene),
    }
}

/// Others should come to claim what the running thread holds as deep as can be.
fn runs_at_full_depth(scene: &Scene) -> bool {
    let full = |mutex: &Mutex| mutex.depth == HIGHEST_DEPTH && mutex.owner == scene.running();
    scene.table.mutexes.iter().any(full)
}

fn create(scene: &mut Scene) -> Request {
    let (table, objects) = (scene.table, scene.objects);
    let id = scene.id_to_create(&objects.mutexes, |id| table.mutexes[id].created);
    request(CREATE_MUTEX, id, &[])
}

/// One that nobody owns, one of the running thread's own, or one whose owner stands in a place of interest.
fn claim(scene: &mut Scene) -> Request {
    let table = scene.table;
    let running = scene.running();
    let created: Vec<usize> = (0..MUTEXES).filter(|id| table.mutexes[*id].created).collect();
    let unowned = created
        .iter()
        .copied()
        .filter(|id| table.mutexes[*id].owner.is_none())
        .collect();
    let own = scene.mutexes_owned(|owner| running == Some(owner));
    let others = scene.mutexes_owned(|owner| running != Some(owner));
    let waiting = scene.mutexes_owned(|owner| table.is_waiting(owner));
    let resting = scene.mutexes_owned(|owner| table.is_asleep(owner) || table.is_stopped(owner));
    let crowded = scene.mutexes_owned(|owner| running != Some(owner) && in_crowd(table, owner));
    let id = match scene.random.below(12) {
        0..=2 => scene.first_of(&[unowned]),
        3 => scene.first_of(&[own]),
        4..=5 => scene.first_of(&[waiting, others]),
        6..=7 => scene.first_of(&[resting, others]),
        8 => scene.first_of(&[crowded, others]),
        9 => scene.first_of(&[others]),
        _ => None,
    };
    let id = id.unwrap_or_else(|| scene.random.of(&created));
    let limit = spans::limit(scene);
    request(CLAIM, id, &[limit])
}

/// Whether the thread stands in its list with others.
fn in_crowd(table: &Table, thread: usize) -> bool {
    table.list_of(thread).map_or(false, |name| table.list(name).len() > 1)
}

/// A claim that would hang for ever or very long gets a short limit, so that a run doesn't choke; only mutexes 2 and 3
/// may come to hold each other's owners for good.
pub fn keep_loose(scene: &mut Scene, claim: &mut Request) {
    let mutex = claim.id as usize;
    let is_short = (1..=scene.mood.ticks).contains(&claim.a);
    if is_short || mutex >= MUTEXES || scene.table.mutexes[mutex].owner == scene.running() {
        return;
    }
    let may_stay = match way_from(scene.table, mutex) {
        Way::Open => true,
        Way::Running(mutexes) => mutexes.iter().all(|id| *id >= 2) && scene.random.once_in(10),
        Way::Ring => false,
    };
    if !may_stay {
        claim.a = scene.random.between(1, scene.mood.ticks);
    }
}

/// Where one comes to from a mutex to its owner, to the mutex that the owner waits for, and so on.
enum Way {
    /// To an owner that doesn't wait for a mutex, or to a mutex without an owner.
    Open,
    /// To the running thread, over these mutexes.
    Running(Vec<usize>),
    /// Round in a ring that is there already.
    Ring,
}

fn way_from(table: &Table, mutex: usize) -> Way {
    let mut mutexes = vec![mutex];
    while mutexes.len() <= MUTEXES {
        let owner = match table.mutexes[mutexes[mutexes.len() - 1]].owner {
            Some(owner) => owner,
            None => return Way::Open,
        };
        match table.list_of(owner) {
            _ if table.chosen == Some(owner) => return Way::Running(mutexes),
            Some(ListName::MutexWait(next)) => mutexes.push(next),
            _ => return Way::Open,
        }
    }
    Way::Ring
}

/// What the running thread owns, mostly; else a mutex of another.
fn release(scene: &mut Scene) -> Request {
    let running = scene.running();
    let own = scene.mutexes_owned(|owner| running == Some(owner));
    let awaited = own
        .iter()
        .copied()
        .filter(|id| !scene.table.mutexes[*id].waiters.is_empty())
        .collect();
    let id = match scene.random.below(10) {
        0..=4 => scene.first_of(&[awaited, own]),
        5..=8 => scene.first_of(&[own]),
        _ => None,
    };
    let created: Vec<usize> = (0..MUTEXES).filter(|id| scene.table.mutexes[*id].created).collect();
    let id = id.unwrap_or_else(|| scene.random.of(&created));
    request(RELEASE, id, &[])
}

/// The running thread, where it owns something, goes to another place and keeps it.
fn park_owner(scene: &mut Scene) -> Request {
    match scene.running() {
        Some(running) if scene.table.owns_a_mutex(running) => match scene.random.below(4) {
            0 => threads::sleep(scene),
            1 => request(STOP, running, &[]),
            2 => request(SET_PRIORITY, running, &[scene.mood.lowest_priority]),
            _ => super::semaphores::pick(scene),
        },
        _ => threads::start(scene),
    }
}
