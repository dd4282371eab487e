//! Bad input: good requests with one to three faults in them, and requests of numbers drawn from the edges of their
//! ranges (01, Answers 2 to 4; the ranges under Calls). Some of them stay good, just at an edge.

use super::scene::Scene;
use crate::calls::number::*;
use crate::table::{Request, FLAG_OBJECTS, MUTEXES, SEMAPHORES, THREADS, TIMERS};

/// What a call's number a, b, c or d is.
#[derive(Clone, Copy, PartialEq, Eq)]
enum Field {
    Unused,
    Priority,
    Quantum,
    Ticks,
    Limit,
    Count,
    Maximum,
    Word,
    Mask,
    Mode,
    Switch,
    Action,
    ActionMask,
}

const AROUND_16_BITS: [u32; 9] = [0, 1, 65_534, 65_535, 65_536, 65_537, 131_071, 1 << 31, u32::MAX];
const AROUND_A_BYTE: [u32; 12] = [0, 1, 2, 3, 4, 7, 8, 255, 256, 257, 65_536, u32::MAX];

/// How many ids the call knows; 0 for a call without an id.
fn ids(call: u32) -> u32 {
    let ids = match call {
        CREATE_THREAD | START | STOP | SET_PRIORITY | SET_QUANTUM => THREADS,
        CREATE_SEMAPHORE | PEND | POST => SEMAPHORES,
        CREATE_MUTEX | CLAIM | RELEASE => MUTEXES,
        CREATE_FLAGS | WAIT | SET | CLEAR => FLAG_OBJECTS,
        START_TIMER | STOP_TIMER => TIMERS,
        _ => 0,
    };
    ids as u32
}

fn fields(call: u32) -> [Field; 4] {
    use Field::*;
    match call {
        CREATE_THREAD => [Priority, Quantum, Unused, Unused],
        SLEEP => [Ticks, Unused, Unused, Unused],
        SET_PRIORITY => [Priority, Unused, Unused, Unused],
        SET_QUANTUM => [Quantum, Unused, Unused, Unused],
        CREATE_SEMAPHORE => [Count, Maximum, Unused, Unused],
        PEND | CLAIM | ADVANCE => [Limit, Unused, Unused, Unused],
        CREATE_FLAGS => [Word, Unused, Unused, Unused],
        WAIT => [Mask, Mode, Limit, Unused],
        SET | CLEAR => [Mask, Unused, Unused, Unused],
        START_TIMER => [Ticks, Switch, Action, ActionMask],
        SCHEDULING => [Switch, Unused, Unused, Unused],
        _ => [Unused; 4],
    }
}

/// A number at the edge of the field's range or beyond it.
fn at_the_edge(scene: &mut Scene, field: Field) -> u32 {
    let random = &mut scene.random;
    match field {
        Field::Unused => random.of(&[1, 2, 255, 256, 65_536, 1 << 31, u32::MAX]),
        Field::Priority | Field::Mode | Field::Switch => random.of(&AROUND_A_BYTE),
        Field::Quantum | Field::Count | Field::Maximum | Field::Word | Field::Mask | Field::ActionMask => {
            random.of(&AROUND_16_BITS)
        }
        Field::Ticks | Field::Limit => random.of(&[0, 0, 1, 65_536, u32::MAX]),
        Field::Action => {
            let kind = random.of(&[0, 1, 1, 2, 2, 3, 4, 255]);
            kind + 256 * random.of(&[0, 1, 3, 4, 7, 8, 255, 256, 257, 65_536, 0xFF_FFFF])
        }
    }
}

/// A number well inside the field's range, whatever the table says.
fn inside(scene: &mut Scene, field: Field) -> u32 {
    match field {
        Field::Unused => 0,
        Field::Priority => scene.priority(),
        Field::Quantum => scene.quantum(),
        Field::Ticks | Field::Limit => scene.random.between(1, scene.mood.ticks),
        Field::Count => scene.random.below(3),
        Field::Maximum => scene.random.between(2, 5),
        Field::Word | Field::Mask => scene.mask(),
        Field::Mode => scene.random.below(4),
        Field::Switch => scene.random.below(2),
        Field::Action => scene.random.below(3) + 256 * scene.random.below(4),
        Field::ActionMask => scene.random.below(2) * scene.mood.bits,
    }
}

/// Any call of the list with numbers inside their ranges, without a look at the table; those with the most numbers
/// have the most faults to show and come up more often.
pub fn anything(scene: &mut Scene) -> Request {
    let call = if scene.random.once_in(5) {
        scene
            .random
            .of(&[CREATE_THREAD, CREATE_SEMAPHORE, WAIT, START_TIMER, START_TIMER])
    } else {
        scene.random.between(1, LAST)
    };
    let id = scene.random.below(ids(call).max(1));
    let [a, b, c, d] = fields(call).map(|field| inside(scene, field));
    Request { call, id, a, b, c, d }
}

/// The request with one to three faults.
pub fn spoil(scene: &mut Scene, good: Request) -> Request {
    let mut request = good;
    for _ in 0..scene.random.of(&[1, 1, 2, 2, 3]) {
        match scene.random.weighted(&[8, 30, 62]) {
            0 => request.call = unknown_call(scene),
            1 => request.id = strange_id(scene, request.call),
            _ => spoil_number(scene, &mut request),
        }
    }
    request
}

/// One of the four numbers moves to an edge; a used one mostly, for those have more edges.
fn spoil_number(scene: &mut Scene, request: &mut Request) {
    let fields = fields(request.call);
    let used: Vec<usize> = (0..4).filter(|place| fields[*place] != Field::Unused).collect();
    let place = match scene.random.any(&used) {
        Some(place) if scene.random.percent(75) => place,
        _ => scene.random.below(4) as usize,
    };
    let number = at_the_edge(scene, fields[place]);
    match place {
        0 => request.a = number,
        1 => request.b = number,
        2 => request.c = number,
        _ => request.d = number,
    }
    if request.call == CREATE_SEMAPHORE && scene.random.once_in(4) {
        request.a = request.b.wrapping_add(1);
    }
}

fn unknown_call(scene: &mut Scene) -> u32 {
    if scene.wide && scene.random.percent(50) {
        return beyond_a_byte(scene, LAST);
    }
    match scene.random.below(4) {
        0 => 0,
        1 => LAST + 1,
        2 => 255,
        _ => scene.random.between(LAST + 1, 255),
    }
}

/// Just out of range, far out, or any other of the range: that may be one that isn't created.
fn strange_id(scene: &mut Scene, call: u32) -> u32 {
    let ids = ids(call);
    if scene.wide && scene.random.percent(40) {
        return beyond_a_byte(scene, ids.max(1) - 1);
    }
    match scene.random.below(5) {
        0 => ids.max(1),
        1 => 255,
        2 => scene.random.between(ids, 255),
        _ => scene.random.below(ids.max(2)),
    }
}

/// Numbers whose low byte or low half alone would do.
fn beyond_a_byte(scene: &mut Scene, highest: u32) -> u32 {
    let good = scene.random.between(0, highest);
    scene
        .random
        .of(&[256, 257, 65_536, u32::MAX, 256 + good, 65_536 + good, (1 << 31) + good])
}
