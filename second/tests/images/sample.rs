//! A sound table with something in every part of it, made by hand twice: as a table, and as bytes laid out part after
//! part in the order of IMAGE.md.

use second::image::layout::OTHER_LIST_COUNT;
use second::table::{Action, Flags, Mutex, Semaphore, Table, Thread, Timer};

/// A thread's fields in the order of its record.
type ThreadFields = (bool, u8, u8, u16, u16, u32, u8, u16, u8, u16);

const ABSENT: ThreadFields = (false, 0, 0, 0, 0, 0, 0, 0, 0, 0);

/// created, base, current, quantum, left, limit, result, mask, mode, delivered
const THREADS: [ThreadFields; 16] = [
    (true, 4, 4, 0x0201, 0x0102, 0, 1, 0, 0, 0x1110),
    (true, 2, 4, 0xFFFF, 0xFFFF, 0, 2, 0, 0, 0x2221),
    (true, 0, 0, 0, 0, 0, 0, 0, 0, 0xFFFF),
    (true, 7, 7, 1, 1, 0, 1, 0, 0, 0x4443),
    (true, 3, 3, 0x1213, 0x1112, 0x0A0B_0C0D, 0, 0, 0, 0x5554),
    (true, 5, 5, 0x1415, 0x1314, 1, 0, 0, 0, 0x6665),
    (true, 1, 1, 0x1617, 0x1516, 0, 2, 0, 0, 0x7776),
    (true, 6, 6, 0x1819, 0x1718, 0xFFFF_FFFF, 0, 0x8010, 3, 0x8887),
    (true, 6, 6, 0x1A1B, 0x191A, 0x0102_0304, 0, 0, 0, 0x9998),
    (true, 6, 6, 0x1C1D, 0x1B1C, 0, 0, 0, 0, 0xAAA9),
    (true, 1, 5, 0x1E1F, 0x1D1E, 0x0506_0708, 0, 0, 0, 0xBBBA),
    (true, 2, 2, 0x2021, 0x1F20, 0, 0, 0, 0, 0xCCCB),
    (true, 7, 7, 0x2223, 0x2122, 0x090A_0B0C, 0, 0x00F0, 1, 0xDDDC),
    (true, 3, 3, 0x2425, 0x2324, 0, 0, 0x1204, 2, 0xEEED),
    (true, 4, 4, 0x2627, 0x2526, 2, 0, 0xFFFF, 0, 0xFFFE),
    ABSENT,
];

/// created, count, maximum
const SEMAPHORES: [(bool, u16, u16); 8] = [
    (false, 0, 0),
    (true, 3, 5),
    (true, 0, 0x0403),
    (false, 0, 0),
    (true, 0, 1),
    (false, 0, 0),
    (true, 0x0706, 0x0807),
    (true, 0xFFFF, 0xFFFF),
];

/// created, owner, depth
const MUTEXES: [(bool, u8, u8); 4] = [(false, 0, 0), (true, 1, 255), (true, 0, 0), (true, 10, 1)];

/// created, word
const FLAGS: [(bool, u16); 4] = [(true, 0), (false, 0), (true, 0xBEEF), (true, 0x1234)];

/// period, left, repeat, kind, object, mask, expiry count
type TimerFields = (u32, u32, bool, u8, u8, u16, u32);

const UNUSED: TimerFields = (0, 0, false, 0, 0, 0, 0);

const TIMERS: [TimerFields; 8] = [
    UNUSED,
    (0x1122_3344, 0x0102_0304, true, 1, 2, 0, 0xFFFF_FFFE),
    (0x5566_7788, 0, false, 2, 3, 0xA55A, 0x0C0D_0E0F),
    (1, 1, false, 0, 0, 0, 7),
    UNUSED,
    (9, 0, true, 1, 7, 0, 0),
    (0x0102_0304, 0x0102_0303, false, 0, 0, 0, 0xFFFF_FFFF),
    (0xFFFF_FFFF, 0xFFFF_FFFF, true, 2, 0, 1, 0x2122_2324),
];

const READY: [&[u8]; 8] = [&[2], &[], &[], &[], &[0, 1], &[], &[], &[3]];

/// Sleep, stopped, then the wait lists of eight semaphores, four mutexes, four flag objects.
const OTHER_LISTS: [&[u8]; OTHER_LIST_COUNT] = [
    &[5, 4],
    &[6],
    &[],
    &[],
    &[9, 8],
    &[],
    &[],
    &[],
    &[],
    &[],
    &[],
    &[10, 11],
    &[],
    &[],
    &[14],
    &[],
    &[],
    &[12, 7, 13],
];

const CLOCK: u32 = 0xF4F3_F2F1;
const CHOSEN: u8 = 1;

/// Scheduling is off, and the chosen thread isn't the one that scheduling on would choose.
pub fn bytes() -> Vec<u8> {
    let mut bytes = CLOCK.to_le_bytes().to_vec();
    bytes.extend([1, CHOSEN]);
    for (created, base, current, quantum, left, limit, result, mask, mode, delivered) in THREADS {
        bytes.extend([u8::from(created), base, current]);
        bytes.extend(quantum.to_le_bytes());
        bytes.extend(left.to_le_bytes());
        bytes.extend(limit.to_le_bytes());
        bytes.push(result);
        bytes.extend(mask.to_le_bytes());
        bytes.push(mode);
        bytes.extend(delivered.to_le_bytes());
    }
    for (created, count, maximum) in SEMAPHORES {
        bytes.push(u8::from(created));
        bytes.extend(count.to_le_bytes());
        bytes.extend(maximum.to_le_bytes());
    }
    for (created, owner, depth) in MUTEXES {
        bytes.extend([u8::from(created), owner, depth]);
    }
    for (created, word) in FLAGS {
        bytes.push(u8::from(created));
        bytes.extend(word.to_le_bytes());
    }
    extend_with_timers(&mut bytes);
    extend_with_lists(&mut bytes);
    bytes
}

fn extend_with_timers(bytes: &mut Vec<u8>) {
    for (period, left, repeat, kind, object, mask, count) in TIMERS {
        bytes.extend(period.to_le_bytes());
        bytes.extend(left.to_le_bytes());
        bytes.extend([u8::from(repeat), kind, object]);
        bytes.extend(mask.to_le_bytes());
        bytes.extend(count.to_le_bytes());
    }
}

fn extend_with_lists(bytes: &mut Vec<u8>) {
    bytes.extend(READY.map(|ids| ids.len() as u8));
    for ids in READY {
        extend_with_places(bytes, ids);
    }
    for ids in OTHER_LISTS {
        bytes.push(ids.len() as u8);
        extend_with_places(bytes, ids);
    }
}

fn extend_with_places(bytes: &mut Vec<u8>, ids: &[u8]) {
    bytes.extend(ids);
    bytes.extend(vec![0; 16 - ids.len()]);
}

pub fn table() -> Table {
    let mut table = Table::fresh();
    table.clock = CLOCK;
    table.scheduling_on = false;
    table.chosen = Some(usize::from(CHOSEN));
    table.threads = THREADS.map(thread);
    table.semaphores = SEMAPHORES.map(|(created, count, maximum)| Semaphore {
        created,
        count: count.into(),
        maximum: maximum.into(),
        waiters: Vec::new(),
    });
    table.mutexes = MUTEXES.map(|(created, owner, depth)| Mutex {
        created,
        owner: if depth == 0 { None } else { Some(owner.into()) },
        depth: depth.into(),
        waiters: Vec::new(),
    });
    table.flags = FLAGS.map(|(created, word)| Flags {
        created,
        word: word.into(),
        waiters: Vec::new(),
    });
    table.timers = TIMERS.map(timer);
    fill_lists(&mut table);
    table
}

fn thread(fields: ThreadFields) -> Thread {
    let (created, base, current, quantum, left, limit, result, mask, mode, delivered) = fields;
    Thread {
        created,
        base_priority: base.into(),
        current_priority: current.into(),
        quantum: quantum.into(),
        quantum_left: left.into(),
        limit_left: limit,
        result: result.into(),
        wait_mask: mask.into(),
        wait_mode: mode.into(),
        delivered: delivered.into(),
    }
}

fn timer(fields: TimerFields) -> Timer {
    let (period, left, repeat, kind, object, mask, expiry_count) = fields;
    let action = match kind {
        0 => Action::Nothing,
        1 => Action::Post {
            semaphore: object.into(),
        },
        _ => Action::SetFlags {
            flags: object.into(),
            mask: mask.into(),
        },
    };
    Timer {
        period,
        left,
        repeat,
        action,
        expiry_count,
    }
}

fn fill_lists(table: &mut Table) {
    let list = |ids: &[u8]| ids.iter().map(|id| usize::from(*id)).collect::<Vec<usize>>();
    table.ready = READY.map(list);
    table.sleep = list(OTHER_LISTS[0]);
    table.stopped = list(OTHER_LISTS[1]);
    for id in 0..8 {
        table.semaphores[id].waiters = list(OTHER_LISTS[2 + id]);
    }
    for id in 0..4 {
        table.mutexes[id].waiters = list(OTHER_LISTS[10 + id]);
        table.flags[id].waiters = list(OTHER_LISTS[14 + id]);
    }
}
