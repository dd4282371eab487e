//! The table as bytes (IMAGE.md): writing, reading, and a whole call on an image. An image of another length or
//! one that isn't sound is answer 1 and stays as it is, byte for byte (01, The table; 01, Answers).

pub mod layout;

use crate::calls;
use crate::calls::answer;
use crate::sound;
use crate::table::{
    Action, Flags, ListName, Mutex, Report, Request, Semaphore, Table, Thread, Timer, FLAG_OBJECTS, KIND_NOTHING,
    KIND_POST, KIND_SET_FLAGS, MUTEXES, NONE_CHOSEN, SEMAPHORES, THREADS, TIMERS,
};
use layout::{half, put_half, put_word, word};

pub const LENGTH: usize = layout::LENGTH;

/// The report on an image that is refused.
pub const REFUSED: Report = Report {
    answer: answer::NOT_SOUND,
    chosen: NONE_CHOSEN,
    clock: 0,
    wake_ups: 0,
    next_wake_up: 0,
};

pub fn call(image: &mut [u8], request: &Request) -> Report {
    match read(image) {
        None => REFUSED,
        Some(mut table) => {
            let report = calls::call(&mut table, request);
            image.copy_from_slice(&write(&table));
            report
        }
    }
}

/// The table in an image; None where the image is refused.
pub fn read(image: &[u8]) -> Option<Table> {
    if sound::is_sound(image) {
        Some(read_sound(image))
    } else {
        None
    }
}

pub fn write(table: &Table) -> [u8; LENGTH] {
    let mut image = [0; LENGTH];
    put_word(&mut image, layout::CLOCK, table.clock);
    image[layout::SCHEDULING] = if table.scheduling_on {
        layout::SCHEDULING_ON
    } else {
        layout::SCHEDULING_OFF
    };
    image[layout::CHOSEN] = table.chosen.map_or(layout::NONE_CHOSEN, |id| id as u8);
    for (id, thread) in table.threads.iter().enumerate() {
        write_thread(&mut image[layout::thread(id)..], thread);
    }
    for (id, semaphore) in table.semaphores.iter().enumerate() {
        write_semaphore(&mut image[layout::semaphore(id)..], semaphore);
    }
    for (id, mutex) in table.mutexes.iter().enumerate() {
        write_mutex(&mut image[layout::mutex(id)..], mutex);
    }
    for (id, flags) in table.flags.iter().enumerate() {
        write_flags(&mut image[layout::flags(id)..], flags);
    }
    for (id, timer) in table.timers.iter().enumerate() {
        write_timer(&mut image[layout::timer(id)..], timer);
    }
    for name in ListName::all() {
        write_list(&mut image, name, table.list(name));
    }
    image
}

fn read_sound(image: &[u8]) -> Table {
    let mut table = Table::fresh();
    table.clock = word(image, layout::CLOCK);
    table.scheduling_on = image[layout::SCHEDULING] == layout::SCHEDULING_ON;
    table.chosen = match image[layout::CHOSEN] {
        layout::NONE_CHOSEN => None,
        id => Some(usize::from(id)),
    };
    for id in 0..THREADS {
        table.threads[id] = read_thread(&image[layout::thread(id)..]);
    }
    for id in 0..SEMAPHORES {
        table.semaphores[id] = read_semaphore(&image[layout::semaphore(id)..]);
    }
    for id in 0..MUTEXES {
        table.mutexes[id] = read_mutex(&image[layout::mutex(id)..]);
    }
    for id in 0..FLAG_OBJECTS {
        table.flags[id] = read_flags(&image[layout::flags(id)..]);
    }
    for id in 0..TIMERS {
        table.timers[id] = read_timer(&image[layout::timer(id)..]);
    }
    for name in ListName::all() {
        *table.list_mut(name) = layout::ids(image, name).iter().map(|id| usize::from(*id)).collect();
    }
    table
}

fn write_thread(bytes: &mut [u8], thread: &Thread) {
    bytes[layout::CREATED] = u8::from(thread.created);
    bytes[layout::THREAD_BASE] = thread.base_priority as u8;
    bytes[layout::THREAD_CURRENT] = thread.current_priority as u8;
    put_half(bytes, layout::THREAD_QUANTUM, thread.quantum);
    put_half(bytes, layout::THREAD_QUANTUM_LEFT, thread.quantum_left);
    put_word(bytes, layout::THREAD_LIMIT, thread.limit_left);
    bytes[layout::THREAD_RESULT] = thread.result as u8;
    put_half(bytes, layout::THREAD_MASK, thread.wait_mask);
    bytes[layout::THREAD_MODE] = thread.wait_mode as u8;
    put_half(bytes, layout::THREAD_DELIVERED, thread.delivered);
}

fn read_thread(bytes: &[u8]) -> Thread {
    Thread {
        created: bytes[layout::CREATED] == 1,
        base_priority: usize::from(bytes[layout::THREAD_BASE]),
        current_priority: usize::from(bytes[layout::THREAD_CURRENT]),
        quantum: half(bytes, layout::THREAD_QUANTUM),
        quantum_left: half(bytes, layout::THREAD_QUANTUM_LEFT),
        limit_left: word(bytes, layout::THREAD_LIMIT),
        result: u32::from(bytes[layout::THREAD_RESULT]),
        wait_mask: half(bytes, layout::THREAD_MASK),
        wait_mode: u32::from(bytes[layout::THREAD_MODE]),
        delivered: half(bytes, layout::THREAD_DELIVERED),
    }
}

fn write_semaphore(bytes: &mut [u8], semaphore: &Semaphore) {
    bytes[layout::CREATED] = u8::from(semaphore.created);
    put_half(bytes, layout::SEMAPHORE_COUNT, semaphore.count);
    put_half(bytes, layout::SEMAPHORE_MAXIMUM, semaphore.maximum);
}

fn read_semaphore(bytes: &[u8]) -> Semaphore {
    Semaphore {
        created: bytes[layout::CREATED] == 1,
        count: half(bytes, layout::SEMAPHORE_COUNT),
        maximum: half(bytes, layout::SEMAPHORE_MAXIMUM),
        waiters: Vec::new(),
    }
}

fn write_mutex(bytes: &mut [u8], mutex: &Mutex) {
    bytes[layout::CREATED] = u8::from(mutex.created);
    bytes[layout::MUTEX_OWNER] = mutex.owner.map_or(0, |id| id as u8);
    bytes[layout::MUTEX_DEPTH] = mutex.depth as u8;
}

fn read_mutex(bytes: &[u8]) -> Mutex {
    let depth = u32::from(bytes[layout::MUTEX_DEPTH]);
    let owner = usize::from(bytes[layout::MUTEX_OWNER]);
    Mutex {
        created: bytes[layout::CREATED] == 1,
        owner: if depth == 0 { None } else { Some(owner) },
        depth,
        waiters: Vec::new(),
    }
}

fn write_flags(bytes: &mut [u8], flags: &Flags) {
    bytes[layout::CREATED] = u8::from(flags.created);
    put_half(bytes, layout::FLAGS_WORD, flags.word);
}

fn read_flags(bytes: &[u8]) -> Flags {
    Flags {
        created: bytes[layout::CREATED] == 1,
        word: half(bytes, layout::FLAGS_WORD),
        waiters: Vec::new(),
    }
}

fn write_timer(bytes: &mut [u8], timer: &Timer) {
    let (kind, object, mask) = match timer.action {
        Action::Nothing => (KIND_NOTHING, 0, 0),
        Action::Post { semaphore } => (KIND_POST, semaphore, 0),
        Action::SetFlags { flags, mask } => (KIND_SET_FLAGS, flags, mask),
    };
    put_word(bytes, layout::TIMER_PERIOD, timer.period);
    put_word(bytes, layout::TIMER_LEFT, timer.left);
    bytes[layout::TIMER_REPEAT] = u8::from(timer.repeat);
    bytes[layout::TIMER_KIND] = kind as u8;
    bytes[layout::TIMER_OBJECT] = object as u8;
    put_half(bytes, layout::TIMER_MASK, mask);
    put_word(bytes, layout::TIMER_COUNT, timer.expiry_count);
}

fn read_timer(bytes: &[u8]) -> Timer {
    let object = usize::from(bytes[layout::TIMER_OBJECT]);
    let action = match u32::from(bytes[layout::TIMER_KIND]) {
        KIND_POST => Action::Post { semaphore: object },
        KIND_SET_FLAGS => Action::SetFlags {
            flags: object,
            mask: half(bytes, layout::TIMER_MASK),
        },
        _ => Action::Nothing,
    };
    Timer {
        period: word(bytes, layout::TIMER_PERIOD),
        left: word(bytes, layout::TIMER_LEFT),
        repeat: bytes[layout::TIMER_REPEAT] == 1,
        action,
        expiry_count: word(bytes, layout::TIMER_COUNT),
    }
}

pub(crate) fn write_list(image: &mut [u8], name: ListName, list: &[usize]) {
    image[layout::list_length(name)] = list.len() as u8;
    for (place, id) in list.iter().enumerate() {
        image[layout::list_ids(name) + place] = *id as u8;
    }
}
