//! The table, a request to it and the report on a request: the shapes alone (01, The table; 01, Answers).
//! Ids and priorities are `usize` because they pick a place; every other number is `u32`, wide enough for its range.
//! A list is a vector of thread ids, head first.

pub const THREADS: usize = 16;
pub const PRIORITIES: usize = 8;
pub const SEMAPHORES: usize = 8;
pub const MUTEXES: usize = 4;
pub const FLAG_OBJECTS: usize = 4;
pub const TIMERS: usize = 8;

pub const HIGHEST_QUANTUM: u32 = 65_535;
pub const HIGHEST_MAXIMUM: u32 = 65_535;
pub const HIGHEST_DEPTH: u32 = 255;
/// The highest flag word, and the highest mask.
pub const HIGHEST_WORD: u32 = 65_535;
pub const HIGHEST_MODE: u32 = 3;

/// How "none chosen" is written in a report.
pub const NONE_CHOSEN: u32 = 255;

pub const RESULT_NONE: u32 = 0;
pub const RESULT_DONE: u32 = 1;
pub const RESULT_TIMED_OUT: u32 = 2;

pub const MODE_ANY_SET: u32 = 0;
pub const MODE_ALL_SET: u32 = 1;
pub const MODE_ANY_CLEAR: u32 = 2;
pub const MODE_ALL_CLEAR: u32 = 3;

pub const KIND_NOTHING: u32 = 0;
pub const KIND_POST: u32 = 1;
pub const KIND_SET_FLAGS: u32 = 2;

/// How many numbers a request has, and how many a report.
pub const REQUEST_NUMBERS: usize = 6;
pub const REPORT_NUMBERS: usize = 5;

/// One call with its fields. In a replay file `call` and `id` are bytes; elsewhere they may be any number.
#[derive(Clone, Copy, PartialEq, Eq, Debug, Default)]
pub struct Request {
    pub call: u32,
    pub id: u32,
    pub a: u32,
    pub b: u32,
    pub c: u32,
    pub d: u32,
}

impl Request {
    pub fn of_numbers([call, id, a, b, c, d]: [u32; REQUEST_NUMBERS]) -> Request {
        Request { call, id, a, b, c, d }
    }

    pub fn numbers(&self) -> [u32; REQUEST_NUMBERS] {
        [self.call, self.id, self.a, self.b, self.c, self.d]
    }
}

/// What a call gives beside the next table.
#[derive(Clone, Copy, PartialEq, Eq, Debug, Default)]
pub struct Report {
    pub answer: u32,
    /// A thread's id, or `NONE_CHOSEN`.
    pub chosen: u32,
    pub clock: u32,
    pub wake_ups: u32,
    pub next_wake_up: u32,
}

impl Report {
    pub fn numbers(&self) -> [u32; REPORT_NUMBERS] {
        [self.answer, self.chosen, self.clock, self.wake_ups, self.next_wake_up]
    }
}

/// An absent thread is `Thread::default()`: all zero.
#[derive(Clone, Copy, PartialEq, Eq, Debug, Default)]
pub struct Thread {
    pub created: bool,
    pub base_priority: usize,
    pub current_priority: usize,
    pub quantum: u32,
    pub quantum_left: u32,
    /// Ticks left of a wait or a sleep; 0 is no limit.
    pub limit_left: u32,
    pub result: u32,
    pub wait_mask: u32,
    pub wait_mode: u32,
    pub delivered: u32,
}

#[derive(Clone, PartialEq, Eq, Debug, Default)]
pub struct Semaphore {
    pub created: bool,
    pub count: u32,
    pub maximum: u32,
    pub waiters: Vec<usize>,
}

#[derive(Clone, PartialEq, Eq, Debug, Default)]
pub struct Mutex {
    pub created: bool,
    /// None exactly if the depth is 0.
    pub owner: Option<usize>,
    pub depth: u32,
    pub waiters: Vec<usize>,
}

#[derive(Clone, PartialEq, Eq, Debug, Default)]
pub struct Flags {
    pub created: bool,
    pub word: u32,
    pub waiters: Vec<usize>,
}

/// What a timer does at its expiry.
#[derive(Clone, Copy, PartialEq, Eq, Debug, Default)]
pub enum Action {
    #[default]
    Nothing,
    Post {
        semaphore: usize,
    },
    SetFlags {
        flags: usize,
        mask: u32,
    },
}

/// A timer that was never started is `Timer::default()`; one with `left` above 0 is running.
#[derive(Clone, Copy, PartialEq, Eq, Debug, Default)]
pub struct Timer {
    pub period: u32,
    pub left: u32,
    pub repeat: bool,
    pub action: Action,
    pub expiry_count: u32,
}

#[derive(Clone, PartialEq, Eq, Debug)]
pub struct Table {
    pub clock: u32,
    pub scheduling_on: bool,
    pub chosen: Option<usize>,
    pub threads: [Thread; THREADS],
    pub semaphores: [Semaphore; SEMAPHORES],
    pub mutexes: [Mutex; MUTEXES],
    pub flags: [Flags; FLAG_OBJECTS],
    pub timers: [Timer; TIMERS],
    /// One list per priority, 7 the highest.
    pub ready: [Vec<usize>; PRIORITIES],
    pub sleep: Vec<usize>,
    pub stopped: Vec<usize>,
}

/// The name of a list in the table.
#[derive(Clone, Copy, PartialEq, Eq, Debug)]
pub enum ListName {
    Ready(usize),
    Sleep,
    Stopped,
    SemaphoreWait(usize),
    MutexWait(usize),
    FlagsWait(usize),
}

impl ListName {
    /// All lists of a table.
    pub fn all() -> impl Iterator<Item = ListName> {
        (0..PRIORITIES)
            .map(ListName::Ready)
            .chain([ListName::Sleep, ListName::Stopped])
            .chain((0..SEMAPHORES).map(ListName::SemaphoreWait))
            .chain((0..MUTEXES).map(ListName::MutexWait))
            .chain((0..FLAG_OBJECTS).map(ListName::FlagsWait))
    }

    /// The lists in which a thread waits; sleep and stopped are none of them.
    pub fn is_wait_list(self) -> bool {
        matches!(
            self,
            ListName::SemaphoreWait(_) | ListName::MutexWait(_) | ListName::FlagsWait(_)
        )
    }
}

impl Table {
    pub fn fresh() -> Table {
        Table {
            clock: 0,
            scheduling_on: true,
            chosen: None,
            threads: Default::default(),
            semaphores: Default::default(),
            mutexes: Default::default(),
            flags: Default::default(),
            timers: Default::default(),
            ready: Default::default(),
            sleep: Vec::new(),
            stopped: Vec::new(),
        }
    }

    pub fn list(&self, name: ListName) -> &Vec<usize> {
        match name {
            ListName::Ready(priority) => &self.ready[priority],
            ListName::Sleep => &self.sleep,
            ListName::Stopped => &self.stopped,
            ListName::SemaphoreWait(id) => &self.semaphores[id].waiters,
            ListName::MutexWait(id) => &self.mutexes[id].waiters,
            ListName::FlagsWait(id) => &self.flags[id].waiters,
        }
    }

    pub fn list_mut(&mut self, name: ListName) -> &mut Vec<usize> {
        match name {
            ListName::Ready(priority) => &mut self.ready[priority],
            ListName::Sleep => &mut self.sleep,
            ListName::Stopped => &mut self.stopped,
            ListName::SemaphoreWait(id) => &mut self.semaphores[id].waiters,
            ListName::MutexWait(id) => &mut self.mutexes[id].waiters,
            ListName::FlagsWait(id) => &mut self.flags[id].waiters,
        }
    }

    /// The list that holds this thread; None for an absent one.
    pub fn list_of(&self, thread: usize) -> Option<ListName> {
        ListName::all().find(|name| self.list(*name).contains(&thread))
    }

    pub fn is_ready(&self, thread: usize) -> bool {
        matches!(self.list_of(thread), Some(ListName::Ready(_)))
    }

    pub fn is_stopped(&self, thread: usize) -> bool {
        self.list_of(thread) == Some(ListName::Stopped)
    }

    pub fn is_asleep(&self, thread: usize) -> bool {
        self.list_of(thread) == Some(ListName::Sleep)
    }

    pub fn is_waiting(&self, thread: usize) -> bool {
        self.list_of(thread).map_or(false, ListName::is_wait_list)
    }

    pub fn owns_a_mutex(&self, thread: usize) -> bool {
        self.mutexes.iter().any(|mutex| mutex.owner == Some(thread))
    }
}
