//! A kernel under test: a table that is called, with what every report must say of its table checked at each call,
//! and the calls kept so that a replay file of them can be compared with the calls themselves.

use second::calls::answer::{is_refusal, DONE, WAITS};
use second::calls::number::{ADVANCE, CREATE_THREAD, START};
use second::table::{ListName, Report, Request, Table, NONE_CHOSEN, THREADS};
use second::{calls, replay, tick};

pub struct Kernel {
    pub table: Table,
    pub file: Vec<u8>,
    pub lines: String,
}

/// A request with the fields that are given, the others 0.
pub fn request(call: u32, id: u32, fields: &[u32]) -> Request {
    let field = |place: usize| fields.get(place).copied().unwrap_or(0);
    Request {
        call,
        id,
        a: field(0),
        b: field(1),
        c: field(2),
        d: field(3),
    }
}

/// What a replay of the bytes prints, and the table after it.
pub fn replayed(file: &[u8]) -> (String, Table) {
    let mut input = file;
    let mut output = Vec::new();
    let table = replay::replay(&mut input, &mut output).expect("memory can be read and written");
    (String::from_utf8(output).expect("the lines are text"), table)
}

impl Kernel {
    pub fn fresh() -> Kernel {
        Kernel {
            table: Table::fresh(),
            file: Vec::new(),
            lines: String::new(),
        }
    }

    pub fn ask(&mut self, request: &Request) -> Report {
        let before = self.table.clone();
        let report = calls::call(&mut self.table, request);
        if is_refusal(report.answer) {
            assert_eq!(self.table, before, "{:?} was refused and changed the table", request);
        }
        if is_refusal(report.answer) || request.call != ADVANCE {
            assert_eq!(report.wake_ups, 0, "{:?} reports wake-ups", request);
        }
        assert_eq!(report.chosen, self.table.chosen.map_or(NONE_CHOSEN, |id| id as u32));
        assert_eq!(report.clock, self.table.clock);
        assert_eq!(report.next_wake_up, tick::next_wake_up(&self.table));
        assert_lists_hold(&self.table);
        if request.call < 256 && request.id < 256 {
            self.file.extend_from_slice(&replay::encode(request));
            let line = [report.answer, report.chosen, report.clock, report.wake_ups].map(|number| number.to_string());
            self.lines += &(line.join(" ") + "\n");
        }
        report
    }

    /// Calls, and the answer must be this one.
    pub fn gives(&mut self, answer: u32, call: u32, id: u32, fields: &[u32]) -> Report {
        let report = self.ask(&request(call, id, fields));
        assert_eq!(report.answer, answer, "call {} id {} fields {:?}", call, id, fields);
        report
    }

    pub fn done(&mut self, call: u32, id: u32, fields: &[u32]) -> Report {
        self.gives(DONE, call, id, fields)
    }

    pub fn waits(&mut self, call: u32, id: u32, fields: &[u32]) -> Report {
        self.gives(WAITS, call, id, fields)
    }

    /// Creates a thread and starts it.
    pub fn thread(&mut self, id: u32, priority: u32, quantum: u32) -> Report {
        self.done(CREATE_THREAD, id, &[priority, quantum]);
        self.done(START, id, &[])
    }

    pub fn advance(&mut self, ticks: u32) -> Report {
        self.done(ADVANCE, 0, &[ticks])
    }

    /// All the calls so far as a replay file print the same reports and end in the same table.
    pub fn assert_replayed_alike(&self) {
        assert_eq!(replayed(&self.file), (self.lines.clone(), self.table.clone()));
    }
}

/// Each created thread is on one list, once; with scheduling on the chosen one is the head of the highest list.
fn assert_lists_hold(table: &Table) {
    for thread in 0..THREADS {
        let places: usize = ListName::all()
            .map(|name| table.list(name).iter().filter(|id| **id == thread).count())
            .sum();
        assert_eq!(
            places,
            usize::from(table.threads[thread].created),
            "thread {} in {:?}",
            thread,
            table
        );
    }
    for (priority, list) in table.ready.iter().enumerate() {
        assert!(
            list.iter().all(|id| table.threads[*id].current_priority == priority),
            "{:?}",
            table
        );
    }
    if table.scheduling_on {
        let ready: Vec<usize> = table.ready.iter().rev().flatten().copied().collect();
        assert_eq!(table.chosen, ready.first().copied(), "{:?}", table);
    }
}

/// A small generator of numbers (splitmix64), the same at every run.
pub struct Numbers(pub u64);

impl Numbers {
    fn next(&mut self) -> u64 {
        self.0 = self.0.wrapping_add(0x9E37_79B9_7F4A_7C15);
        let first = (self.0 ^ (self.0 >> 30)).wrapping_mul(0xBF58_476D_1CE4_E5B9);
        let second = (first ^ (first >> 27)).wrapping_mul(0x94D0_49BB_1331_11EB);
        second ^ (second >> 31)
    }

    /// A number from 0 up to, and without, `bound`.
    pub fn below(&mut self, bound: u32) -> u32 {
        (self.next() % u64::from(bound)) as u32
    }
}
