//! The jumping advance against the plain one, and the next wake-up against plain ticks, on tables made by hand and on
//! many that come from chance calls. The plain advance is the rule (01, One tick); the other must agree with it.

use super::helpers::{request, Kernel, Numbers};
use second::calls::number::*;
use second::table::{Request, Table};
use second::{calls, jump, tick};

/// Both advances from one table: the same wake-ups and the same table. The number of wake-ups is handed back.
fn assert_alike(table: &Table, ticks: u32) -> u32 {
    let mut plain = table.clone();
    let mut jumping = table.clone();
    let wake_ups = tick::advance(&mut plain, ticks);
    assert_eq!(
        jump::advance(&mut jumping, ticks),
        wake_ups,
        "{} ticks from {:?}",
        ticks,
        table
    );
    assert_eq!(jumping, plain, "{} ticks from {:?}", ticks, table);
    wake_ups
}

/// A request of small numbers, so that things exist, meet, fill up and fall due.
fn chance_request(numbers: &mut Numbers) -> Request {
    let call = 1 + numbers.below(LAST);
    let few = numbers.below(4);
    let span = 1 + numbers.below(40);
    let fields = match call {
        CREATE_THREAD => vec![numbers.below(8), numbers.below(3) * numbers.below(9)],
        SLEEP => vec![span],
        SET_PRIORITY => vec![numbers.below(8)],
        SET_QUANTUM => vec![numbers.below(9)],
        CREATE_SEMAPHORE => vec![numbers.below(2), 2],
        PEND | CLAIM => vec![span * numbers.below(2)],
        CREATE_FLAGS => vec![few],
        WAIT => vec![1 + few, numbers.below(4), span * numbers.below(2)],
        SET | CLEAR => vec![1 + few],
        START_TIMER => match numbers.below(3) {
            0 => vec![span, numbers.below(2)],
            1 => vec![span, numbers.below(2), 1 + 256 * numbers.below(4)],
            _ => vec![span, numbers.below(2), 2 + 256 * numbers.below(4), 1 + few],
        },
        SCHEDULING => vec![u32::from(numbers.below(8) > 0)],
        ADVANCE => vec![numbers.below(30)],
        _ => vec![],
    };
    let id = match call {
        EXIT | YIELD | SLEEP | SCHEDULING | ADVANCE => 0,
        CREATE_THREAD | START | STOP | SET_PRIORITY | SET_QUANTUM => numbers.below(16),
        _ => few,
    };
    request(call, id, &fields)
}

/// A table after some hundreds of chance calls. Exits are left out most of the time, or threads would stay few.
fn chance_kernel(seed: u64) -> Kernel {
    let mut numbers = Numbers(seed);
    let mut kernel = Kernel::fresh();
    for id in 0..16 {
        kernel.thread(id, numbers.below(8), numbers.below(6));
    }
    for id in 0..4 {
        kernel.done(CREATE_SEMAPHORE, id, &[0, 2]);
        kernel.done(CREATE_MUTEX, id, &[]);
        kernel.done(CREATE_FLAGS, id, &[id]);
    }
    for _ in 0..numbers.below(300) {
        let request = chance_request(&mut numbers);
        if request.call != EXIT || numbers.below(4) == 0 {
            kernel.ask(&request);
        }
    }
    kernel
}

#[test]
fn alike_on_tables_made_by_hand() {
    let mut kernel = Kernel::fresh();
    for ticks in [0, 1, 2, 100] {
        assert_eq!(assert_alike(&kernel.table, ticks), 0);
    }
    kernel.done(CREATE_SEMAPHORE, 0, &[0, 3]);
    kernel.done(START_TIMER, 0, &[1, 1, 1]);
    assert_eq!(assert_alike(&kernel.table, 500), 500);
    for id in 0..6 {
        kernel.thread(id, 3, id + 1);
    }
    assert_alike(&kernel.table, 1_000);
    kernel.done(STOP_TIMER, 0, &[]);
    assert!(assert_alike(&kernel.table, 1_000) > 200);
    kernel.table.clock = u32::MAX - 3;
    kernel.done(SCHEDULING, 0, &[0]);
    assert_eq!(assert_alike(&kernel.table, 1_000), 0);
    kernel.done(START_TIMER, 3, &[999]);
    for (ticks, wake_ups) in [(998, 0), (999, 1), (1_000, 1)] {
        assert_eq!(assert_alike(&kernel.table, ticks), wake_ups);
    }
}

#[test]
fn alike_on_chance_tables() {
    let mut numbers = Numbers(77);
    let mut wake_ups = 0;
    for seed in 0..600 {
        let table = chance_kernel(seed).table;
        for bound in [3, 50, 700, 3_000] {
            wake_ups += u64::from(assert_alike(&table, numbers.below(bound)));
        }
        let mut near_the_end = table;
        near_the_end.clock = u32::MAX - numbers.below(60);
        for timer in near_the_end.timers.iter_mut().filter(|timer| timer.period > 0) {
            timer.expiry_count = u32::MAX - numbers.below(3);
        }
        wake_ups += u64::from(assert_alike(&near_the_end, numbers.below(400)));
    }
    assert!(
        wake_ups > 100_000,
        "the tables were too quiet to tell: {} wake-ups",
        wake_ups
    );
}

#[test]
fn the_next_wake_up_is_the_first_tick_that_is_one() {
    let (mut some, mut none) = (0, 0);
    for seed in 0..2_000 {
        let table = chance_kernel(seed).table;
        let mut ticking = table.clone();
        let first = (1..=200).find(|_| tick::tick(&mut ticking)).unwrap_or(0);
        assert_eq!(tick::next_wake_up(&table), first, "{:?}", table);
        if first > 0 {
            some += 1;
        } else {
            none += 1;
        }
    }
    assert!(
        some > 500 && none > 10,
        "{} tables with a wake-up ahead, {} without",
        some,
        none
    );
}

/// Call 22 goes through single ticks up to a bound and jumps above it; nobody may see where the bound is.
#[test]
fn a_long_call_is_two_short_ones() {
    let bound = calls::LONGEST_PLAIN_ADVANCE;
    for seed in 0..8 {
        let start = chance_kernel(seed).table;
        let (mut whole, mut parts) = (start.clone(), start);
        let long = calls::call(&mut whole, &request(ADVANCE, 0, &[bound + 1]));
        let first = calls::call(&mut parts, &request(ADVANCE, 0, &[bound]));
        let last = calls::call(&mut parts, &request(ADVANCE, 0, &[1]));
        assert_eq!(long.wake_ups, first.wake_ups + last.wake_ups);
        assert_eq!(whole, parts);
        assert_eq!(
            (long.chosen, long.clock, long.next_wake_up),
            (last.chosen, last.clock, last.next_wake_up)
        );
    }
}

/// Chance calls as a replay file: the same lines, the same table.
#[test]
fn chance_calls_replay_alike() {
    for seed in 0..50 {
        chance_kernel(seed).assert_replayed_alike();
    }
}
