//! Damage to the threads' fields (01, soundness, parts 1, 2, 5 and 10 to 13).

use super::draft::{Draft, FLAGS_WAIT, MUTEX_WAIT, READY, SEMAPHORE_WAIT};
use crate::image::layout::{
    self, CREATED, MUTEX_DEPTH, THREAD_BASE, THREAD_CURRENT, THREAD_DELIVERED, THREAD_LIMIT, THREAD_MASK, THREAD_MODE,
    THREAD_QUANTUM, THREAD_QUANTUM_LEFT, THREAD_RESULT,
};
use crate::sound::Clause;
use crate::table::ListName;

pub fn damage(clause: Clause, draft: &mut Draft) -> Option<()> {
    match clause {
        Clause::ThreadCreatedRange => created_range(draft),
        Clause::BaseRange => base_range(draft),
        Clause::CurrentRange => current_range(draft),
        Clause::ResultRange => result_range(draft),
        Clause::AbsentNotZero => absent_not_zero(draft),
        Clause::CurrentBelowBase => current_below_base(draft),
        Clause::CurrentAboveBase => current_above_base(draft),
        Clause::SleeperLimitZero => sleeper_limit_zero(draft),
        Clause::ReadyLimit => limit(draft, READY),
        Clause::StoppedLimit => limit(draft, ListName::Stopped),
        Clause::MaskWithoutFlagWait => mask_without_flag_wait(draft),
        Clause::ModeWithoutFlagWait => mode_without_flag_wait(draft),
        Clause::SemaphoreWaiterResult => result(draft, SEMAPHORE_WAIT),
        Clause::MutexWaiterResult => result(draft, MUTEX_WAIT),
        Clause::FlagWaiterResult => result(draft, FLAGS_WAIT),
        Clause::SleeperResult => result(draft, ListName::Sleep),
        Clause::QuantumLeftZero => quantum_left_zero(draft),
        Clause::QuantumLeftAboveQuantum => quantum_left_above_quantum(draft),
        Clause::QuantumZeroWithLeft => quantum_zero_with_left(draft),
        _ => None,
    }
}

fn created_range(draft: &mut Draft) -> Option<()> {
    let id = draft.pick(&draft.created())?;
    let number = draft.number(2, 255);
    draft.put_thread(id, CREATED, number);
    Some(())
}

fn base_range(draft: &mut Draft) -> Option<()> {
    let id = draft.pick(&draft.created())?;
    let number = draft.number(8, 255);
    draft.put_thread(id, THREAD_BASE, number);
    Some(())
}

/// Nothing else is broken where an owner sleeps, is stopped or heads a wait list.
fn current_range(draft: &mut Draft) -> Option<()> {
    let created = draft.created();
    let quiet = |id: &usize| draft.owns_a_mutex(*id) && !is_ready(draft, *id) && heads_or_needs_no_order(draft, *id);
    let better: Vec<usize> = created.iter().copied().filter(quiet).collect();
    let id = draft.prefer(&better, &created)?;
    let number = draft.number(8, 255);
    draft.put_thread(id, THREAD_CURRENT, number);
    Some(())
}

fn is_ready(draft: &Draft, id: usize) -> bool {
    matches!(draft.list_of(id), Some(ListName::Ready(_)))
}

fn heads_or_needs_no_order(draft: &Draft, id: usize) -> bool {
    draft
        .list_of(id)
        .map_or(false, |name| !name.is_wait_list() || draft.ids(name)[0] == id)
}

fn result_range(draft: &mut Draft) -> Option<()> {
    let mut quiet = draft.on_lists_like(READY);
    quiet.extend(draft.on_lists_like(ListName::Stopped));
    let id = draft.prefer(&quiet, &draft.created())?;
    let number = draft.number(3, 255);
    draft.put_thread(id, THREAD_RESULT, number);
    Some(())
}

fn absent_not_zero(draft: &mut Draft) -> Option<()> {
    let id = draft.pick(&draft.absent())?;
    let at = layout::thread(id);
    match draft.between(0, 8) {
        0 => put_some(draft, at + THREAD_BASE, 7),
        1 => put_some(draft, at + THREAD_CURRENT, 7),
        2 => put_some_half(draft, at + THREAD_QUANTUM),
        3 => put_some_half(draft, at + THREAD_QUANTUM_LEFT),
        4 => put_some_word(draft, at + THREAD_LIMIT),
        5 => put_some(draft, at + THREAD_RESULT, 2),
        6 => put_some_half(draft, at + THREAD_MASK),
        7 => put_some(draft, at + THREAD_MODE, 3),
        _ => put_some_half(draft, at + THREAD_DELIVERED),
    }
}

fn put_some(draft: &mut Draft, at: usize, highest: u32) -> Option<()> {
    let number = draft.number(1, highest);
    draft.put(at, number);
    Some(())
}

fn put_some_half(draft: &mut Draft, at: usize) -> Option<()> {
    let number = draft.number(1, 65_535);
    draft.put_half(at, number);
    Some(())
}

fn put_some_word(draft: &mut Draft, at: usize) -> Option<()> {
    let number = draft.number(1, u32::MAX);
    draft.put_word(at, number);
    Some(())
}

fn current_below_base(draft: &mut Draft) -> Option<()> {
    let mut below_7 = draft.created();
    below_7.retain(|id| draft.current(*id) < 7);
    let id = draft.pick(&below_7)?;
    let base = draft.number(draft.current(id) + 1, 7);
    draft.put_thread(id, THREAD_BASE, base);
    Some(())
}

/// Thread 0 rather than another where a mutex is unowned: such a mutex has 0 written as its owner, and that is none.
fn current_above_base(draft: &mut Draft) -> Option<()> {
    let mut no_owners = draft.created();
    no_owners.retain(|id| !draft.owns_a_mutex(*id) && draft.current(*id) > 0);
    let unowned = |id: usize| draft.image[layout::mutex(id) + MUTEX_DEPTH] == 0;
    let named_as_owner = draft.mutexes(true).into_iter().any(unowned);
    let better: Vec<usize> = no_owners
        .iter()
        .copied()
        .filter(|id| *id == 0 && named_as_owner)
        .collect();
    let id = draft.prefer(&better, &no_owners)?;
    let base = draft.number(0, draft.current(id) - 1);
    draft.put_thread(id, THREAD_BASE, base);
    Some(())
}

fn sleeper_limit_zero(draft: &mut Draft) -> Option<()> {
    let id = draft.pick(&draft.on_lists_like(ListName::Sleep))?;
    draft.put_word(layout::thread(id) + THREAD_LIMIT, 0);
    Some(())
}

fn limit(draft: &mut Draft, like: ListName) -> Option<()> {
    let id = draft.pick(&draft.on_lists_like(like))?;
    put_some_word(draft, layout::thread(id) + THREAD_LIMIT)
}

fn without_flag_wait(draft: &mut Draft) -> Option<usize> {
    let flag_waiters = draft.on_lists_like(FLAGS_WAIT);
    let mut others = draft.created();
    others.retain(|id| !flag_waiters.contains(id));
    draft.pick(&others)
}

fn mask_without_flag_wait(draft: &mut Draft) -> Option<()> {
    let id = without_flag_wait(draft)?;
    put_some_half(draft, layout::thread(id) + THREAD_MASK)
}

fn mode_without_flag_wait(draft: &mut Draft) -> Option<()> {
    let id = without_flag_wait(draft)?;
    let highest = draft.pick(&[3, 255])?;
    put_some(draft, layout::thread(id) + THREAD_MODE, highest)
}

fn result(draft: &mut Draft, like: ListName) -> Option<()> {
    let id = draft.pick(&draft.on_lists_like(like))?;
    put_some(draft, layout::thread(id) + THREAD_RESULT, 2)
}

fn quantum(draft: &Draft, id: usize) -> u32 {
    draft.half(layout::thread(id) + THREAD_QUANTUM)
}

fn put_quantum_left(draft: &mut Draft, id: usize, left: u32) -> Option<()> {
    draft.put_half(layout::thread(id) + THREAD_QUANTUM_LEFT, left);
    Some(())
}

fn quantum_left_zero(draft: &mut Draft) -> Option<()> {
    let mut with_quantum = draft.created();
    with_quantum.retain(|id| quantum(draft, *id) > 0);
    let id = draft.pick(&with_quantum)?;
    put_quantum_left(draft, id, 0)
}

fn quantum_left_above_quantum(draft: &mut Draft) -> Option<()> {
    let mut with_quantum = draft.created();
    with_quantum.retain(|id| quantum(draft, *id) > 0 && quantum(draft, *id) < 65_535);
    let id = draft.pick(&with_quantum)?;
    let left = draft.number(quantum(draft, id) + 1, 65_535);
    put_quantum_left(draft, id, left)
}

fn quantum_zero_with_left(draft: &mut Draft) -> Option<()> {
    let mut without_quantum = draft.created();
    without_quantum.retain(|id| quantum(draft, *id) == 0);
    let id = draft.pick(&without_quantum)?;
    let left = draft.number(1, 65_535);
    put_quantum_left(draft, id, left)
}
