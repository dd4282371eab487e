//! Changes that keep a sound image sound but lead where runs from a fresh table hardly come: counts at the end of
//! their range, priorities raised by hand, a choice that scheduling off allows (01, soundness; 01, One tick).

use super::crowd::crowd;
use super::draft::{Draft, FLAGS_WAIT, READY};
use crate::calls::flags::condition_holds;
use crate::image::layout::{
    self, CHOSEN, CLOCK, FLAGS_WORD, MUTEX_DEPTH, MUTEX_OWNER, NONE_CHOSEN, SCHEDULING, SCHEDULING_OFF, SCHEDULING_ON,
    SEMAPHORE_COUNT, SEMAPHORE_MAXIMUM, THREAD_BASE, THREAD_CURRENT, THREAD_DELIVERED, THREAD_LIMIT, THREAD_MASK,
    THREAD_MODE, THREAD_QUANTUM, THREAD_QUANTUM_LEFT, THREAD_RESULT, TIMER_COUNT, TIMER_KIND, TIMER_LEFT, TIMER_MASK,
    TIMER_OBJECT, TIMER_PERIOD, TIMER_REPEAT,
};
use crate::random::Random;
use crate::table::{ListName, FLAG_OBJECTS};

#[derive(Clone, Copy, PartialEq, Eq, Debug)]
pub enum Edit {
    Clock,
    ExpiryCount,
    Result,
    Delivered,
    Quantum,
    QuantumLeft,
    Limit,
    TimerLeft,
    Period,
    Action,
    Depth,
    Owner,
    Base,
    Raise,
    Count,
    Maximum,
    Word,
    MaskAndMode,
    ReadyOrder,
    Crowd,
    OffWithNone,
    OffWithAnother,
    On,
}

impl Edit {
    pub const ALL: [Edit; 23] = [
        Edit::Clock,
        Edit::ExpiryCount,
        Edit::Result,
        Edit::Delivered,
        Edit::Quantum,
        Edit::QuantumLeft,
        Edit::Limit,
        Edit::TimerLeft,
        Edit::Period,
        Edit::Action,
        Edit::Depth,
        Edit::Owner,
        Edit::Base,
        Edit::Raise,
        Edit::Count,
        Edit::Maximum,
        Edit::Word,
        Edit::MaskAndMode,
        Edit::ReadyOrder,
        Edit::Crowd,
        Edit::OffWithNone,
        Edit::OffWithAnother,
        Edit::On,
    ];
}

/// The sound image with this change; None where it has no place for it.
pub fn edit(edit: Edit, image: &[u8], random: &mut Random) -> Option<Vec<u8>> {
    let mut draft = Draft::of(image, random);
    change(edit, &mut draft)?;
    Some(draft.image)
}

fn change(edit: Edit, draft: &mut Draft) -> Option<()> {
    match edit {
        Edit::Clock => clock(draft),
        Edit::ExpiryCount => expiry_count(draft),
        Edit::Result => result(draft),
        Edit::Delivered => delivered(draft),
        Edit::Quantum => quantum(draft),
        Edit::QuantumLeft => quantum_left(draft),
        Edit::Limit => limit(draft),
        Edit::TimerLeft => timer_left(draft),
        Edit::Period => period(draft),
        Edit::Action => action(draft),
        Edit::Depth => depth(draft),
        Edit::Owner => owner(draft),
        Edit::Base => base(draft),
        Edit::Raise => raise(draft),
        Edit::Count => count(draft),
        Edit::Maximum => maximum(draft),
        Edit::Word => word(draft),
        Edit::MaskAndMode => mask_and_mode(draft),
        Edit::ReadyOrder => ready_order(draft),
        Edit::Crowd => crowd(draft),
        Edit::OffWithNone => off_with_none(draft),
        Edit::OffWithAnother => off_with_another(draft),
        Edit::On => on(draft),
    }
}

/// A number that wraps soon.
fn near_the_end(draft: &mut Draft) -> u32 {
    u32::MAX - draft.number(0, 20)
}

fn clock(draft: &mut Draft) -> Option<()> {
    let clock = near_the_end(draft);
    draft.put_word(CLOCK, clock);
    Some(())
}

fn expiry_count(draft: &mut Draft) -> Option<()> {
    let at = draft.pick(&draft.timers(true))?;
    let count = near_the_end(draft);
    draft.put_word(at + TIMER_COUNT, count);
    Some(())
}

fn timer_left(draft: &mut Draft) -> Option<()> {
    let at = draft.pick(&draft.timers(true))?;
    let left = draft.number(0, draft.word(at + TIMER_PERIOD));
    draft.put_word(at + TIMER_LEFT, left);
    Some(())
}

fn period(draft: &mut Draft) -> Option<()> {
    let at = draft.pick(&draft.timers(true))?;
    let left = draft.word(at + TIMER_LEFT);
    let period = draft.number(left.max(1), u32::MAX);
    let repeat = draft.between(0, 1);
    draft.put_word(at + TIMER_PERIOD, period);
    draft.put(at + TIMER_REPEAT, repeat);
    Some(())
}

fn action(draft: &mut Draft) -> Option<()> {
    let at = draft.pick(&draft.timers(true))?;
    let (kind, object, mask) = match draft.between(0, 2) {
        0 => (0, 0, 0),
        1 => (1, draft.pick(&draft.semaphores(true))?, 0),
        _ => (2, draft.pick(&draft.flag_objects(true))?, draft.number(1, 65_535)),
    };
    draft.put(at + TIMER_KIND, kind);
    draft.put(at + TIMER_OBJECT, object as u32);
    draft.put_half(at + TIMER_MASK, mask);
    Some(())
}

fn result(draft: &mut Draft) -> Option<()> {
    let mut free = draft.on_lists_like(READY);
    free.extend(draft.on_lists_like(ListName::Stopped));
    let id = draft.pick(&free)?;
    let result = draft.between(0, 2);
    draft.put_thread(id, THREAD_RESULT, result);
    Some(())
}

fn delivered(draft: &mut Draft) -> Option<()> {
    let id = draft.pick(&draft.created())?;
    let word = draft.number(0, 65_535);
    draft.put_half(layout::thread(id) + THREAD_DELIVERED, word);
    Some(())
}

fn quantum(draft: &mut Draft) -> Option<()> {
    let id = draft.pick(&draft.created())?;
    let quantum = draft.number(0, 65_535);
    let left = draft.number(quantum.min(1), quantum);
    draft.put_half(layout::thread(id) + THREAD_QUANTUM, quantum);
    draft.put_half(layout::thread(id) + THREAD_QUANTUM_LEFT, left);
    Some(())
}

fn quantum_left(draft: &mut Draft) -> Option<()> {
    let mut with_quantum = draft.created();
    with_quantum.retain(|id| draft.half(layout::thread(*id) + THREAD_QUANTUM) > 0);
    let at = layout::thread(draft.pick(&with_quantum)?);
    let left = draft.number(1, draft.half(at + THREAD_QUANTUM));
    draft.put_half(at + THREAD_QUANTUM_LEFT, left);
    Some(())
}

fn limit(draft: &mut Draft) -> Option<()> {
    let mut limited = draft.created();
    limited.retain(|id| {
        draft
            .list_of(*id)
            .map_or(false, |name| name.is_wait_list() || name == ListName::Sleep)
    });
    let id = draft.pick(&limited)?;
    let least = u32::from(draft.list_of(id) == Some(ListName::Sleep));
    let highest = draft.pick(&[5, 100, u32::MAX])?;
    let limit = draft.number(least, highest);
    draft.put_word(layout::thread(id) + THREAD_LIMIT, limit);
    Some(())
}

fn mutexes(draft: &Draft, owned: bool) -> Vec<usize> {
    let created = draft.mutexes(true).into_iter().map(layout::mutex);
    created
        .filter(|at| (draft.image[at + MUTEX_DEPTH] > 0) == owned)
        .collect()
}

fn depth(draft: &mut Draft) -> Option<()> {
    let at = draft.pick(&mutexes(draft, true))?;
    let depth = draft.number(1, 255);
    draft.put(at + MUTEX_DEPTH, depth);
    Some(())
}

/// An unowned mutex becomes the property of anybody, one who waits, sleeps or is stopped included.
fn owner(draft: &mut Draft) -> Option<()> {
    let at = draft.pick(&mutexes(draft, false))?;
    let owner = draft.pick(&draft.created())?;
    let depth = draft.number(1, 255);
    draft.put(at + MUTEX_OWNER, owner as u32);
    draft.put(at + MUTEX_DEPTH, depth);
    Some(())
}

fn owners(draft: &Draft) -> Vec<usize> {
    let mut owners = draft.created();
    owners.retain(|id| draft.owns_a_mutex(*id));
    owners
}

fn base(draft: &mut Draft) -> Option<()> {
    let id = draft.pick(&owners(draft))?;
    let base = draft.number(0, draft.current(id));
    draft.put_thread(id, THREAD_BASE, base);
    Some(())
}

/// An owner's current priority goes up, and the owner where its list then wants it; in a ready list any place will do.
fn raise(draft: &mut Draft) -> Option<()> {
    let mut owners = owners(draft);
    owners.retain(|id| draft.current(*id) < 7);
    let id = draft.pick(&owners)?;
    let raised = draft.number(draft.current(id) + 1, 7);
    let name = draft.list_of(id)?;
    draft.put_thread(id, THREAD_CURRENT, raised);
    if let ListName::Ready(_) = name {
        draft.remove(name, id);
        let new = ListName::Ready(raised as usize);
        let index = draft.between(0, draft.length(new) as u32) as usize;
        draft.insert(new, index, id);
        draft.choose();
    } else if name.is_wait_list() {
        draft.remove(name, id);
        let index = draft
            .ids(name)
            .iter()
            .take_while(|other| draft.current(**other) >= raised)
            .count();
        draft.insert(name, index, id);
    }
    Some(())
}

fn count(draft: &mut Draft) -> Option<()> {
    let mut without_waiters = draft.semaphores(true);
    without_waiters.retain(|id| draft.length(ListName::SemaphoreWait(*id)) == 0);
    let at = layout::semaphore(draft.pick(&without_waiters)?);
    let count = draft.number(0, draft.half(at + SEMAPHORE_MAXIMUM));
    draft.put_half(at + SEMAPHORE_COUNT, count);
    Some(())
}

fn maximum(draft: &mut Draft) -> Option<()> {
    let at = layout::semaphore(draft.pick(&draft.semaphores(true))?);
    let count = draft.half(at + SEMAPHORE_COUNT);
    let maximum = draft.number(count.max(1), 65_535);
    draft.put_half(at + SEMAPHORE_MAXIMUM, maximum);
    Some(())
}

fn waiter_goes_on_waiting(draft: &Draft, id: usize, word: u32) -> bool {
    let mask = draft.half(layout::thread(id) + THREAD_MASK);
    !condition_holds(word, mask, draft.thread(id, THREAD_MODE))
}

/// How many draws a change may take that not every draw allows.
const DRAWS: u32 = 30;

fn word(draft: &mut Draft) -> Option<()> {
    let id = draft.pick(&draft.flag_objects(true))?;
    let waiters = draft.ids(ListName::FlagsWait(id));
    let old = draft.half(layout::flags(id) + FLAGS_WORD);
    for _ in 0..DRAWS {
        let one_bit = old ^ (1 << draft.between(0, 15));
        let any = draft.number(0, 65_535);
        let word = draft.pick(&[one_bit, any])?;
        if waiters
            .iter()
            .all(|waiter| waiter_goes_on_waiting(draft, *waiter, word))
        {
            draft.put_half(layout::flags(id) + FLAGS_WORD, word);
            return Some(());
        }
    }
    None
}

fn mask_and_mode(draft: &mut Draft) -> Option<()> {
    let waiter = draft.pick(&draft.on_lists_like(FLAGS_WAIT))?;
    let object = (0..FLAG_OBJECTS).find(|id| draft.ids(ListName::FlagsWait(*id)).contains(&waiter))?;
    let word = draft.half(layout::flags(object) + FLAGS_WORD);
    for _ in 0..DRAWS {
        let mode = draft.between(0, 3);
        let one_bit = 1 << draft.between(0, 15);
        let any = draft.number(1, 65_535);
        let mask = draft.pick(&[one_bit, any])?;
        if !condition_holds(word, mask, mode) {
            draft.put_half(layout::thread(waiter) + THREAD_MASK, mask);
            draft.put_thread(waiter, THREAD_MODE, mode);
            return Some(());
        }
    }
    None
}

/// A ready list turned round by some places.
fn ready_order(draft: &mut Draft) -> Option<()> {
    let mut longer = draft.lists_like(READY);
    longer.retain(|name| draft.length(*name) > 1);
    let name = draft.pick(&longer)?;
    let mut ids = draft.ids(name);
    let turn = draft.between(1, ids.len() as u32 - 1) as usize;
    ids.rotate_left(turn);
    draft.set_ids(name, &ids);
    draft.choose();
    Some(())
}

fn off_with_none(draft: &mut Draft) -> Option<()> {
    draft.put(SCHEDULING, u32::from(SCHEDULING_OFF));
    draft.put(CHOSEN, u32::from(NONE_CHOSEN));
    Some(())
}

fn off_with_another(draft: &mut Draft) -> Option<()> {
    let chosen = usize::from(draft.image[CHOSEN]);
    let mut others = draft.on_lists_like(READY);
    others.retain(|id| *id != chosen);
    let another = draft.pick(&others)?;
    draft.put(SCHEDULING, u32::from(SCHEDULING_OFF));
    draft.put(CHOSEN, another as u32);
    Some(())
}

fn on(draft: &mut Draft) -> Option<()> {
    draft.put(SCHEDULING, u32::from(SCHEDULING_ON));
    draft.choose();
    Some(())
}
