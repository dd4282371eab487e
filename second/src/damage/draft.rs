//! An image that is being changed, and the chance that picks where and what. The lists are taken from the bytes and
//! put back with zeros past their end, so that a change of a list is a change of that list alone.

use crate::image::layout::{self, half, word, PLACES};
use crate::random::Random;
use crate::table::{ListName, FLAG_OBJECTS, MUTEXES, PRIORITIES, SEMAPHORES, THREADS, TIMERS};
use std::mem::discriminant;

/// A list of each family that has several, to name the family by.
pub const READY: ListName = ListName::Ready(0);
pub const SEMAPHORE_WAIT: ListName = ListName::SemaphoreWait(0);
pub const MUTEX_WAIT: ListName = ListName::MutexWait(0);
pub const FLAGS_WAIT: ListName = ListName::FlagsWait(0);

pub struct Draft<'a> {
    pub image: Vec<u8>,
    random: &'a mut Random,
}

impl<'a> Draft<'a> {
    pub fn of(image: &[u8], random: &'a mut Random) -> Draft<'a> {
        Draft {
            image: image.to_vec(),
            random,
        }
    }

    pub fn coin(&mut self) -> bool {
        self.between(0, 1) == 1
    }

    pub fn between(&mut self, low: u32, high: u32) -> u32 {
        self.random.between(low, high)
    }

    /// A number from low to high, at its ends or near them more often than elsewhere.
    pub fn number(&mut self, low: u32, high: u32) -> u32 {
        match self.between(0, 5) {
            0 | 1 => low,
            2 => high,
            3 => low + self.between(0, (high - low).min(3)),
            4 => high - self.between(0, (high - low).min(3)),
            _ => self.between(low, high),
        }
    }

    pub fn pick<T: Copy>(&mut self, from: &[T]) -> Option<T> {
        self.random.any(from)
    }

    pub fn shuffle<T>(&mut self, items: &mut [T]) {
        for last in (1..items.len()).rev() {
            let other = self.between(0, last as u32) as usize;
            items.swap(last, other);
        }
    }

    /// One of the better ones mostly, where there are such; else one of all.
    pub fn prefer<T: Copy>(&mut self, better: &[T], all: &[T]) -> Option<T> {
        if better.is_empty() || self.between(0, 4) == 0 {
            self.pick(all)
        } else {
            self.pick(better)
        }
    }

    pub fn half(&self, at: usize) -> u32 {
        half(&self.image, at)
    }

    pub fn word(&self, at: usize) -> u32 {
        word(&self.image, at)
    }

    pub fn put(&mut self, at: usize, number: u32) {
        self.image[at] = u8::try_from(number).expect("a number that fits one byte");
    }

    pub fn put_half(&mut self, at: usize, number: u32) {
        layout::put_half(&mut self.image, at, number);
    }

    pub fn put_word(&mut self, at: usize, number: u32) {
        layout::put_word(&mut self.image, at, number);
    }

    pub fn thread(&self, id: usize, field: usize) -> u32 {
        u32::from(self.image[layout::thread(id) + field])
    }

    pub fn put_thread(&mut self, id: usize, field: usize, number: u32) {
        self.put(layout::thread(id) + field, number);
    }

    pub fn current(&self, id: usize) -> u32 {
        self.thread(id, layout::THREAD_CURRENT)
    }

    pub fn created(&self) -> Vec<usize> {
        (0..THREADS)
            .filter(|id| self.thread(*id, layout::CREATED) != 0)
            .collect()
    }

    pub fn absent(&self) -> Vec<usize> {
        (0..THREADS)
            .filter(|id| self.thread(*id, layout::CREATED) == 0)
            .collect()
    }

    /// The ids of the objects that are created, or of those that aren't; `place` tells where the bytes of one begin.
    fn objects(&self, count: usize, place: fn(usize) -> usize, created: bool) -> Vec<usize> {
        (0..count)
            .filter(|id| (self.image[place(*id) + layout::CREATED] != 0) == created)
            .collect()
    }

    pub fn semaphores(&self, created: bool) -> Vec<usize> {
        self.objects(SEMAPHORES, layout::semaphore, created)
    }

    pub fn mutexes(&self, created: bool) -> Vec<usize> {
        self.objects(MUTEXES, layout::mutex, created)
    }

    pub fn flag_objects(&self, created: bool) -> Vec<usize> {
        self.objects(FLAG_OBJECTS, layout::flags, created)
    }

    /// Where the timers stand that were started at some time, or the others.
    pub fn timers(&self, started: bool) -> Vec<usize> {
        (0..TIMERS)
            .map(layout::timer)
            .filter(|at| (self.word(at + layout::TIMER_PERIOD) > 0) == started)
            .collect()
    }

    /// The created threads on a list of this one's family.
    pub fn on_lists_like(&self, like: ListName) -> Vec<usize> {
        self.lists_like(like)
            .into_iter()
            .flat_map(|name| self.ids(name))
            .collect()
    }

    pub fn owns_a_mutex(&self, id: usize) -> bool {
        (0..MUTEXES).map(layout::mutex).any(|at| {
            self.image[at + layout::MUTEX_DEPTH] > 0 && usize::from(self.image[at + layout::MUTEX_OWNER]) == id
        })
    }

    pub fn lists_like(&self, like: ListName) -> Vec<ListName> {
        ListName::all()
            .filter(|name| discriminant(name) == discriminant(&like))
            .collect()
    }

    pub fn ids(&self, name: ListName) -> Vec<usize> {
        layout::ids(&self.image, name)
            .iter()
            .map(|id| usize::from(*id))
            .collect()
    }

    pub fn length(&self, name: ListName) -> usize {
        layout::ids(&self.image, name).len()
    }

    pub fn has_room(&self, name: ListName) -> bool {
        self.length(name) < PLACES
    }

    pub fn set_ids(&mut self, name: ListName, ids: &[usize]) {
        self.put(layout::list_length(name), ids.len() as u32);
        for place in 0..PLACES {
            let id = ids.get(place).copied().unwrap_or(0);
            self.put(layout::list_ids(name) + place, id as u32);
        }
    }

    pub fn list_of(&self, id: usize) -> Option<ListName> {
        ListName::all().find(|name| self.ids(*name).contains(&id))
    }

    pub fn insert(&mut self, name: ListName, index: usize, id: usize) {
        let mut ids = self.ids(name);
        ids.insert(index, id);
        self.set_ids(name, &ids);
    }

    pub fn append(&mut self, name: ListName, id: usize) {
        self.insert(name, self.length(name), id);
    }

    pub fn remove(&mut self, name: ListName, id: usize) {
        let mut ids = self.ids(name);
        ids.retain(|other| *other != id);
        self.set_ids(name, &ids);
    }

    /// The ids of the highest ready list that isn't empty.
    pub fn highest_ready(&self) -> Vec<usize> {
        let lists = (0..PRIORITIES)
            .rev()
            .map(|priority| self.ids(ListName::Ready(priority)));
        lists.into_iter().find(|ids| !ids.is_empty()).unwrap_or_default()
    }

    /// Writes the choice that scheduling on demands; with it off the choice stays.
    pub fn choose(&mut self) {
        if self.image[layout::SCHEDULING] == layout::SCHEDULING_ON {
            let head = self.highest_ready().first().copied();
            self.put(layout::CHOSEN, head.unwrap_or(usize::from(layout::NONE_CHOSEN)) as u32);
        }
    }
}
