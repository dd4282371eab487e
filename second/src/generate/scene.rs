//! What a picker sees when it looks for a request that matters: the table as it stands, the mood and the numbers to
//! draw from. The questions about the table are here, in the words of 01.

use super::profile::{Mood, Objects, Profile};
use crate::random::Random;
use crate::table::{Flags, Request, Semaphore, Table, FLAG_OBJECTS, MUTEXES, SEMAPHORES, THREADS, TIMERS};

pub struct Scene<'a> {
    pub profile: Profile,
    pub table: &'a Table,
    pub mood: &'a Mood,
    pub objects: &'a Objects,
    pub random: &'a mut Random,
    /// Whether calls and ids may be beyond a byte.
    pub wide: bool,
}

/// A request with the first numbers named; the others are 0.
pub fn request(call: u32, id: usize, numbers: &[u32]) -> Request {
    let number = |place: usize| numbers.get(place).copied().unwrap_or(0);
    Request {
        call,
        id: id as u32,
        a: number(0),
        b: number(1),
        c: number(2),
        d: number(3),
    }
}

impl Scene<'_> {
    pub fn running(&self) -> Option<usize> {
        self.table.chosen
    }

    pub fn absent_threads(&self) -> Vec<usize> {
        (0..self.mood.threads)
            .filter(|id| !self.table.threads[*id].created)
            .collect()
    }

    pub fn created_threads(&self) -> Vec<usize> {
        (0..THREADS).filter(|id| self.table.threads[*id].created).collect()
    }

    pub fn ready_threads(&self) -> Vec<usize> {
        self.table.ready.iter().flatten().copied().collect()
    }

    /// Threads with ticks left of a wait or a sleep.
    pub fn limited_threads(&self) -> Vec<usize> {
        (0..THREADS)
            .filter(|id| self.table.threads[*id].limit_left > 0)
            .collect()
    }

    pub fn created_semaphores(&self) -> Vec<usize> {
        self.semaphores(|_| true)
    }

    /// One of these ids that isn't created, where there is one; else any of them.
    pub fn id_to_create(&mut self, ids: &[usize], is_created: impl Fn(usize) -> bool) -> usize {
        let absent: Vec<usize> = ids.iter().copied().filter(|id| !is_created(*id)).collect();
        self.random.any(&absent).unwrap_or(self.random.of(ids))
    }

    /// Created semaphores that pass the test.
    pub fn semaphores(&self, test: impl Fn(&Semaphore) -> bool) -> Vec<usize> {
        let passes = |id: &usize| self.table.semaphores[*id].created && test(&self.table.semaphores[*id]);
        (0..SEMAPHORES).filter(passes).collect()
    }

    pub fn created_flags(&self) -> Vec<usize> {
        self.flags(|_| true)
    }

    /// Created flag objects that pass the test.
    pub fn flags(&self, test: impl Fn(&Flags) -> bool) -> Vec<usize> {
        let passes = |id: &usize| self.table.flags[*id].created && test(&self.table.flags[*id]);
        (0..FLAG_OBJECTS).filter(passes).collect()
    }

    /// Mutexes whose owner passes the test.
    pub fn mutexes_owned(&self, test: impl Fn(usize) -> bool) -> Vec<usize> {
        (0..MUTEXES)
            .filter(|id| self.table.mutexes[*id].owner.map_or(false, &test))
            .collect()
    }

    pub fn running_timers(&self) -> Vec<usize> {
        (0..TIMERS).filter(|id| self.table.timers[*id].left > 0).collect()
    }

    pub fn priority(&mut self) -> u32 {
        self.random
            .between(self.mood.lowest_priority, self.mood.highest_priority)
    }

    /// None, any, or one near the highest that is usual.
    pub fn quantum(&mut self) -> u32 {
        let highest = self.mood.quantum;
        match self.random.below(8) {
            0 => 0,
            1 if self.profile != Profile::Long => self.random.between(0, highest),
            _ => self.random.between(highest - highest / 3, highest),
        }
    }

    /// How many of a hundred pends and posts are pends, and waits beside sets and clears: where timers are to do the
    /// waking, fewer calls do it.
    pub fn share_of_waits(&self) -> u32 {
        match self.profile {
            Profile::Timers | Profile::Ties => 80,
            _ => 50,
        }
    }

    /// Some of the mood's bits, at least one.
    pub fn mask(&mut self) -> u32 {
        loop {
            let mask = self.random.word() & self.mood.bits;
            if mask != 0 {
                return mask;
            }
        }
    }

    /// One of the bits of a word that isn't 0.
    pub fn bit_of(&mut self, word: u32) -> u32 {
        let bits: Vec<u32> = (0..32).map(|place| 1 << place).filter(|bit| word & bit != 0).collect();
        self.random.of(&bits)
    }

    /// A created thread, or any id where there is none.
    pub fn some_thread(&mut self) -> usize {
        let created = self.created_threads();
        self.random
            .any(&created)
            .unwrap_or(self.random.below(THREADS as u32) as usize)
    }

    /// The first of the choices that isn't empty gives an id.
    pub fn first_of(&mut self, choices: &[Vec<usize>]) -> Option<usize> {
        let choice = choices.iter().find(|choice| !choice.is_empty())?;
        Some(self.random.of(choice))
    }
}
