//! Kinds of damage that take turns, as far as the images allow.

use crate::random::Random;

pub struct Due<K> {
    all: Vec<K>,
    due: Vec<K>,
}

impl<K: Copy> Due<K> {
    pub fn new(all: Vec<K>) -> Due<K> {
        Due { all, due: Vec::new() }
    }

    /// Does the first kind still due that has a place; all are due again when each had its turn. Where none of them has
    /// a place any other is done: at least one always has.
    pub fn take<T>(&mut self, random: &mut Random, done: impl Fn(K, &mut Random) -> Option<T>) -> (K, T) {
        if self.due.is_empty() {
            self.due = self.all.clone();
        }
        for index in 0..self.due.len() {
            let kind = self.due[index];
            if let Some(made) = done(kind, random) {
                self.due.remove(index);
                return (kind, made);
            }
        }
        loop {
            let kind = random.of(&self.all);
            if let Some(made) = done(kind, random) {
                return (kind, made);
            }
        }
    }
}
