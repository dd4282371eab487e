//! The clauses found broken so far, each once. Each layout of the image has a type of clauses.

use super::Clause;

pub struct Found<C = Clause>(Vec<C>);

impl<C: Ord> Found<C> {
    pub fn nothing() -> Found<C> {
        Found(Vec::new())
    }

    /// The clause is broken where its breach is seen.
    pub fn note(&mut self, clause: C, breach: bool) {
        if breach && !self.0.contains(&clause) {
            self.0.push(clause);
        }
    }

    pub fn in_order(mut self) -> Vec<C> {
        self.0.sort_unstable();
        self.0
    }
}
