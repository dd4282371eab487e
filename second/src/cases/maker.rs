//! Makes the cases of images with rows: half of them sound, half damaged, and to each a request that matters for it.
//! The same seed gives the same cases.

use super::{Due, Tables};
use crate::damage::{break_clause, spoil, Spoil};
use crate::image;
use crate::sound::Clause;
use crate::table::Request;

pub struct Maker {
    tables: Tables,
    clauses: Due<Clause>,
    spoils: usize,
}

impl Maker {
    pub fn new(seed: u64) -> Maker {
        Maker {
            tables: Tables::new(seed),
            clauses: Due::new(Clause::ALL.to_vec()),
            spoils: 0,
        }
    }

    pub fn case(&mut self) -> (Vec<u8>, Request) {
        if self.tables.go_on() {
            self.damaged()
        } else {
            self.as_it_is()
        }
    }

    fn as_it_is(&mut self) -> (Vec<u8>, Request) {
        (image::write(self.tables.table()).to_vec(), self.tables.request())
    }

    /// The request is picked before the damage. An image that stays sound in spite of it gets one of its own, since
    /// another table may make an advance that was short a long one.
    fn damaged(&mut self) -> (Vec<u8>, Request) {
        let (sound, request) = self.as_it_is();
        let image = if self.tables.random.once_in(5) {
            self.spoilt(&sound)
        } else {
            self.broken(&sound)
        };
        match image::read(&image) {
            None => (image, request),
            Some(table) => {
                self.tables.set_table(table);
                self.as_it_is()
            }
        }
    }

    fn spoilt(&mut self, sound: &[u8]) -> Vec<u8> {
        let next = Spoil::ALL[self.spoils % Spoil::ALL.len()];
        self.spoils += 1;
        spoil(next, sound, &mut self.tables.random)
    }

    fn broken(&mut self, sound: &[u8]) -> Vec<u8> {
        let done = self.clauses.take(&mut self.tables.random, |clause, random| {
            break_clause(clause, sound, random)
        });
        done.1
    }
}
