//! Makes the cases of images with links: half of them sound, half damaged, and to each a request that matters for it.
//! It tells what it did. The same seed gives the same cases.

use crate::cases::{Due, Tables};
use crate::damage::{break_clause, spoil, Spoil};
use crate::links;
use crate::links::damage::{blind, damage, Damage};
use crate::links::rows::{rows_of, with_links};
use crate::links::sound::Clause;
use crate::sound;
use crate::table::Request;

/// What was done to a table.
#[derive(Clone, Copy, PartialEq, Eq, Hash, Debug)]
pub enum Made {
    AsItIs,
    /// The links are damaged.
    Links(Damage),
    /// What the table holds is damaged, and the links are right.
    Table(sound::Clause),
    /// The links are changed blindly.
    LinksBlindly(blind::Spoil),
    /// The whole image is changed blindly.
    Blindly(Spoil),
}

impl Made {
    /// Everything that is done.
    pub fn all() -> Vec<Made> {
        let mut all = vec![Made::AsItIs];
        all.extend(Damage::ALL.iter().copied().map(Made::Links));
        all.extend(of_tables().into_iter().map(Made::Table));
        all.extend(blind::Spoil::ALL.iter().copied().map(Made::LinksBlindly));
        all.extend(Spoil::ALL.iter().copied().map(Made::Blindly));
        all
    }

    pub fn name(&self) -> String {
        match self {
            Made::AsItIs => "as it is".to_string(),
            Made::Links(damage) => format!("links: {:?}", damage),
            Made::Table(clause) => format!("table: {}", clause.name()),
            Made::LinksBlindly(spoil) => format!("links, blindly: {:?}", spoil),
            Made::Blindly(spoil) => format!("blindly: {:?}", spoil),
        }
    }
}

pub struct Case {
    pub image: Vec<u8>,
    pub request: Request,
    pub made: Made,
}

pub struct Maker {
    tables: Tables,
    links: Due<Damage>,
    of_tables: Due<sound::Clause>,
    links_blindly: Due<blind::Spoil>,
    blindly: Due<Spoil>,
}

/// How often each family of damages is taken.
const WEIGHTS: [u32; 4] = [9, 7, 3, 1];

const DEAL_ONCE_IN: u32 = 15;

impl Maker {
    pub fn new(seed: u64) -> Maker {
        Maker {
            tables: Tables::new(seed),
            links: Due::new(Damage::ALL.to_vec()),
            of_tables: Due::new(of_tables()),
            links_blindly: Due::new(blind::Spoil::ALL.to_vec()),
            blindly: Due::new(Spoil::ALL.to_vec()),
        }
    }

    /// Tables are dealt out now and then, for links matter most where several lists have a middle.
    pub fn case(&mut self) -> Case {
        let damage = self.tables.go_on();
        if self.tables.random.once_in(DEAL_ONCE_IN) {
            self.tables.deal();
        }
        if damage {
            self.damaged()
        } else {
            self.as_it_is(Made::AsItIs)
        }
    }

    fn as_it_is(&mut self, made: Made) -> Case {
        Case {
            image: links::write(self.tables.table()).to_vec(),
            request: self.tables.request(),
            made,
        }
    }

    /// As with rows, an image that stays sound gets a request of its own.
    fn damaged(&mut self) -> Case {
        let sound = self.as_it_is(Made::AsItIs);
        let (made, image) = self.changed(&sound.image);
        match links::read(&image) {
            None => Case { image, made, ..sound },
            Some(table) => {
                self.tables.set_table(table);
                self.as_it_is(made)
            }
        }
    }

    fn changed(&mut self, sound: &[u8]) -> (Made, Vec<u8>) {
        let random = &mut self.tables.random;
        match random.weighted(&WEIGHTS) {
            0 => {
                let (kind, image) = self.links.take(random, |kind, random| damage(kind, sound, random));
                (Made::Links(kind), image)
            }
            1 => {
                let rows = rows_of(sound);
                let broken = |clause, random: &mut _| with_links(&break_clause(clause, &rows, random)?);
                let (clause, image) = self.of_tables.take(random, broken);
                (Made::Table(clause), image)
            }
            2 => {
                let spoilt = |kind, random: &mut _| blind::spoil(kind, sound, random);
                let (kind, image) = self.links_blindly.take(random, spoilt);
                (Made::LinksBlindly(kind), image)
            }
            _ => {
                let spoilt = |kind, random: &mut _| Some(spoil(kind, sound, random));
                let (kind, image) = self.blindly.take(random, spoilt);
                (Made::Blindly(kind), image)
            }
        }
    }
}

/// The clauses on tables that an image with links can break by what it holds.
fn of_tables() -> Vec<sound::Clause> {
    let has_links = |clause: &sound::Clause| Clause::of_table(*clause).is_some();
    sound::Clause::ALL.iter().copied().filter(has_links).collect()
}
