//! The clauses of soundness of an image with links: its length, what IMAGE.md demands of the links, and what 01 demands
//! of a table, as with rows. Clauses on the form of rows have no counterpart, and who stands in two places is told by
//! the links.

use crate::sound;

#[derive(Clone, Copy, PartialEq, Eq, PartialOrd, Ord, Hash, Debug)]
pub enum Clause {
    ImageLength,

    NextRange,
    FirstRange,
    PreviousRange,
    LastRange,

    ReadTwiceOnOneList,
    ReadOnTwoLists,

    PreviousOfFirst,
    PreviousMissing,
    PreviousWrong,

    NextBehindLast,

    LastOfEmpty,
    LastMissing,
    LastWrong,

    NextOffLists,
    PreviousOffLists,

    /// A clause on what the table holds.
    Table(sound::Clause),
}

impl Clause {
    /// What the links have to keep.
    pub const OF_LINKS: [Clause; 15] = [
        Clause::NextRange,
        Clause::FirstRange,
        Clause::PreviousRange,
        Clause::LastRange,
        Clause::ReadTwiceOnOneList,
        Clause::ReadOnTwoLists,
        Clause::PreviousOfFirst,
        Clause::PreviousMissing,
        Clause::PreviousWrong,
        Clause::NextBehindLast,
        Clause::LastOfEmpty,
        Clause::LastMissing,
        Clause::LastWrong,
        Clause::NextOffLists,
        Clause::PreviousOffLists,
    ];

    /// The clause on a table, if it is one with links too.
    pub fn of_table(clause: sound::Clause) -> Option<Clause> {
        if is_of_rows(clause) || is_told_by_links(clause) {
            None
        } else {
            Some(Clause::Table(clause))
        }
    }

    pub fn all() -> Vec<Clause> {
        let of_tables = sound::Clause::ALL.iter().copied().filter_map(Clause::of_table);
        let mut all = vec![Clause::ImageLength];
        all.extend(Clause::OF_LINKS);
        all.extend(of_tables);
        all
    }

    pub fn name(self) -> &'static str {
        match self {
            Clause::ImageLength => sound::Clause::ImageLength.name(),
            Clause::NextRange => "next-range",
            Clause::FirstRange => "first-range",
            Clause::PreviousRange => "previous-range",
            Clause::LastRange => "last-range",
            Clause::ReadTwiceOnOneList => "read-twice-on-one-list",
            Clause::ReadOnTwoLists => "read-on-two-lists",
            Clause::PreviousOfFirst => "previous-of-first",
            Clause::PreviousMissing => "previous-missing",
            Clause::PreviousWrong => "previous-wrong",
            Clause::NextBehindLast => "next-behind-last",
            Clause::LastOfEmpty => "last-of-empty",
            Clause::LastMissing => "last-missing",
            Clause::LastWrong => "last-wrong",
            Clause::NextOffLists => "next-off-lists",
            Clause::PreviousOffLists => "previous-off-lists",
            Clause::Table(clause) => clause.name(),
        }
    }

    /// What breaks the clause.
    pub fn breach(self) -> &'static str {
        match self {
            Clause::ImageLength => sound::Clause::ImageLength.breach(),
            Clause::NextRange => "a next is above 16",
            Clause::FirstRange => "a first is above 16",
            Clause::PreviousRange => "a previous is above 16",
            Clause::LastRange => "a last is above 16",
            Clause::ReadTwiceOnOneList => "somebody is read twice on one list",
            Clause::ReadOnTwoLists => "somebody is read on two lists",
            Clause::PreviousOfFirst => "the first of a list has a previous",
            Clause::PreviousMissing => "somebody behind another has no previous",
            Clause::PreviousWrong => "the previous of somebody isn't the one read before",
            Clause::NextBehindLast => "the sixteenth of a list has a next",
            Clause::LastOfEmpty => "an empty list has a last",
            Clause::LastMissing => "a list that isn't empty has no last",
            Clause::LastWrong => "the last of a list isn't the one read last",
            Clause::NextOffLists => "somebody on no list has a next",
            Clause::PreviousOffLists => "somebody on no list has a previous",
            Clause::Table(clause) => clause.breach(),
        }
    }
}

/// Lists with links have no length, no places past their end, and name nobody but threads.
fn is_of_rows(clause: sound::Clause) -> bool {
    use sound::Clause::*;
    matches!(
        clause,
        ImageLength
            | ReadyLength
            | SleepLength
            | StoppedLength
            | SemaphoreWaitLength
            | MutexWaitLength
            | FlagsWaitLength
            | ReadyIdRange
            | SleepIdRange
            | StoppedIdRange
            | SemaphoreWaitIdRange
            | MutexWaitIdRange
            | FlagsWaitIdRange
            | ReadyPastEnd
            | SleepPastEnd
            | StoppedPastEnd
            | SemaphoreWaitPastEnd
            | MutexWaitPastEnd
            | FlagsWaitPastEnd
    )
}

fn is_told_by_links(clause: sound::Clause) -> bool {
    matches!(
        clause,
        sound::Clause::CreatedOnTwoLists | sound::Clause::CreatedTwiceOnOneList
    )
}
