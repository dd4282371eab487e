//! Which answers each call can give at all: worked out from 01, Answers and Calls.
//! Call 0 stands for every number that isn't in the list of calls. A pair that can't occur has its reason.

use crate::calls::answer::{NOT_SOUND, NO_SUCH_CALL, WAITS};
use crate::calls::number::*;

/// The calls counted: 0 for every number not in the list, then those of the list.
pub const CALLS: u32 = LAST + 1;
/// The answers counted, 0 among them.
pub const ANSWERS: u32 = WAITS + 1;

/// Every pair of call and answer.
pub fn all() -> impl Iterator<Item = (u32, u32)> {
    (0..CALLS).flat_map(|call| (0..ANSWERS).map(move |answer| (call, answer)))
}

/// Calls of the list: these, or all the others.
enum Calls {
    Only(&'static [u32]),
    AllBut(&'static [u32]),
}

impl Calls {
    fn contain(&self, call: u32) -> bool {
        match self {
            Calls::Only(calls) => calls.contains(&call),
            Calls::AllBut(calls) => !calls.contains(&call),
        }
    }
}

use Calls::{AllBut, Only};

/// An answer, the calls of the list that can give it, and why no other call of the list can.
struct Rule {
    calls: Calls,
    others: &'static str,
}

const RULES: [Rule; ANSWERS as usize] = [
    Rule {
        calls: AllBut(&[SLEEP]),
        others: "an accepted sleep is 10, the caller sleeps",
    },
    Rule {
        calls: AllBut(&[]),
        others: "",
    },
    Rule {
        calls: Only(&[]),
        others: "the number is in the list",
    },
    Rule {
        calls: AllBut(&[EXIT, YIELD, SLEEP, SCHEDULING, ADVANCE]),
        others: "the call takes no id: one that isn't 0 is 4",
    },
    Rule {
        calls: AllBut(&[]),
        others: "",
    },
    Rule {
        calls: Only(&[CREATE_THREAD, CREATE_SEMAPHORE, CREATE_MUTEX, CREATE_FLAGS]),
        others: "no create, and timers are always there",
    },
    Rule {
        calls: Only(&[EXIT, YIELD, SLEEP, PEND, CLAIM, RELEASE, WAIT]),
        others: "needs no running thread",
    },
    Rule {
        calls: Only(&[STOP, EXIT, YIELD, SLEEP, PEND, CLAIM, WAIT]),
        others: "goes through with scheduling off",
    },
    Rule {
        calls: Only(&[START, STOP, EXIT, RELEASE]),
        others: "names no wrong state",
    },
    Rule {
        calls: Only(&[POST, CLAIM]),
        others: "neither a post nor a claim, so nothing is full",
    },
    Rule {
        calls: Only(&[SLEEP, PEND, CLAIM, WAIT]),
        others: "never makes its caller wait or sleep",
    },
];

/// Why this call can never give this answer; nothing where it can.
pub fn unreachable(call: u32, answer: u32) -> Option<&'static str> {
    if call == 0 {
        return match answer {
            NOT_SOUND | NO_SUCH_CALL => None,
            _ => Some("a number not in the list is 2 whatever else is wrong"),
        };
    }
    let rule = &RULES[answer as usize];
    if rule.calls.contain(call) {
        None
    } else {
        Some(rule.others)
    }
}

#[cfg(test)]
mod tests {
    use super::*;

    #[test]
    fn every_unreachable_pair_has_a_reason() {
        let reasons: Vec<&str> = all().filter_map(|(call, answer)| unreachable(call, answer)).collect();
        assert!(reasons.iter().all(|reason| !reason.is_empty()));
        assert_eq!((CALLS * ANSWERS) as usize - reasons.len(), 112);
    }
}
