//! The numbers of the answers (01, Answers). 1 to 9 are refusals, and the lowest that is due is given.

pub const DONE: u32 = 0;
pub const NOT_SOUND: u32 = 1;
pub const NO_SUCH_CALL: u32 = 2;
/// The id, or the object of a timer's action, is out of range or isn't created.
pub const NOT_THERE: u32 = 3;
/// A number is outside its range, or an unused field isn't 0.
pub const OUT_OF_RANGE: u32 = 4;
pub const ALREADY_THERE: u32 = 5;
pub const NONE_RUNNING: u32 = 6;
pub const SCHEDULING_OFF: u32 = 7;
pub const WRONG_STATE: u32 = 8;
pub const FULL: u32 = 9;
/// Accepted: the caller now waits or sleeps.
pub const WAITS: u32 = 10;

/// Whether the answer is a refusal, one that leaves the table as it was.
pub fn is_refusal(answer: u32) -> bool {
    (NOT_SOUND..=FULL).contains(&answer)
}
