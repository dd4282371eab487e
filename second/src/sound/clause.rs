//! The clauses of soundness, each separate demand of document 01's paragraph one clause, in the paragraph's order.
//! The paragraph's parts, between its semicolons, are numbered 1 to 16 here; a clause names its part.

#[derive(Clone, Copy, PartialEq, Eq, PartialOrd, Ord, Hash, Debug)]
pub enum Clause {
    ImageLength,

    SchedulingRange,
    ChosenRange,
    ThreadCreatedRange,
    BaseRange,
    CurrentRange,
    ResultRange,
    SemaphoreCreatedRange,
    MaximumZero,
    MutexCreatedRange,
    OwnerRange,
    FlagsCreatedRange,
    RepeatRange,
    ReadyLength,
    SleepLength,
    StoppedLength,
    SemaphoreWaitLength,
    MutexWaitLength,
    FlagsWaitLength,
    ReadyIdRange,
    SleepIdRange,
    StoppedIdRange,
    SemaphoreWaitIdRange,
    MutexWaitIdRange,
    FlagsWaitIdRange,
    ReadyPastEnd,
    SleepPastEnd,
    StoppedPastEnd,
    SemaphoreWaitPastEnd,
    MutexWaitPastEnd,
    FlagsWaitPastEnd,

    CreatedOnNoList,
    CreatedOnTwoLists,
    CreatedTwiceOnOneList,
    AbsentOnList,
    AbsentNotZero,

    ReadyPriority,

    SemaphoreWaitOrder,
    MutexWaitOrder,
    FlagsWaitOrder,

    CurrentBelowBase,
    CurrentAboveBase,

    CountWithWaiters,
    CountAboveMaximum,

    UnownedOwnerNotZero,
    UnownedWithWaiters,
    OwnerAbsent,
    OwnerAmongWaiters,

    AnySetHolds,
    AllSetHolds,
    AnyClearHolds,
    AllClearHolds,
    FlagWaiterMaskZero,
    FlagWaiterModeRange,

    LeftAbovePeriod,
    PeriodZeroNotZero,
    KindRange,
    NothingWithObject,
    NothingWithMask,
    PostObjectRange,
    PostObjectAbsent,
    PostWithMask,
    SetObjectRange,
    SetObjectAbsent,
    SetMaskZero,

    SleeperLimitZero,
    ReadyLimit,
    StoppedLimit,

    MaskWithoutFlagWait,
    ModeWithoutFlagWait,

    SemaphoreWaiterResult,
    MutexWaiterResult,
    FlagWaiterResult,
    SleeperResult,

    QuantumLeftZero,
    QuantumLeftAboveQuantum,
    QuantumZeroWithLeft,

    SemaphoreAbsentNotZero,
    MutexAbsentNotZero,
    FlagsAbsentNotZero,
    SemaphoreAbsentWithWaiters,
    MutexAbsentWithWaiters,
    FlagsAbsentWithWaiters,

    OnChosenInLowerList,
    OnChosenBehindHead,
    OnChosenNotReady,
    OnNoneThoughReady,
    OnChosenThoughNoneReady,

    OffChosenNotReady,
}

use Clause::*;

/// A clause, its part of the paragraph (0: the sentence on the image's length, below the paragraph), its name, and
/// what breaks it.
struct Entry(Clause, u32, &'static str, &'static str);

const COUNT: usize = 89;

#[rustfmt::skip]
const ENTRIES: [Entry; COUNT] = [
    Entry(ImageLength, 0, "image-length", "the image is too short or too long"),

    Entry(SchedulingRange, 1, "scheduling-range", "scheduling is neither 0 nor 1"),
    Entry(ChosenRange, 1, "chosen-range", "chosen is neither a thread's id nor 255"),
    Entry(ThreadCreatedRange, 1, "thread-created-range", "created of a thread is above 1"),
    Entry(BaseRange, 1, "base-range", "a base priority is above 7"),
    Entry(CurrentRange, 1, "current-range", "a current priority is above 7"),
    Entry(ResultRange, 1, "result-range", "a last result is above 2"),
    Entry(SemaphoreCreatedRange, 1, "semaphore-created-range", "created of a semaphore is above 1"),
    Entry(MaximumZero, 1, "maximum-zero", "the maximum of a created semaphore is 0"),
    Entry(MutexCreatedRange, 1, "mutex-created-range", "created of a mutex is above 1"),
    Entry(OwnerRange, 1, "owner-range", "the owner of a mutex is no thread's id"),
    Entry(FlagsCreatedRange, 1, "flags-created-range", "created of a flag object is above 1"),
    Entry(RepeatRange, 1, "repeat-range", "repeat of a timer is above 1"),
    Entry(ReadyLength, 1, "ready-length", "a ready list's length is above 16"),
    Entry(SleepLength, 1, "sleep-length", "the sleep list's length is above 16"),
    Entry(StoppedLength, 1, "stopped-length", "the stopped list's length is above 16"),
    Entry(SemaphoreWaitLength, 1, "semaphore-wait-length", "the length of a semaphore's wait list is above 16"),
    Entry(MutexWaitLength, 1, "mutex-wait-length", "the length of a mutex's wait list is above 16"),
    Entry(FlagsWaitLength, 1, "flags-wait-length", "the length of a flag object's wait list is above 16"),
    Entry(ReadyIdRange, 1, "ready-id-range", "an entry of a ready list is no thread's id"),
    Entry(SleepIdRange, 1, "sleep-id-range", "an entry of the sleep list is no thread's id"),
    Entry(StoppedIdRange, 1, "stopped-id-range", "an entry of the stopped list is no thread's id"),
    Entry(SemaphoreWaitIdRange, 1, "semaphore-wait-id-range", "an entry of a semaphore's wait list is no thread's id"),
    Entry(MutexWaitIdRange, 1, "mutex-wait-id-range", "an entry of a mutex's wait list is no thread's id"),
    Entry(FlagsWaitIdRange, 1, "flags-wait-id-range", "an entry of a flag object's wait list is no thread's id"),
    Entry(ReadyPastEnd, 1, "ready-past-end", "a place past the end of a ready list isn't 0"),
    Entry(SleepPastEnd, 1, "sleep-past-end", "a place past the end of the sleep list isn't 0"),
    Entry(StoppedPastEnd, 1, "stopped-past-end", "a place past the end of the stopped list isn't 0"),
    Entry(SemaphoreWaitPastEnd, 1, "semaphore-wait-past-end", "a place past a semaphore's wait list isn't 0"),
    Entry(MutexWaitPastEnd, 1, "mutex-wait-past-end", "a place past the end of a mutex's wait list isn't 0"),
    Entry(FlagsWaitPastEnd, 1, "flags-wait-past-end", "a place past the end of a flag object's wait list isn't 0"),

    Entry(CreatedOnNoList, 2, "created-on-no-list", "a created thread is on no list"),
    Entry(CreatedOnTwoLists, 2, "created-on-two-lists", "a created thread is on two lists or more"),
    Entry(CreatedTwiceOnOneList, 2, "created-twice-on-one-list", "a created thread is on one list twice or more"),
    Entry(AbsentOnList, 2, "absent-on-list", "an absent thread is on a list"),
    Entry(AbsentNotZero, 2, "absent-not-zero", "a field of an absent thread isn't 0"),

    Entry(ReadyPriority, 3, "ready-priority", "a ready list holds a thread of another current priority"),

    Entry(SemaphoreWaitOrder, 4, "semaphore-wait-order", "current priority rises along a semaphore's wait list"),
    Entry(MutexWaitOrder, 4, "mutex-wait-order", "current priority rises along a mutex's wait list"),
    Entry(FlagsWaitOrder, 4, "flags-wait-order", "current priority rises along a flag object's wait list"),

    Entry(CurrentBelowBase, 5, "current-below-base", "a thread's current priority is below its base"),
    Entry(CurrentAboveBase, 5, "current-above-base", "the current priority of one who owns no mutex is above its base"),

    Entry(CountWithWaiters, 6, "count-with-waiters", "a semaphore with waiters has a count"),
    Entry(CountAboveMaximum, 6, "count-above-maximum", "a semaphore's count is above its maximum"),

    Entry(UnownedOwnerNotZero, 7, "unowned-owner-not-zero", "a mutex of depth 0 has another owner written than 0"),
    Entry(UnownedWithWaiters, 7, "unowned-with-waiters", "a mutex of depth 0 has waiters"),
    Entry(OwnerAbsent, 7, "owner-absent", "the owner of a mutex isn't created"),
    Entry(OwnerAmongWaiters, 7, "owner-among-waiters", "the owner of a mutex waits for it"),

    Entry(AnySetHolds, 8, "any-set-holds", "a flag waiter of mode 0 has one of its bits set"),
    Entry(AllSetHolds, 8, "all-set-holds", "a flag waiter of mode 1 has all its bits set"),
    Entry(AnyClearHolds, 8, "any-clear-holds", "a flag waiter of mode 2 has one of its bits clear"),
    Entry(AllClearHolds, 8, "all-clear-holds", "a flag waiter of mode 3 has all its bits clear"),
    Entry(FlagWaiterMaskZero, 8, "flag-waiter-mask-zero", "a flag waiter's mask is 0"),
    Entry(FlagWaiterModeRange, 8, "flag-waiter-mode-range", "a flag waiter's mode is above 3"),

    Entry(LeftAbovePeriod, 9, "left-above-period", "left of a timer is above its period"),
    Entry(PeriodZeroNotZero, 9, "period-zero-not-zero", "a field of a timer of period 0 isn't 0"),
    Entry(KindRange, 9, "kind-range", "a timer's kind of action is above 2"),
    Entry(NothingWithObject, 9, "nothing-with-object", "a timer of kind 0 names an object"),
    Entry(NothingWithMask, 9, "nothing-with-mask", "a timer of kind 0 has a mask"),
    Entry(PostObjectRange, 9, "post-object-range", "a timer posts what is no semaphore's id"),
    Entry(PostObjectAbsent, 9, "post-object-absent", "a timer posts a semaphore that isn't created"),
    Entry(PostWithMask, 9, "post-with-mask", "a timer of kind 1 has a mask"),
    Entry(SetObjectRange, 9, "set-object-range", "a timer sets what is no flag object's id"),
    Entry(SetObjectAbsent, 9, "set-object-absent", "a timer sets a flag object that isn't created"),
    Entry(SetMaskZero, 9, "set-mask-zero", "a timer of kind 2 has mask 0"),

    Entry(SleeperLimitZero, 10, "sleeper-limit-zero", "a sleeper's limit left is 0"),
    Entry(ReadyLimit, 10, "ready-limit", "a ready thread has a limit left"),
    Entry(StoppedLimit, 10, "stopped-limit", "a stopped thread, or one on no list, has a limit left"),

    Entry(MaskWithoutFlagWait, 11, "mask-without-flag-wait", "who doesn't wait for flags has a mask"),
    Entry(ModeWithoutFlagWait, 11, "mode-without-flag-wait", "who doesn't wait for flags has a mode"),

    Entry(SemaphoreWaiterResult, 12, "semaphore-waiter-result", "who waits for a semaphore has a result"),
    Entry(MutexWaiterResult, 12, "mutex-waiter-result", "who waits for a mutex has a result"),
    Entry(FlagWaiterResult, 12, "flag-waiter-result", "who waits for flags has a result"),
    Entry(SleeperResult, 12, "sleeper-result", "a sleeper has a result"),

    Entry(QuantumLeftZero, 13, "quantum-left-zero", "a quantum above 0 has 0 left"),
    Entry(QuantumLeftAboveQuantum, 13, "quantum-left-above-quantum", "a quantum above 0 has more left than itself"),
    Entry(QuantumZeroWithLeft, 13, "quantum-zero-with-left", "a quantum of 0 has something left"),

    Entry(SemaphoreAbsentNotZero, 14, "semaphore-absent-not-zero", "a field of a semaphore not created isn't 0"),
    Entry(MutexAbsentNotZero, 14, "mutex-absent-not-zero", "a field of a mutex not created isn't 0"),
    Entry(FlagsAbsentNotZero, 14, "flags-absent-not-zero", "a field of a flag object not created isn't 0"),
    Entry(SemaphoreAbsentWithWaiters, 14, "semaphore-absent-with-waiters", "a semaphore not created has waiters"),
    Entry(MutexAbsentWithWaiters, 14, "mutex-absent-with-waiters", "a mutex not created has waiters"),
    Entry(FlagsAbsentWithWaiters, 14, "flags-absent-with-waiters", "a flag object not created has waiters"),

    Entry(OnChosenInLowerList, 15, "on-chosen-in-lower-list", "scheduling on: chosen is ready, below the highest list"),
    Entry(OnChosenBehindHead, 15, "on-chosen-behind-head", "scheduling on: chosen is in the highest list, not head"),
    Entry(OnChosenNotReady, 15, "on-chosen-not-ready", "scheduling on: somebody is ready, and chosen isn't"),
    Entry(OnNoneThoughReady, 15, "on-none-though-ready", "scheduling on: none is chosen though somebody is ready"),
    Entry(OnChosenThoughNoneReady, 15, "on-chosen-though-none-ready", "scheduling on: one is chosen, nobody is ready"),

    Entry(OffChosenNotReady, 16, "off-chosen-not-ready", "scheduling off: chosen isn't ready"),
];

impl Clause {
    pub const ALL: [Clause; COUNT] = all();

    pub fn name(self) -> &'static str {
        ENTRIES[self as usize].2
    }

    /// What breaks the clause.
    pub fn breach(self) -> &'static str {
        ENTRIES[self as usize].3
    }

    /// The part of the paragraph on soundness that demands it (01, The table): 1 to 16, counted by its semicolons.
    /// 0 is the sentence on the image's length, which stands below the paragraph.
    pub fn part(self) -> u32 {
        ENTRIES[self as usize].1
    }
}

const fn all() -> [Clause; COUNT] {
    let mut all = [ImageLength; COUNT];
    let mut index = 0;
    while index < COUNT {
        all[index] = ENTRIES[index].0;
        index += 1;
    }
    all
}

#[cfg(test)]
mod tests {
    use super::*;

    #[test]
    fn each_clause_has_its_own_entry() {
        for (index, clause) in Clause::ALL.iter().enumerate() {
            assert_eq!(*clause as usize, index, "{:?}", clause);
        }
    }

    #[test]
    fn the_parts_are_in_the_order_of_the_paragraph() {
        assert!(Clause::ALL.windows(2).all(|pair| pair[0].part() <= pair[1].part()));
        for part in 1..=16 {
            assert!(Clause::ALL.iter().any(|clause| clause.part() == part), "part {}", part);
        }
    }
}
