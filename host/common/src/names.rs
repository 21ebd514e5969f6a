//! Every size, and every number that stands for something, once.

/// Handles at a time, the writer's own among them.
pub const SLOTS: usize = 16;
/// Open guards of one handle.
pub const GUARDS: usize = 4;

/// Keys of a table.
pub const PAIRS: usize = 512;
/// A key and its count.
pub const PAIR_WORDS: usize = 2;
/// Entry count and spill, before the pairs.
pub const HEAD_WORDS: usize = 2;
/// A copy.
pub const WORDS: usize = HEAD_WORDS + PAIR_WORDS * PAIRS;

/// Operations in the log.
pub const LOG_ROOM: usize = 256;
/// Kind, key and amount.
pub const OPERATION_WORDS: usize = 3;
pub const LOG_WORDS: usize = OPERATION_WORDS * LOG_ROOM;
/// Operations in a batch.
pub const BATCH_ROOM: usize = 64;

/// What a run counts where nothing holds it.
pub mod steps {
    /// The polls; the snapshots.
    pub const SLOTS: u64 = super::SLOTS as u64;
    /// A first publish, behind its beginning: swap, snapshots.
    pub const FIRST_PUBLISH: u64 = 1 + SLOTS;
    /// Every other one: polls, swap, snapshots. The copying and each operation come on top.
    pub const PUBLISH: u64 = SLOTS + FIRST_PUBLISH;
    /// Take, behind its publishes: null, lock, snapshots, polls, finish.
    pub const TAKE_END: u64 = 1 + 1 + SLOTS + SLOTS + 1;
}

/// A schedule begins with the mark and the version.
pub const MARK: [u8; 3] = *b"LRT";
pub const VERSION: [u8; 2] = [1, 0];
pub const HEADER: usize = MARK.len() + VERSION.len();
/// Bytes of a record: call, slot, guard, kind, key, amount.
pub const RECORD: usize = 4 + 8 + 8;
/// Bytes of a transcript's entry: answer, value.
pub const ENTRY: usize = 1 + 8;

/// The calls, as a schedule numbers them.
pub mod call {
    pub const CREATE: u8 = 1;
    pub const DROP: u8 = 2;
    pub const ENTER: u8 = 3;
    pub const GO_ON: u8 = 4;
    pub const RELEASE: u8 = 5;
    pub const LOOK_UP: u8 = 6;
    pub const WAS_DROPPED: u8 = 7;
    pub const APPEND: u8 = 8;
    pub const PUBLISH: u8 = 9;
    pub const TRY: u8 = 10;
    pub const FLUSH: u8 = 11;
    pub const TAKE: u8 = 12;
    pub const STEP: u8 = 13;
    pub const RUN: u8 = 14;
    pub const BATCH: u8 = 15;

    pub const FIRST: u8 = CREATE;
    pub const LAST: u8 = BATCH;
    pub const COUNT: usize = LAST as usize;

    /// In the text form, in the order of the numbers.
    pub const NAMES: [&str; COUNT] = [
        "create",
        "drop",
        "enter",
        "go-on",
        "release",
        "look-up",
        "was-dropped",
        "append",
        "publish",
        "try",
        "flush",
        "take",
        "step",
        "run",
        "batch",
    ];
}

/// The kinds of operations.
pub mod kind {
    pub const ADD: u8 = 1;
    pub const DROP: u8 = 2;
    pub const CLEAR: u8 = 3;
}

/// What a call is answered.
pub mod answer {
    pub const DONE: u8 = 0;
    pub const LENGTH: u8 = 1;
    pub const BROKEN: u8 = 2;
    pub const GONE: u8 = 3;
    pub const NO_SLOT: u8 = 4;
    pub const OPERATION: u8 = 5;
    pub const NOT_NOW: u8 = 6;
    pub const LOCKED: u8 = 7;
    pub const GUARDS_OPEN: u8 = 8;
    pub const NO_GUARD: u8 = 9;
    pub const FOUR_GUARDS: u8 = 10;
    pub const LOG_FULL: u8 = 11;
    pub const SLOTS_FULL: u8 = 12;
    pub const HELD: u8 = 13;
    pub const DECLINED: u8 = 14;
    pub const NONE: u8 = 15;

    pub const COUNT: usize = NONE as usize + 1;
}

/// What a file is answered.
pub mod file {
    pub const PLAYED: u64 = 0;
    pub const BAD_MARK: u64 = 21;
    pub const BAD_VERSION: u64 = 22;
    pub const TORN: u64 = 23;
    pub const BAD_CALL: u64 = 24;
    pub const SHORT_OUTPUT: u64 = 25;

    /// The smallest refusal, and how many there are.
    pub const FIRST: u64 = BAD_MARK;
    pub const COUNT: usize = (SHORT_OUTPUT - FIRST) as usize + 1;
}
