//! The machine of the scope in plain Rust, with a player of schedule files.
//!
//! It is written from the document alone and takes nothing from the proved crates, so that the two can judge each
//! other. It is also the baseline of the timing runs: plain loops over two arrays, nothing copied that need not be.
//!
//! The machine owns its words and starts fresh, so answers 1 (length) and 2 (broken) cannot come up here.

use common::answer::{
    DECLINED, DONE, FOUR_GUARDS, GONE, GUARDS_OPEN, HELD, LOCKED, LOG_FULL, NONE, NOT_NOW, NO_GUARD, NO_SLOT,
    OPERATION, SLOTS_FULL,
};
use common::file::{BAD_CALL, BAD_MARK, BAD_VERSION, PLAYED, SHORT_OUTPUT, TORN};
use common::kind::{ADD, CLEAR, DROP};
use common::{
    call, Record, Reply, BATCH_ROOM, ENTRY, GUARDS, HEADER, HEAD_WORDS, LOG_ROOM, LOG_WORDS, MARK, OPERATION_WORDS,
    PAIRS, PAIR_WORDS, RECORD, SLOTS, VERSION, WORDS,
};
use std::collections::VecDeque;
use std::ops::Range;

fn done(value: u64) -> Reply {
    Reply { answer: DONE, value }
}

/// Refusals, and the answers that carry no value.
fn only(answer: u8) -> Reply {
    Reply { answer, value: 0 }
}

// ---------------------------------------------------------------------------------------------------------------
// The table on one copy

#[derive(Clone, Copy, Debug, PartialEq, Eq)]
pub struct Operation {
    pub kind: u8,
    pub key: u64,
    pub amount: u64,
}

impl Operation {
    pub fn of(append: Record) -> Operation {
        Operation { kind: append.kind, key: append.key, amount: append.amount }
    }

    pub fn is_good(&self) -> bool {
        match self.kind {
            ADD => self.amount >= 1,
            DROP => self.amount == 0,
            CLEAR => self.key == 0 && self.amount == 0,
            _ => false,
        }
    }
}

/// The first word of a pair; behind the last used pair, the first unused word.
fn place(pair: usize) -> usize {
    HEAD_WORDS + PAIR_WORDS * pair
}

/// Entry count, spill, then the pairs (fingerprint, count) in rising order; unused words are zero.
#[derive(Clone)]
pub struct Table {
    pub words: [u64; WORDS],
}

impl Table {
    fn empty() -> Table {
        Table { words: [0; WORDS] }
    }

    pub fn used(&self) -> usize {
        self.words[0] as usize
    }

    pub fn spill(&self) -> u64 {
        self.words[1]
    }

    /// The used part: entry count, spill and the used pairs.
    pub fn view(&self) -> &[u64] {
        &self.words[..place(self.used())]
    }

    /// How many pairs have a smaller key. The pairs of a table that began empty are in rising order, so the pair
    /// with the key, if there is one, stands right behind these.
    #[cfg(not(feature = "halving"))]
    fn smaller(&self, key: u64) -> usize {
        let used = self.used();
        let pairs = &self.words[HEAD_WORDS..place(used)];
        pairs.chunks_exact(PAIR_WORDS).position(|pair| pair[0] >= key).unwrap_or(used)
    }

    /// The same by halving, to time against a player that halves.
    #[cfg(feature = "halving")]
    fn smaller(&self, key: u64) -> usize {
        let (mut low, mut high) = (0, self.used());
        while low < high {
            let middle = (low + high) / 2;
            if self.words[place(middle)] < key {
                low = middle + 1;
            } else {
                high = middle;
            }
        }
        low
    }

    /// The two words of a key's pair, or none.
    pub fn look_up(&self, key: u64) -> Option<&[u64]> {
        let at = self.smaller(key);
        let word = place(at);
        if at < self.used() && self.words[word] == key {
            Some(&self.words[word..word + PAIR_WORDS])
        } else {
            None
        }
    }

    pub fn apply(&mut self, operation: Operation) {
        match operation.kind {
            ADD => self.add(operation.key, operation.amount),
            DROP => self.remove(operation.key),
            _ => self.words = [0; WORDS],
        }
    }

    fn add(&mut self, key: u64, amount: u64) {
        let used = self.used();
        let at = self.smaller(key);
        let word = place(at);
        if at < used && self.words[word] == key {
            self.words[word + 1] = self.words[word + 1].saturating_add(amount);
        } else if used == PAIRS {
            self.words[1] = self.words[1].saturating_add(1);
        } else {
            self.words.copy_within(word..place(used), word + PAIR_WORDS);
            self.words[word] = key;
            self.words[word + 1] = amount;
            self.words[0] += 1;
        }
    }

    fn remove(&mut self, key: u64) {
        let used = self.used();
        let at = self.smaller(key);
        let word = place(at);
        if at < used && self.words[word] == key {
            let end = place(used);
            self.words.copy_within(word + PAIR_WORDS..end, word);
            self.words[end - PAIR_WORDS..end].fill(0);
            self.words[0] -= 1;
        }
    }
}

// ---------------------------------------------------------------------------------------------------------------
// The machine

/// Which copy: 0 is the left one, 1 the right one.
pub type Side = usize;

pub const LEFT: Side = 0;
pub const RIGHT: Side = 1;

/// What a handle still has to do after an enter.
#[derive(Clone, Copy, Debug, PartialEq, Eq)]
pub enum Due {
    Nothing,
    Load,
    /// The load found null: the epoch has to go back to even.
    Restore,
}

#[derive(Clone, Copy, Debug)]
pub struct Slot {
    pub used: bool,
    pub epoch: u64,
    pub guards: [Option<Side>; GUARDS],
    pub due: Due,
}

impl Slot {
    const FREE: Slot = Slot { used: false, epoch: 0, guards: [None; GUARDS], due: Due::Nothing };

    fn guarded(&self) -> bool {
        self.guards.iter().any(|guard| guard.is_some())
    }
}

/// Whose publish is under way. They share their steps, and differ in how they begin and end.
#[derive(Clone, Copy, Debug, PartialEq, Eq)]
pub enum Whose {
    /// publish, or a flush that found something to do
    Publish,
    Try,
    TakeFirst,
    TakeSecond,
}

/// Where the writer stands: each case is the step that comes next.
#[derive(Clone, Copy, Debug, PartialEq, Eq)]
pub enum Phase {
    Idle,
    Poll(Whose, usize),
    CopyOver(Whose),
    /// the oldest operation, which the read copy has already
    Drain(Whose),
    /// the operation at this place of the log, which neither copy has
    Keep(Whose, usize),
    Swap(Whose),
    Snapshot(Whose, usize),
    /// take's publishes begin in a step of their own
    Begin(Whose),
    Null,
    Lock,
    LastSnapshot(usize),
    LastPoll(usize),
    Finish,
    Gone,
}

enum Stepped {
    Made,
    Ended,
    Held,
    Declined,
}

pub struct Machine {
    pub copies: [Table; 2],
    pub log: VecDeque<Operation>,
    pub swap_index: usize,
    pub slots: [Slot; SLOTS],
    pub snapshots: [u64; SLOTS],
    /// Slots freed and not handed out since, the one freed last at the end.
    freed: Vec<usize>,
    /// Slots that were never in use.
    unused: Range<usize>,
    /// The copy that the pointer names, or named before it became null.
    pub pointer: Side,
    pub null: bool,
    pub locked: bool,
    pub phase: Phase,
    pub first: bool,
    pub second: bool,
}

impl Machine {
    pub fn fresh() -> Machine {
        let mut slots = [Slot::FREE; SLOTS];
        slots[0].used = true;
        Machine {
            copies: [Table::empty(), Table::empty()],
            log: VecDeque::with_capacity(LOG_ROOM),
            swap_index: 0,
            slots,
            snapshots: [0; SLOTS],
            freed: Vec::with_capacity(SLOTS),
            unused: 1..SLOTS,
            pointer: LEFT,
            null: false,
            locked: false,
            phase: Phase::Idle,
            first: true,
            second: true,
        }
    }

    /// A writer call has begun and not ended.
    pub fn under_way(&self) -> bool {
        self.phase != Phase::Idle && self.phase != Phase::Gone
    }

    /// The log as the document lays it out: three words an operation, oldest first, unused words zero.
    pub fn log_words(&self) -> [u64; LOG_WORDS] {
        let mut words = [0; LOG_WORDS];
        for (operation, place) in self.log.iter().zip(words.chunks_exact_mut(OPERATION_WORDS)) {
            place.copy_from_slice(&[operation.kind as u64, operation.key, operation.amount]);
        }
        words
    }

    /// What a guard shows: the used part of the copy that it stands on.
    pub fn view(&self, slot: usize, guard: usize) -> Option<&[u64]> {
        let side = (*self.slots.get(slot)?.guards.get(guard)?)?;
        Some(self.copies[side].view())
    }

    // ---- handles

    pub fn create(&mut self) -> Reply {
        if self.locked {
            return only(LOCKED);
        }
        // As the crate's slab: the slot freed last, and a new number, the lowest, only where none is freed.
        let Some(free) = self.freed.pop().or_else(|| self.unused.next()) else {
            return only(SLOTS_FULL);
        };
        // The snapshot stays: the crate keeps it too, and a publish may be held by it (P8).
        self.slots[free] = Slot { used: true, ..Slot::FREE };
        done(free as u64)
    }

    fn free(&mut self, at: usize) {
        self.slots[at].used = false;
        self.freed.push(at);
    }

    /// The refusals that every call on a handle shares, up to 6.
    fn handle(&self, slot: u8) -> Result<usize, Reply> {
        let at = slot as usize;
        if at >= SLOTS || !self.slots[at].used {
            return Err(only(NO_SLOT));
        }
        // Slot 0 is the writer's own handle, and the writer is busy.
        if at == 0 && self.under_way() {
            return Err(only(NOT_NOW));
        }
        Ok(at)
    }

    pub fn drop_handle(&mut self, slot: u8) -> Reply {
        let at = match self.handle(slot) {
            Ok(at) => at,
            Err(refused) => return refused,
        };
        if self.slots[at].due != Due::Nothing || (at == 0 && self.phase != Phase::Gone) {
            return only(NOT_NOW);
        }
        if self.locked {
            return only(LOCKED);
        }
        if self.slots[at].guarded() {
            return only(GUARDS_OPEN);
        }
        self.free(at);
        done(0)
    }

    pub fn enter(&mut self, slot: u8) -> Reply {
        let at = match self.handle(slot) {
            Ok(at) => at,
            Err(refused) => return refused,
        };
        if self.slots[at].due != Due::Nothing {
            return only(NOT_NOW);
        }
        if self.slots[at].guarded() {
            // The epoch is odd already, so the load may follow at once.
            return self.load(at);
        }
        let slot = &mut self.slots[at];
        slot.epoch = slot.epoch.wrapping_add(1);
        slot.due = Due::Load;
        done(0)
    }

    /// Opens the lowest free guard on the copy that the pointer names.
    fn load(&mut self, at: usize) -> Reply {
        let slot = &mut self.slots[at];
        let Some(guard) = slot.guards.iter().position(|guard| guard.is_none()) else {
            return only(FOUR_GUARDS);
        };
        if self.null {
            return only(NONE);
        }
        slot.guards[guard] = Some(self.pointer);
        done(guard as u64)
    }

    pub fn go_on(&mut self, slot: u8) -> Reply {
        let at = match self.handle(slot) {
            Ok(at) => at,
            Err(refused) => return refused,
        };
        match self.slots[at].due {
            Due::Nothing => only(NOT_NOW),
            Due::Load => {
                let reply = self.load(at);
                match reply.answer {
                    DONE => self.slots[at].due = Due::Nothing,
                    NONE => self.slots[at].due = Due::Restore,
                    _ => (),
                }
                reply
            }
            Due::Restore => {
                let slot = &mut self.slots[at];
                slot.epoch = slot.epoch.wrapping_add(1);
                slot.due = Due::Nothing;
                only(NONE)
            }
        }
    }

    pub fn release(&mut self, slot: u8, guard: u8) -> Reply {
        let at = match self.handle(slot) {
            Ok(at) => at,
            Err(refused) => return refused,
        };
        let slot = &mut self.slots[at];
        match slot.guards.get_mut(guard as usize) {
            Some(place) if place.is_some() => *place = None,
            _ => return only(NO_GUARD),
        }
        if !slot.guarded() {
            slot.epoch = slot.epoch.wrapping_add(1);
        }
        done(0)
    }

    pub fn look_up(&self, slot: u8, guard: u8, key: u64) -> Reply {
        let at = match self.handle(slot) {
            Ok(at) => at,
            Err(refused) => return refused,
        };
        match self.slots[at].guards.get(guard as usize) {
            Some(&Some(side)) => done(self.copies[side].look_up(key).map_or(0, |pair| pair[1])),
            _ => only(NO_GUARD),
        }
    }

    pub fn was_dropped(&self, slot: u8) -> Reply {
        match self.handle(slot) {
            Ok(_) => done(self.null as u64),
            Err(refused) => refused,
        }
    }

    // ---- the writer's calls

    /// 6 and 8 for the calls that begin something: the writer is busy, or its own handle is.
    fn writer_free(&self) -> Result<(), Reply> {
        if self.under_way() || self.slots[0].due != Due::Nothing {
            return Err(only(NOT_NOW));
        }
        if self.slots[0].guarded() {
            return Err(only(GUARDS_OPEN));
        }
        Ok(())
    }

    pub fn append(&mut self, operation: Operation) -> Reply {
        self.extend(&[operation])
    }

    /// A batch: all of it is taken, or none. Inlined, so that an append costs no more for being a batch of one.
    #[inline(always)]
    pub fn extend(&mut self, operations: &[Operation]) -> Reply {
        if self.phase == Phase::Gone {
            return only(GONE);
        }
        if operations.len() > BATCH_ROOM || !operations.iter().all(Operation::is_good) {
            return only(OPERATION);
        }
        if let Err(refused) = self.writer_free() {
            return refused;
        }
        if self.first {
            // No reader has ever been in the write copy. The crate enters and leaves its own handle meanwhile, once.
            for &operation in operations {
                self.copies[1 - self.pointer].apply(operation);
            }
            self.slots[0].epoch = self.slots[0].epoch.wrapping_add(2);
        } else if self.log.len() + operations.len() > LOG_ROOM {
            return only(LOG_FULL);
        } else {
            for &operation in operations {
                self.log.push_back(operation);
            }
        }
        done(0)
    }

    /// The begin of a publish: takes the lock and says which step is next.
    fn begin(&mut self, whose: Whose) {
        self.locked = true;
        self.phase = if self.first && whose != Whose::Try { Phase::Swap(whose) } else { Phase::Poll(whose, 0) };
    }

    fn begin_call(&mut self, whose: Whose) -> Reply {
        if self.phase == Phase::Gone {
            return only(GONE);
        }
        if let Err(refused) = self.writer_free() {
            return refused;
        }
        self.begin(whose);
        done(0)
    }

    pub fn publish(&mut self) -> Reply {
        self.begin_call(Whose::Publish)
    }

    pub fn try_publish(&mut self) -> Reply {
        self.begin_call(Whose::Try)
    }

    pub fn flush(&mut self) -> Reply {
        if self.phase == Phase::Gone {
            return only(GONE);
        }
        if let Err(refused) = self.writer_free() {
            return refused;
        }
        if self.swap_index >= self.log.len() {
            return done(0);
        }
        self.begin(Whose::Publish);
        done(1)
    }

    pub fn take(&mut self) -> Reply {
        if self.phase == Phase::Gone {
            return only(GONE);
        }
        if let Err(refused) = self.writer_free() {
            return refused;
        }
        // The lock is not taken yet: each publish within takes it, and after null the step for it.
        self.phase = if self.first || !self.log.is_empty() { Phase::Begin(Whose::TakeFirst) } else { Phase::Null };
        done(0)
    }

    pub fn step(&mut self) -> Reply {
        match self.phase {
            Phase::Gone => only(GONE),
            Phase::Idle => only(NOT_NOW),
            _ => match self.make_step() {
                Stepped::Made => done(0),
                Stepped::Ended => done(1),
                Stepped::Held => only(HELD),
                Stepped::Declined => Reply { answer: DECLINED, value: 1 },
            },
        }
    }

    pub fn run(&mut self) -> Reply {
        match self.phase {
            Phase::Gone => return only(GONE),
            Phase::Idle => return only(NOT_NOW),
            _ => (),
        }
        let mut steps = 0;
        loop {
            match self.make_step() {
                Stepped::Made => steps += 1,
                Stepped::Ended => return done(steps + 1),
                Stepped::Held => return Reply { answer: HELD, value: steps },
                Stepped::Declined => return Reply { answer: DECLINED, value: steps },
            }
        }
    }

    // ---- the writer's steps

    /// May a poll go by this slot? The epochs may have gone round, so only "unlike" says anything.
    fn passes(&self, at: usize) -> bool {
        let seen = self.snapshots[at];
        !self.slots[at].used || seen % 2 == 0 || self.slots[at].epoch != seen
    }

    fn take_snapshot(&mut self, at: usize) {
        if self.slots[at].used {
            self.snapshots[at] = self.slots[at].epoch;
        }
    }

    /// The next step of a publish, once its polls are behind it.
    fn work(&self, whose: Whose) -> Phase {
        if self.first {
            Phase::Swap(whose)
        } else if self.second {
            Phase::CopyOver(whose)
        } else {
            self.operations(whose)
        }
    }

    fn operations(&self, whose: Whose) -> Phase {
        if self.swap_index > 0 {
            Phase::Drain(whose)
        } else {
            self.kept(whose, 0)
        }
    }

    fn kept(&self, whose: Whose, at: usize) -> Phase {
        if at < self.log.len() {
            Phase::Keep(whose, at)
        } else {
            Phase::Swap(whose)
        }
    }

    fn make_step(&mut self) -> Stepped {
        let write = 1 - self.pointer;
        match self.phase {
            Phase::Poll(whose, at) => {
                if !self.passes(at) {
                    if whose != Whose::Try {
                        return Stepped::Held;
                    }
                    self.locked = false;
                    self.phase = Phase::Idle;
                    return Stepped::Declined;
                }
                self.phase = if at + 1 < SLOTS { Phase::Poll(whose, at + 1) } else { self.work(whose) };
            }
            Phase::CopyOver(whose) => {
                let (left, right) = self.copies.split_at_mut(1);
                if write == LEFT {
                    left[0].words.copy_from_slice(&right[0].words);
                } else {
                    right[0].words.copy_from_slice(&left[0].words);
                }
                self.second = false;
                self.phase = self.operations(whose);
            }
            Phase::Drain(whose) => {
                if let Some(operation) = self.log.pop_front() {
                    self.copies[write].apply(operation);
                }
                self.swap_index -= 1;
                self.phase = self.operations(whose);
            }
            Phase::Keep(whose, at) => {
                self.copies[write].apply(self.log[at]);
                self.phase = self.kept(whose, at + 1);
            }
            Phase::Swap(whose) => {
                self.first = false;
                self.swap_index = self.log.len();
                self.pointer = write;
                self.phase = Phase::Snapshot(whose, 0);
            }
            Phase::Snapshot(whose, at) => {
                self.take_snapshot(at);
                if at + 1 < SLOTS {
                    self.phase = Phase::Snapshot(whose, at + 1);
                } else {
                    self.locked = false;
                    return self.published(whose);
                }
            }
            Phase::Begin(whose) => self.begin(whose),
            Phase::Null => {
                self.null = true;
                self.phase = Phase::Lock;
            }
            Phase::Lock => {
                self.locked = true;
                self.phase = Phase::LastSnapshot(0);
            }
            Phase::LastSnapshot(at) => {
                self.take_snapshot(at);
                self.phase = if at + 1 < SLOTS { Phase::LastSnapshot(at + 1) } else { Phase::LastPoll(0) };
            }
            Phase::LastPoll(at) => {
                if !self.passes(at) {
                    return Stepped::Held;
                }
                self.phase = if at + 1 < SLOTS { Phase::LastPoll(at + 1) } else { Phase::Finish };
            }
            Phase::Finish => {
                self.copies[write] = Table::empty();
                self.log.clear();
                self.swap_index = 0;
                self.free(0);
                self.locked = false;
                self.phase = Phase::Gone;
                return Stepped::Ended;
            }
            Phase::Idle | Phase::Gone => unreachable!("step and run look first"),
        }
        Stepped::Made
    }

    /// A publish has made its last step: the call ends with it, unless take goes on.
    fn published(&mut self, whose: Whose) -> Stepped {
        match whose {
            Whose::Publish | Whose::Try => {
                self.phase = Phase::Idle;
                Stepped::Ended
            }
            Whose::TakeFirst if !self.log.is_empty() => {
                self.phase = Phase::Begin(Whose::TakeSecond);
                Stepped::Made
            }
            Whose::TakeFirst | Whose::TakeSecond => {
                self.phase = Phase::Null;
                Stepped::Made
            }
        }
    }
}

// ---------------------------------------------------------------------------------------------------------------
// Schedules

impl Machine {
    /// The first record's call. A batch goes through its members too.
    pub fn call(&mut self, records: &mut impl Iterator<Item = Record>) -> Reply {
        let record = records.next().expect("a record");
        let Record { call, slot, guard, key, amount, .. } = record;
        match call {
            call::CREATE => self.create(),
            call::DROP => self.drop_handle(slot),
            call::ENTER => self.enter(slot),
            call::GO_ON => self.go_on(slot),
            call::RELEASE => self.release(slot, guard),
            call::LOOK_UP => self.look_up(slot, guard, key),
            call::WAS_DROPPED => self.was_dropped(slot),
            call::APPEND => self.append(Operation::of(record)),
            call::PUBLISH => self.publish(),
            call::TRY => self.try_publish(),
            call::FLUSH => self.flush(),
            call::TAKE => self.take(),
            call::STEP => self.step(),
            call::RUN => self.run(),
            call::BATCH => {
                let members: Vec<Operation> = records.take(amount as usize).map(Operation::of).collect();
                self.extend(&members)
            }
            _ => unreachable!("the file is checked before it is played"),
        }
    }
}

/// How many entries these records have. Else the place of the first that is refused: its call is none, or it is a batch
/// that is not followed by as many appends as it asks for.
fn entries(records: &[u8]) -> Result<usize, usize> {
    let (mut entries, mut place) = (0, 0);
    let mut rest = records.chunks_exact(RECORD);
    while let Some(record) = rest.next() {
        let called = (call::FIRST..=call::LAST).contains(&record[0]);
        let members = if record[0] == call::BATCH { Record::from_bytes(record).amount } else { 0 };
        let short = members > rest.len() as u64;
        if !called || short || rest.by_ref().take(members as usize).any(|member| member[0] != call::APPEND) {
            return Err(place);
        }
        entries += 1;
        place += 1 + members as usize;
    }
    Ok(entries)
}

/// Plays a schedule from a fresh machine: the answer, and how many bytes of `out` were written.
/// A refused file writes nothing, and what lies behind the transcript is never touched.
pub fn play(schedule: &[u8], out: &mut [u8]) -> (u64, u64) {
    if schedule.len() < HEADER || schedule[..MARK.len()] != MARK {
        return (BAD_MARK, 0);
    }
    if schedule[MARK.len()..HEADER] != VERSION {
        return (BAD_VERSION, 0);
    }
    let records = &schedule[HEADER..];
    if records.len() % RECORD != 0 {
        return (TORN, 0);
    }
    let Ok(entries) = entries(records) else {
        return (BAD_CALL, 0);
    };
    let written = entries * ENTRY;
    if out.len() < written {
        return (SHORT_OUTPUT, 0);
    }
    let mut machine = Machine::fresh();
    let mut records = records.chunks_exact(RECORD).map(Record::from_bytes);
    for entry in out[..written].chunks_exact_mut(ENTRY) {
        entry.copy_from_slice(&machine.call(&mut records).to_bytes());
    }
    (PLAYED, written as u64)
}

#[cfg(test)]
mod tests;
