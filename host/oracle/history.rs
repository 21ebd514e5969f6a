//! Histories of whole calls, played through the crate and by our rules at once.

use crate::world::{work_done, Change, Counts, World, GUARDS, SLOTS};
use common::answer::{DECLINED, DONE, NONE};
use common::{answered, call, file, kind, steps, Player, Random, Record, Reply, BATCH_ROOM, ENTRY, LOG_ROOM};
use reference::{Machine, Operation, Phase};
use std::sync::Mutex;

/// A whole call: an enter goes on to its end, and publish, try, flush and take are run.
#[derive(Clone, Debug, PartialEq, Eq)]
pub enum Call {
    Create,
    Drop(usize),
    Enter(usize),
    Release(usize, usize),
    LookUp(usize, usize, u64),
    WasDropped(usize),
    Append(Operation),
    Batch(Vec<Operation>),
    Publish,
    Try,
    Flush,
    /// With slots that are dropped meanwhile: at which of the places where the lock is free, and which slot.
    Take(Vec<(usize, usize)>),
    /// No call: compares the whole table behind a guard, and looks up each of its keys.
    Table(usize, usize),
    /// No call: compares what the crate's Debug shows of its inside.
    Inside,
}

/// The calls of a history by number: for weights, and to count them.
mod number {
    pub const CREATE: usize = 0;
    pub const DROP: usize = 1;
    pub const ENTER: usize = 2;
    pub const RELEASE: usize = 3;
    pub const LOOK_UP: usize = 4;
    pub const WAS_DROPPED: usize = 5;
    pub const APPEND: usize = 6;
    pub const BATCH: usize = 7;
    pub const PUBLISH: usize = 8;
    pub const TRY: usize = 9;
    pub const FLUSH: usize = 10;
    pub const TAKE: usize = 11;
    pub const TABLE: usize = 12;
    pub const INSIDE: usize = 13;
}

pub const CREATES: usize = number::CREATE;
pub const CALLS: usize = number::INSIDE + 1;
pub const NAMES: [&str; CALLS] = [
    "creates",
    "drops",
    "enters",
    "releases",
    "look-ups",
    "was-dropped",
    "appends",
    "batches",
    "publishes",
    "tries",
    "flushes",
    "takes",
    "whole tables",
    "looks inside",
];

impl Call {
    pub fn number(&self) -> usize {
        match self {
            Call::Create => number::CREATE,
            Call::Drop(..) => number::DROP,
            Call::Enter(..) => number::ENTER,
            Call::Release(..) => number::RELEASE,
            Call::LookUp(..) => number::LOOK_UP,
            Call::WasDropped(..) => number::WAS_DROPPED,
            Call::Append(..) => number::APPEND,
            Call::Batch(..) => number::BATCH,
            Call::Publish => number::PUBLISH,
            Call::Try => number::TRY,
            Call::Flush => number::FLUSH,
            Call::Take(..) => number::TAKE,
            Call::Table(..) => number::TABLE,
            Call::Inside => number::INSIDE,
        }
    }
}

/// What was met on the way, so that the end of a run can say what it has tried.
#[derive(Clone, Copy, Default)]
pub struct Met {
    pub calls: [u64; CALLS],
    pub declined: u64,
    pub declined_by_a_later_handle: u64,
    pub two_copies: u64,
    pub spilled: u64,
    pub full_logs: u64,
    pub none: u64,
    pub idle_flushes: u64,
    pub empty_batches: u64,
    pub batches_while_first: u64,
    pub full_batches: u64,
    pub records: u64,
    /// Creates with several slots freed, of which one is handed out.
    pub chosen: u64,
    pub dropped_within_takes: u64,
    /// The most slots that were freed at once, and the histories in which there were several.
    pub most_freed: usize,
    pub several_freed: u64,
}

impl Met {
    pub fn add(&mut self, other: &Met) {
        for (sum, more) in self.calls.iter_mut().zip(other.calls) {
            *sum += more;
        }
        self.declined += other.declined;
        self.declined_by_a_later_handle += other.declined_by_a_later_handle;
        self.two_copies += other.two_copies;
        self.spilled += other.spilled;
        self.full_logs += other.full_logs;
        self.none += other.none;
        self.idle_flushes += other.idle_flushes;
        self.empty_batches += other.empty_batches;
        self.batches_while_first += other.batches_while_first;
        self.full_batches += other.full_batches;
        self.records += other.records;
        self.chosen += other.chosen;
        self.dropped_within_takes += other.dropped_within_takes;
        self.most_freed = self.most_freed.max(other.most_freed);
        self.several_freed += (other.most_freed > 1) as u64;
    }
}

/// The seed of the history under way and its calls so far, for the watch if the crate never comes back.
pub static UNDER_WAY: Mutex<(u64, Vec<Call>)> = Mutex::new((0, Vec::new()));

/// One history under way, on three sides: the crate, our rules, and the schedule that the player is given at the end.
pub struct Run {
    world: World,
    pub machine: Machine,
    pub records: Vec<Record>,
    /// For each call, what the crate says of it, and what our rules say.
    said: Vec<(u8, Option<u64>)>,
    ruled: Vec<Reply>,
    highest: usize,
    /// Which handle, counted from the start, each slot's snapshot was read from; and which it has now.
    read_from: [u64; SLOTS],
    handle: [u64; SLOTS],
    created: u64,
    /// The first call of which the crate and our rules say different things. The history ends there, since the two
    /// sides go apart.
    apart: Option<String>,
    pub met: Met,
}

type Outcome = Result<(), String>;

/// A schedule and its transcript, on which all sides agree.
pub type Agreed = (Vec<u8>, Vec<u8>);

impl Run {
    pub fn new(careful: bool) -> Run {
        Run {
            world: World::new(careful),
            machine: Machine::fresh(),
            records: Vec::new(),
            said: Vec::new(),
            ruled: Vec::new(),
            highest: 0,
            read_from: [0; SLOTS],
            handle: [0; SLOTS],
            created: 0,
            apart: None,
            met: Met::default(),
        }
    }

    fn used(&self, slot: usize) -> bool {
        self.machine.slots[slot].used
    }

    fn guards(&self, slot: usize) -> usize {
        self.machine.slots[slot].guards.iter().flatten().count()
    }

    fn guarded(&self, slot: usize, guard: usize) -> bool {
        self.used(slot) && self.machine.slots[slot].guards[guard].is_some()
    }

    /// An open one, if there is any.
    fn first_guard(&self, slot: usize) -> usize {
        (0..GUARDS).find(|&guard| self.guarded(slot, guard)).unwrap_or(0)
    }

    /// A handle, not the writer's own, that was never inside.
    fn new_handle(&self, slot: usize) -> bool {
        self.used(slot) && self.machine.slots[slot].epoch == 0 && (slot != 0 || self.gone())
    }

    fn gone(&self) -> bool {
        self.machine.phase == Phase::Gone
    }

    fn writer_free(&self) -> bool {
        !self.gone() && self.guards(0) == 0
    }

    /// The first slot at which a publish would wait.
    fn waits_at(&self) -> Option<usize> {
        (0..SLOTS).find(|&slot| {
            let seen = self.machine.snapshots[slot];
            self.used(slot) && seen % 2 == 1 && self.machine.slots[slot].epoch == seen
        })
    }

    /// Slots freed and not handed out again.
    fn freed(&self) -> usize {
        (0..=self.highest).filter(|&slot| !self.used(slot)).count()
    }

    /// Not slot 0, as long as it is the writer's own.
    fn droppable(&self, slot: usize) -> bool {
        self.used(slot) && self.guards(slot) == 0 && (self.gone() || slot != 0)
    }

    /// Can the crate make this call on one thread, and our machine too? A history leaves out what neither or only one
    /// can: waiting calls, our bounds, and what the crate's borrow rules do not let one write.
    pub fn admits(&self, call: &Call) -> bool {
        let room = |operations| self.machine.first || self.machine.log.len() + operations <= LOG_ROOM;
        match *call {
            Call::Create => (0..SLOTS).any(|slot| !self.used(slot)),
            Call::Drop(slot) => self.droppable(slot),
            Call::Enter(slot) => self.used(slot) && self.guards(slot) < GUARDS,
            Call::Release(slot, guard) | Call::LookUp(slot, guard, _) | Call::Table(slot, guard) => {
                self.guarded(slot, guard)
            }
            Call::WasDropped(slot) => self.used(slot),
            Call::Append(_) => self.writer_free() && room(1),
            Call::Batch(ref all) => self.writer_free() && all.len() <= BATCH_ROOM && room(all.len()),
            Call::Publish => self.writer_free() && (self.machine.first || self.waits_at().is_none()),
            Call::Flush => {
                let idle = self.machine.swap_index >= self.machine.log.len();
                self.writer_free() && (idle || self.waits_at().is_none())
            }
            Call::Try => self.writer_free(),
            Call::Take(ref drops) => {
                let once = |at: usize| drops[..at].iter().all(|&(_, slot)| slot != drops[at].1);
                let alone = (0..SLOTS).all(|slot| self.guards(slot) == 0);
                !self.gone() && alone && (0..drops.len()).all(|at| self.droppable(drops[at].1) && once(at))
            }
            Call::Inside => true,
        }
    }

    /// A record on our side; what the crate says of it is given beside.
    fn ours(&mut self, record: Record, answer: u8, value: Option<u64>) {
        self.all_ours(&[record], answer, value);
    }

    /// A record with its members.
    fn all_ours(&mut self, turn: &[Record], answer: u8, value: Option<u64>) {
        let reply = self.machine.call(&mut turn.iter().copied());
        self.both(turn, (answer, value), reply);
    }

    fn both(&mut self, turn: &[Record], said: (u8, Option<u64>), ruled: Reply) {
        self.records.extend(turn);
        self.said.push(said);
        self.ruled.push(ruled);
        if self.apart.is_none() && !agree(said, ruled) {
            let what = format!("the reference gave {ruled}");
            self.apart = Some(format!("{} {what}, and the crate {}", self.place(self.said.len() - 1), told(said)));
        }
    }

    /// Where a call stands in the schedule.
    fn place(&self, call: usize) -> String {
        let at = answered(&self.records, call);
        format!("record {} ({}):", at + 1, common::line(&self.records[at]))
    }

    /// Remembers from which handles the snapshots were read.
    fn swapped(&mut self) {
        for slot in 0..SLOTS {
            if self.used(slot) {
                self.read_from[slot] = self.handle[slot];
            }
        }
    }

    pub fn make(&mut self, call: Call) -> Outcome {
        self.met.calls[call.number()] += 1;
        self.try_make(call)?;
        self.met.most_freed = self.met.most_freed.max(self.freed());
        self.agreed()
    }

    fn agreed(&mut self) -> Outcome {
        self.apart.take().map_or(Ok(()), Err)
    }

    /// A publish or a flush has not come back.
    fn waited(&mut self, call: u8) -> Outcome {
        self.records.push(Record::of(call));
        Err("the crate waits at the last call of this schedule, and our rules do not".to_string())
    }

    fn try_make(&mut self, call: Call) -> Outcome {
        match call {
            Call::Create => {
                self.met.chosen += (self.freed() > 1) as u64;
                let slot = self.world.create();
                self.highest = self.highest.max(slot);
                self.created += 1;
                self.handle[slot] = self.created;
                self.ours(Record::of(call::CREATE), DONE, Some(slot as u64));
            }
            Call::Drop(slot) => {
                self.world.drop_handle(slot);
                self.ours(Record::on(slot as u8, call::DROP), DONE, Some(0));
            }
            Call::Enter(slot) => self.enter(slot),
            Call::Release(slot, guard) => {
                self.world.release(slot, guard);
                let release = Record { guard: guard as u8, ..Record::on(slot as u8, call::RELEASE) };
                self.ours(release, DONE, Some(0));
            }
            Call::LookUp(slot, guard, key) => self.look_up(slot, guard, key),
            Call::WasDropped(slot) => {
                let dropped = self.world.was_dropped(slot);
                self.ours(Record::on(slot as u8, call::WAS_DROPPED), DONE, Some(dropped as u64));
            }
            Call::Append(operation) => {
                self.world.append(change(&operation));
                self.appended(&[append(&operation)], 1)?;
            }
            Call::Batch(operations) => {
                self.met.empty_batches += operations.is_empty() as u64;
                self.met.full_batches += (operations.len() == BATCH_ROOM) as u64;
                self.met.batches_while_first += self.machine.first as u64;
                self.world.extend(operations.iter().map(change).collect());
                let mut turn = vec![Record::batch(operations.len() as u64)];
                turn.extend(operations.iter().map(append));
                self.appended(&turn, operations.len())?;
                // No answer shows how far slot 0's epoch went, nor the log.
                self.inside()?;
            }
            Call::Publish => {
                let polls = if self.machine.first { 0 } else { steps::SLOTS };
                if !self.world.publish() {
                    return self.waited(call::PUBLISH);
                }
                self.ours(Record::of(call::PUBLISH), DONE, Some(0));
                self.publishes(polls);
            }
            Call::Try => {
                let waits_at = self.waits_at();
                let swapped = self.world.try_publish();
                self.ours(Record::of(call::TRY), DONE, Some(0));
                if swapped {
                    self.publishes(steps::SLOTS);
                } else {
                    // How many polls passed before is not seen from outside.
                    self.ours(Record::of(call::RUN), DECLINED, None);
                    self.met.declined += 1;
                    if let Some(slot) = waits_at {
                        self.met.declined_by_a_later_handle += (self.handle[slot] != self.read_from[slot]) as u64;
                    }
                }
            }
            Call::Flush => {
                let pending = self.world.has_pending();
                if !self.world.flush() {
                    return self.waited(call::FLUSH);
                }
                self.ours(Record::of(call::FLUSH), DONE, Some(pending as u64));
                if pending {
                    self.publishes(steps::SLOTS);
                } else {
                    self.met.idle_flushes += 1;
                    let work = work_done();
                    if (work.first, work.second, work.synchronised) != (0, 0, 0) {
                        return Err(format!("the crate applied {work:?} at a flush with nothing to do"));
                    }
                }
            }
            Call::Take(drops) => self.take(&drops)?,
            Call::Table(slot, guard) => self.table(slot, guard)?,
            Call::Inside => self.inside()?,
        }
        Ok(())
    }

    /// While `first` each operation is applied at once, later none is.
    fn appended(&mut self, turn: &[Record], operations: usize) -> Outcome {
        let work = work_done();
        let at_once = if self.machine.first { operations as u64 } else { 0 };
        if (work.second, work.first) != (at_once, 0) {
            return Err(format!("the crate applied {work:?} at an append of {operations}"));
        }
        self.all_ours(turn, DONE, Some(0));
        self.met.full_logs += (operations > 0 && self.machine.log.len() == LOG_ROOM) as u64;
        Ok(())
    }

    fn enter(&mut self, slot: usize) {
        let outside = self.guards(slot) == 0;
        let guard = self.world.enter(slot);
        let with = |call| Record::on(slot as u8, call);
        if outside {
            self.ours(with(call::ENTER), DONE, Some(0));
        }
        // The load is the first call's where a guard was open, and the next call's where none was.
        let load = if outside { call::GO_ON } else { call::ENTER };
        match guard {
            Some(guard) => self.ours(with(load), DONE, Some(guard as u64)),
            None => {
                self.met.none += 1;
                self.ours(with(load), NONE, Some(0));
                if outside {
                    self.ours(with(call::GO_ON), NONE, Some(0));
                }
            }
        }
        let sides = self.machine.slots[slot].guards;
        self.met.two_copies += (sides.contains(&Some(0)) && sides.contains(&Some(1))) as u64;
    }

    fn look_up(&mut self, slot: usize, guard: usize, key: u64) {
        let count = self.world.counts(slot, guard).pairs.get(&key).copied();
        let record = Record { guard: guard as u8, key, ..Record::on(slot as u8, call::LOOK_UP) };
        self.ours(record, DONE, Some(count.unwrap_or(0)));
    }

    /// The run of a publish that was not held: each change that the crate made to its tables is a step of ours.
    fn publishes(&mut self, polls: u64) {
        let work = work_done();
        let steps = polls + work.synchronised + work.second + work.first + steps::FIRST_PUBLISH;
        self.ours(Record::of(call::RUN), DONE, Some(steps));
        self.swapped();
    }

    fn take(&mut self, drops: &[(usize, usize)]) -> Outcome {
        // How often take publishes is not seen from outside; what decides it is.
        let shown = self.world.shown().unwrap();
        let pending = self.world.has_pending();
        let idle = !shown.first && shown.log.is_empty();
        let publishes = if idle { 0 } else { 1 + pending as u64 };
        // Nothing comes between on one thread, so these go before. Either way they are freed before the writer's own.
        for &(_, slot) in drops {
            self.world.drop_handle(slot);
        }
        work_done();
        let ended = self.world.take();
        let work = work_done();
        let polls = if shown.first { 0 } else { steps::SLOTS };
        let applied = work.synchronised + work.second + work.first;
        let steps = publishes * (1 + polls + steps::FIRST_PUBLISH) + applied + steps::TAKE_END;
        self.ours(Record::of(call::TAKE), DONE, Some(0));
        // The lock is free before each publish, before null and before the lock step.
        let before = self.drop_within(drops, publishes as usize + 1)?;
        // Ours is run up to its last step, to see the copy that this one lets go of.
        let mut made = 0;
        while self.machine.phase != Phase::Finish {
            let reply = self.machine.step();
            if reply != (Reply { answer: DONE, value: 0 }) {
                return Err(format!("our take was answered {reply:?} where the crate's did not wait"));
            }
            made += 1;
        }
        let kept = self.machine.pointer;
        same("the copy that take drops", ended.dropped.as_ref(), self.machine.copies[1 - kept].view())?;
        same("the copy that take hands over", Some(&ended.handed), self.machine.copies[kept].view())?;
        let last = self.machine.run();
        let whole = Reply { answer: last.answer, value: made + last.value };
        self.both(&[Record::of(call::RUN)], (DONE, Some(steps - before)), whole);
        Ok(())
    }

    /// Goes on with our take to where each of these is dropped, and says how many steps that took.
    fn drop_within(&mut self, drops: &[(usize, usize)], last: usize) -> Result<u64, String> {
        let (mut place, mut steps) = (0, 0);
        for &(at, slot) in drops {
            while place < at.min(last) {
                self.ours(Record::of(call::STEP), DONE, Some(0));
                self.agreed()?;
                steps += 1;
                place += !self.machine.locked as usize;
            }
            self.ours(Record::on(slot as u8, call::DROP), DONE, Some(0));
            self.met.dropped_within_takes += 1;
        }
        Ok(steps)
    }

    fn table(&mut self, slot: usize, guard: usize) -> Outcome {
        let counts = self.world.counts(slot, guard);
        same("a guard's table", Some(counts), self.machine.view(slot, guard).unwrap())?;
        self.met.spilled += (counts.spill > 0) as u64;
        // Absent keys beside the present ones, and no more of either than a few where there are hundreds.
        let apart = counts.pairs.len() / 16 + 1;
        let mut keys: Vec<u64> = counts.pairs.keys().copied().step_by(apart).collect();
        keys.extend(counts.pairs.keys().map(|key| key.wrapping_add(1)).step_by(2 * apart));
        keys.push(0);
        for key in keys {
            self.look_up(slot, guard, key);
        }
        Ok(())
    }

    fn inside(&mut self) -> Outcome {
        let machine = &self.machine;
        let used: Vec<usize> = (0..SLOTS).filter(|&slot| self.used(slot)).collect();
        for &slot in &used {
            let epoch = self.world.epoch(slot);
            if epoch != machine.slots[slot].epoch {
                let ours = machine.slots[slot].epoch;
                return Err(format!("slot {slot}: the crate's epoch is {epoch}, ours {ours}"));
            }
        }
        if let Some(&slot) = used.first() {
            let handles = self.world.handles(slot);
            if handles != used.len() {
                return Err(format!("the crate has {handles} handles, ours are {}", used.len()));
            }
        }
        let Some(shown) = self.world.shown() else { return Ok(()) };
        let log: Vec<String> = machine.log.iter().map(|operation| format!("{:?}", change(operation))).collect();
        if shown.log != log.join(", ") {
            return Err(format!("the crate's log is {}, ours {}", shown.log, log.join(", ")));
        }
        let theirs = (shown.swap_index, shown.first, shown.second);
        let ours = (machine.swap_index, machine.first, machine.second);
        if theirs != ours {
            return Err(format!("swap index, first, second: the crate's are {theirs:?}, ours {ours:?}"));
        }
        Ok(())
    }

    /// Plays the schedule and holds each entry against what the crate said, and then against our rules.
    pub fn judge(&mut self, player: Player) -> Result<Agreed, String> {
        self.met.records = self.records.len() as u64;
        let bytes = common::schedule(&self.records);
        let mut out = vec![0; self.said.len() * ENTRY];
        let played = player(&bytes, &mut out);
        if played != (file::PLAYED, out.len() as u64) {
            return Err(format!("the player said {played:?} of a schedule of {} calls", self.said.len()));
        }
        for (at, entry) in out.chunks_exact(ENTRY).enumerate() {
            let reply = Reply::from_bytes(entry);
            let gave = format!("{} the player gave {reply}", self.place(at));
            if !agree(self.said[at], reply) {
                return Err(format!("{gave}, and the crate {}", told(self.said[at])));
            }
            let ruled = self.ruled[at];
            if reply != ruled {
                return Err(format!("{gave}, and the reference {ruled}"));
            }
        }
        Ok((bytes, out))
    }
}

/// An operation as the crate has it, and as a schedule has it.
fn change(operation: &Operation) -> Change {
    match operation.kind {
        kind::ADD => Change::Add(operation.key, operation.amount),
        kind::DROP => Change::Drop(operation.key),
        _ => Change::Clear,
    }
}

fn append(operation: &Operation) -> Record {
    Record::append(operation.kind, operation.key, operation.amount)
}

fn agree(said: (u8, Option<u64>), reply: Reply) -> bool {
    said.0 == reply.answer && said.1.is_none_or(|said| said == reply.value)
}

fn told((answer, value): (u8, Option<u64>)) -> String {
    match value {
        Some(value) => format!("{answer} {value}"),
        None => format!("{answer}"),
    }
}

fn same(what: &str, theirs: Option<&Counts>, ours: &[u64]) -> Outcome {
    let theirs = theirs.map(Counts::words).unwrap_or_default();
    match (0..theirs.len().max(ours.len())).find(|&at| theirs.get(at) != ours.get(at)) {
        None => Ok(()),
        Some(at) => {
            let (one, two) = (theirs.get(at), ours.get(at));
            Err(format!("{what}: from word {at} on the crate's are {one:?} and ours {two:?}"))
        }
    }
}

/// Plays these calls once more, leaving out what cannot be made. The end is always looked at from inside.
pub fn replay(calls: &[Call], player: Player) -> (Run, Outcome) {
    let mut run = Run::new(true);
    for call in calls {
        if run.admits(call) {
            if let Err(what) = run.make(call.clone()) {
                return (run, Err(what));
            }
        }
    }
    let outcome = run.inside().and_then(|_| run.judge(player)).map(|_| ());
    (run, outcome)
}

/// A random history, played as it is made: the calls so far decide which may come next.
pub fn random(seed: u64, player: Player) -> (Met, Result<Agreed, String>) {
    *UNDER_WAY.lock().unwrap() = (seed, Vec::new());
    let mut run = Run::new(false);
    let outcome = unfold(&mut Random::new(seed), &mut run).and_then(|_| run.inside()).and_then(|_| run.judge(player));
    (run.met, outcome)
}

fn unfold(choose: &mut Random, run: &mut Run) -> Outcome {
    let next = |run: &mut Run, call: Call| -> Result<bool, String> {
        let admitted = run.admits(&call);
        if admitted {
            UNDER_WAY.lock().unwrap().1.push(call.clone());
            run.make(call)?;
        }
        Ok(admitted)
    };
    let mut plan = Plan::new(choose);
    let mut left = plan.calls;
    while left > 0 {
        left -= 1;
        let call = plan.next(choose, run);
        let takes = matches!(call, Call::Take(_));
        if next(run, call)? && takes {
            // Not much can happen after it.
            left = left.min(if plan.churns { 2 * SLOTS } else { 10 });
        }
    }
    // What a new guard shows, and what every open one still does.
    for slot in 0..SLOTS {
        if next(run, Call::Enter(slot))? {
            break;
        }
    }
    for slot in 0..SLOTS {
        for guard in 0..GUARDS {
            next(run, Call::Table(slot, guard))?;
        }
    }
    Ok(())
}

/// One of the slots that are so, or slot 0.
fn one(choose: &mut Random, so: impl Fn(usize) -> bool) -> usize {
    let slots: Vec<usize> = (0..SLOTS).filter(|&slot| so(slot)).collect();
    if slots.is_empty() {
        0
    } else {
        choose.pick(&slots)
    }
}

/// What a history is like. Each one prefers some calls and does without others, since a history that does a little of
/// everything never gets far in one direction.
struct Plan {
    calls: usize,
    slots: usize,
    keys: u64,
    spread: u64,
    large: bool,
    /// Handles come and go in rounds, of which this is the stage.
    churns: bool,
    stage: usize,
    weights: [usize; CALLS],
}

impl Plan {
    fn new(choose: &mut Random) -> Plan {
        let mut weights = [0; CALLS];
        for weight in &mut weights {
            *weight = choose.pick(&[0, 1, 1, 3, 9]);
        }
        // Without these nothing happens.
        let least =
            [(number::CREATE, 1), (number::ENTER, 2), (number::RELEASE, 1), (number::APPEND, 1), (number::PUBLISH, 1)];
        for (at, least) in least {
            weights[at] = weights[at].max(least);
        }
        weights[number::TAKE] = choose.chance(1, 3) as usize;
        weights[number::INSIDE] = weights[number::INSIDE].min(1);
        let mut plan = Plan {
            calls: 10 + choose.below(70),
            slots: choose.pick(&[1, 2, 3, 5, SLOTS - 1]),
            keys: choose.pick(&[1, 2, 4, 9]),
            spread: choose.pick(&[1, 1, u64::MAX / 9]),
            large: choose.chance(1, 3),
            churns: false,
            stage: 0,
            weights,
        };
        if choose.chance(1, 50) {
            // Long enough to fill the log, or the table.
            plan.calls = 400 + choose.below(1500);
            plan.keys = choose.pick(&[9, 300, 700]);
            plan.spread = choose.pick(&[1, 3, u64::MAX / 700]);
            plan.weights = plan.weights.map(|weight| weight.min(2));
            plan.weights[number::APPEND] = choose.pick(&[60, 600]);
            plan.weights[number::TAKE] = 0;
        } else if choose.chance(1, 3) {
            plan.churns = true;
            plan.weights = plan.weights.map(|weight| weight.min(1));
            plan.weights[number::TAKE] = choose.pick(&[0, 2]);
        }
        plan
    }

    /// Handles come, go inside, see a publish, leave and are dropped, a few of them each time. So several slots are freed at
    /// once, and the next handles in them meet the numbers that the last ones left.
    fn churn(&mut self, choose: &mut Random, run: &Run) -> Call {
        if choose.chance(1, 3) {
            self.stage += 1;
        }
        match self.stage % 5 {
            0 => Call::Create,
            1 => Call::Enter(one(choose, |slot| run.new_handle(slot))),
            2 if choose.chance(1, 2) => Call::Publish,
            2 => Call::Try,
            3 => {
                let slot = one(choose, |slot| run.guards(slot) > 0);
                Call::Release(slot, run.first_guard(slot))
            }
            _ => Call::Drop(one(choose, |slot| run.droppable(slot))),
        }
    }

    fn key(&self, choose: &mut Random) -> u64 {
        (choose.word() % self.keys).wrapping_mul(self.spread)
    }

    fn next(&mut self, choose: &mut Random, run: &Run) -> Call {
        let used: Vec<usize> = (0..SLOTS).filter(|&slot| run.used(slot)).collect();
        let open: Vec<(usize, usize)> = (0..SLOTS)
            .flat_map(|slot| (0..GUARDS).map(move |guard| (slot, guard)))
            .filter(|&(slot, guard)| run.guarded(slot, guard))
            .collect();
        let mut slot = if used.is_empty() { 0 } else { choose.pick(&used) };
        if slot == 0 && !used.is_empty() && choose.chance(1, 2) {
            // The writer's own handle, once inside, keeps the writer from everything.
            slot = choose.pick(&used);
        }
        let (inside, guard) = if open.is_empty() { (0, 0) } else { choose.pick(&open) };
        let freed = !self.churns && run.freed() > 0 && choose.chance(1, 2);
        let call = match choose.weighed(&self.weights) {
            _ if self.churns && choose.chance(3, 4) => self.churn(choose, run),
            number::DROP | number::ENTER if freed => Call::Create,
            number::CREATE if used.len() > self.slots && !freed && !choose.chance(1, 8) => Call::Enter(slot),
            number::CREATE => Call::Create,
            number::DROP => Call::Drop(slot),
            number::ENTER => Call::Enter(slot),
            number::RELEASE => Call::Release(inside, guard),
            number::LOOK_UP => Call::LookUp(inside, guard, self.key(choose)),
            number::WAS_DROPPED => Call::WasDropped(slot),
            number::APPEND => Call::Append(self.operation(choose)),
            number::BATCH => Call::Batch(self.batch(choose, LOG_ROOM - run.machine.log.len())),
            number::PUBLISH => Call::Publish,
            number::TRY => Call::Try,
            number::FLUSH => Call::Flush,
            number::TAKE => Call::Take(self.drops(choose, run)),
            number::TABLE => Call::Table(inside, guard),
            _ => Call::Inside,
        };
        match call {
            // The writer cannot: its own handle is inside, or it would wait. A try says the latter on both sides.
            Call::Append(_) | Call::Batch(_) | Call::Publish | Call::Try | Call::Flush
                if run.guards(0) > 0 && !run.gone() =>
            {
                Call::Release(0, run.first_guard(0))
            }
            Call::Publish | Call::Flush if !run.admits(&call) => Call::Try,
            Call::Take(_) if !run.admits(&call) => Call::Release(inside, guard),
            _ => call,
        }
    }

    /// Some handles, in any order, for a take that has them dropped meanwhile.
    fn drops(&self, choose: &mut Random, run: &Run) -> Vec<(usize, usize)> {
        let mut slots: Vec<usize> = (0..SLOTS).filter(|&slot| run.droppable(slot)).collect();
        let count = if self.churns { choose.below(4).min(slots.len()) } else { 0 };
        let mut places: Vec<usize> = (0..count).map(|_| choose.below(4)).collect();
        places.sort();
        places.into_iter().map(|place| (place, slots.swap_remove(choose.below(slots.len())))).collect()
    }

    /// From none to as many as there may be, and often as many as the log has room for.
    fn batch(&self, choose: &mut Random, room: usize) -> Vec<Operation> {
        let size = match choose.below(8) {
            0 => choose.below(BATCH_ROOM + 1),
            1 => BATCH_ROOM.min(room),
            _ => choose.below(4),
        };
        (0..size).map(|_| self.operation(choose)).collect()
    }

    fn operation(&self, choose: &mut Random) -> Operation {
        let key = self.key(choose);
        // Clears are rare, else no table grows.
        match choose.below(if self.keys > 9 { 60 } else { 12 }) {
            0 if choose.chance(1, if self.keys > 9 { 40 } else { 4 }) => {
                Operation { kind: kind::CLEAR, key: 0, amount: 0 }
            }
            0..=2 => Operation { kind: kind::DROP, key, amount: 0 },
            _ if self.large => Operation { kind: kind::ADD, key, amount: u64::MAX - choose.word() % 3 },
            _ => Operation { kind: kind::ADD, key, amount: 1 + choose.word() % 5 },
        }
    }
}

/// Simpler calls that may stand in for one, to make a difference easier to read.
pub fn simpler(call: &Call) -> Vec<Call> {
    match *call {
        Call::Batch(ref all) => vec![Call::Batch(vec![Operation { kind: kind::ADD, key: 1, amount: 1 }; all.len()])],
        Call::Append(Operation { kind: kind::ADD, key, amount }) => {
            let add = |key, amount| Call::Append(Operation { kind: kind::ADD, key, amount });
            vec![add(1, 1), add(key, 1), add(1, amount)]
        }
        Call::Append(Operation { kind, .. }) => {
            vec![Call::Append(Operation { kind, key: if kind == kind::DROP { 1 } else { 0 }, amount: 0 })]
        }
        Call::LookUp(slot, guard, _) => vec![Call::LookUp(slot, guard, 1), Call::LookUp(slot, guard, 0)],
        Call::Flush => vec![Call::Publish],
        Call::Drop(slot) => (1..slot).map(Call::Drop).collect(),
        Call::Take(ref drops) => {
            let one = drops.iter().map(|&drop| Call::Take(vec![drop]));
            [Call::Take(Vec::new())].into_iter().chain(one).collect()
        }
        _ => Vec::new(),
    }
}

/// What a batch holds, to find out which of it makes a difference.
pub fn operations(call: &Call) -> Vec<Operation> {
    match call {
        Call::Batch(all) => all.clone(),
        _ => Vec::new(),
    }
}

pub fn with_operations(call: &Call, some: &[Operation]) -> Call {
    match call {
        Call::Batch(_) => Call::Batch(some.to_vec()),
        _ => call.clone(),
    }
}
