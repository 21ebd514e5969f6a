//! The crate's side: the same count table under left_right, with handles and guards by our numbers.

use left_right::{Absorb, ReadGuard, ReadHandle, ReadHandleFactory, Taken, WriteHandle};
use slab::Slab;
use std::cell::{Cell, RefCell};
use std::collections::BTreeMap;

// The sizes once more: this side takes nothing from the other, so that the two can judge each other.
pub const SLOTS: usize = 16;
pub const GUARDS: usize = 4;
const PAIRS: usize = 512;

#[derive(Clone, Copy, Debug, PartialEq, Eq)]
pub enum Change {
    Add(u64, u64),
    Drop(u64),
    Clear,
}

/// The count table, over the standard library's map: it shares no line with the reference's.
#[derive(Clone, Debug, Default, PartialEq, Eq)]
pub struct Counts {
    pub pairs: BTreeMap<u64, u64>,
    pub spill: u64,
}

impl Counts {
    fn apply(&mut self, change: Change) {
        match change {
            Change::Add(key, amount) => {
                let full = self.pairs.len() == PAIRS;
                match self.pairs.get_mut(&key) {
                    Some(count) => *count = count.saturating_add(amount),
                    None if full => self.spill = self.spill.saturating_add(1),
                    None => {
                        self.pairs.insert(key, amount);
                    }
                }
            }
            Change::Drop(key) => {
                self.pairs.remove(&key);
            }
            Change::Clear => *self = Counts::default(),
        }
    }

    /// The words that a guard of ours would show.
    pub fn words(&self) -> Vec<u64> {
        let mut words = vec![self.pairs.len() as u64, self.spill];
        words.extend(self.pairs.iter().flat_map(|(&key, &count)| [key, count]));
        words
    }
}

/// What the crate did to its tables during one call; our steps are counted against it.
#[derive(Clone, Copy, Debug, Default)]
pub struct Work {
    pub first: u64,
    pub second: u64,
    pub synchronised: u64,
}

thread_local! {
    static WORK: Cell<Work> = const { Cell::new(Work { first: 0, second: 0, synchronised: 0 }) };
    /// The copies that take let go of.
    static DROPPED: RefCell<[Option<Counts>; 2]> = const { RefCell::new([None, None]) };
}

fn work(change: impl FnOnce(&mut Work)) {
    WORK.with(|cell| {
        let mut work = cell.get();
        change(&mut work);
        cell.set(work);
    });
}

/// The work since this was last asked.
pub fn work_done() -> Work {
    WORK.with(|cell| cell.take())
}

impl Absorb<Change> for Counts {
    fn absorb_first(&mut self, change: &mut Change, _other: &Self) {
        work(|work| work.first += 1);
        self.apply(*change);
    }

    fn absorb_second(&mut self, change: Change, _other: &Self) {
        work(|work| work.second += 1);
        self.apply(change);
    }

    fn sync_with(&mut self, first: &Self) {
        work(|work| work.synchronised += 1);
        self.clone_from(first);
    }

    fn drop_first(self: Box<Self>) {
        DROPPED.with(|dropped| dropped.borrow_mut()[0] = Some(*self));
    }

    fn drop_second(self: Box<Self>) {
        DROPPED.with(|dropped| dropped.borrow_mut()[1] = Some(*self));
    }
}

/// What take left behind: the copy dropped at once and the copy handed over.
pub struct Ended {
    pub dropped: Option<Counts>,
    pub handed: Counts,
}

/// What the crate shows of its inside, through Debug alone.
#[derive(Debug, PartialEq, Eq)]
pub struct Shown {
    pub log: String,
    pub swap_index: usize,
    pub first: bool,
    pub second: bool,
}

/// The slot of a key in the slab, and the key of a slot.
///
/// `new` hands out a reader too, under the key 0, with the writer's own under the key 1. A fresh machine of ours has the
/// writer's own alone, so that reader goes at once, and our slot 1 gets its key.
fn crossed(number: usize) -> usize {
    match number {
        0 => 1,
        1 => 0,
        other => other,
    }
}

/// A slot is a handle of ours. Slot 0 is the writer's own until take, then a reader's like the others.
///
/// Guards borrow from handles, and both live here for as long as the history wants, so the borrows go by raw pointers:
/// a handle stays in its box until its guards are closed, and the writer is used by `&mut` only while slot 0 has none.
pub struct World {
    guards: [[Option<ReadGuard<'static, Counts>>; GUARDS]; SLOTS],
    readers: [*mut ReadHandle<Counts>; SLOTS],
    writer: *mut WriteHandle<Counts, Change>,
    factory: ReadHandleFactory<Counts>,
    /// The crate's slab hides its keys. This one is the same slab, with the same inserts and removes.
    keys: Slab<()>,
    careful: bool,
}

impl World {
    /// A careful world asks before it waits, where the crate has a call that asks: to shrink a history that would not end.
    pub fn new(careful: bool) -> World {
        let (writer, reader) = left_right::new::<Counts, Change>();
        let mut keys = Slab::new();
        for slot in [1, 0] {
            assert_eq!(keys.insert(()), crossed(slot));
        }
        let factory = reader.factory();
        drop(reader);
        keys.remove(crossed(1));
        work_done();
        World {
            guards: Default::default(),
            readers: [std::ptr::null_mut(); SLOTS],
            writer: Box::into_raw(Box::new(writer)),
            factory,
            keys,
            careful,
        }
    }

    fn handle(&self, slot: usize) -> &'static ReadHandle<Counts> {
        // Safety: see the type. The caller names slots in use.
        unsafe {
            if slot == 0 && !self.writer.is_null() {
                &*self.writer
            } else {
                assert!(!self.readers[slot].is_null(), "slot {slot} is free");
                &*self.readers[slot]
            }
        }
    }

    fn writer(&mut self) -> &mut WriteHandle<Counts, Change> {
        assert!(!self.writer.is_null() && self.guards[0].iter().all(|guard| guard.is_none()));
        // Safety: it is there, and no guard borrows from it.
        unsafe { &mut *self.writer }
    }

    /// The new handle's slot, by its key.
    pub fn create(&mut self) -> usize {
        let slot = crossed(self.keys.insert(()));
        assert!(self.readers[slot].is_null());
        self.readers[slot] = Box::into_raw(Box::new(self.factory.handle()));
        slot
    }

    pub fn drop_handle(&mut self, slot: usize) {
        assert!(self.guards[slot].iter().all(|guard| guard.is_none()));
        let reader = std::mem::replace(&mut self.readers[slot], std::ptr::null_mut());
        assert!(!reader.is_null());
        // Safety: it came out of a box, and no guard borrows from it.
        drop(unsafe { Box::from_raw(reader) });
        self.keys.remove(crossed(slot));
    }

    /// The number of the guard, by our rule the lowest free one, or none where the crate says None.
    pub fn enter(&mut self, slot: usize) -> Option<usize> {
        let guard = self.handle(slot).enter()?;
        let free = self.guards[slot].iter().position(|guard| guard.is_none()).expect("at most four guards");
        self.guards[slot][free] = Some(guard);
        Some(free)
    }

    pub fn release(&mut self, slot: usize, guard: usize) {
        assert!(self.guards[slot][guard].take().is_some());
    }

    pub fn counts(&self, slot: usize, guard: usize) -> &Counts {
        self.guards[slot][guard].as_ref().expect("an open guard")
    }

    pub fn was_dropped(&self, slot: usize) -> bool {
        self.handle(slot).was_dropped()
    }

    pub fn append(&mut self, change: Change) {
        self.writer().append(change);
    }

    pub fn extend(&mut self, changes: Vec<Change>) {
        self.writer().extend(changes);
    }

    /// False where it would wait, which only a careful world says.
    pub fn publish(&mut self) -> bool {
        if self.careful && !self.shown().unwrap().first {
            return self.writer().try_publish();
        }
        self.writer().publish();
        true
    }

    pub fn try_publish(&mut self) -> bool {
        self.writer().try_publish()
    }

    pub fn has_pending(&mut self) -> bool {
        self.writer().has_pending_operations()
    }

    pub fn flush(&mut self) -> bool {
        if self.careful && self.has_pending() {
            return self.writer().try_publish();
        }
        self.writer().flush();
        true
    }

    pub fn take(&mut self) -> Ended {
        self.writer();
        let writer = std::mem::replace(&mut self.writer, std::ptr::null_mut());
        DROPPED.with(|dropped| *dropped.borrow_mut() = [None, None]);
        // Safety: it came out of a box, and no guard borrows from it.
        let taken: Taken<Counts, Change> = (*unsafe { Box::from_raw(writer) }).take();
        self.keys.remove(crossed(0));
        let handed = Counts::clone(&taken);
        let dropped = DROPPED.with(|dropped| dropped.borrow_mut()[0].take());
        drop(taken);
        let second = DROPPED.with(|dropped| dropped.borrow_mut()[1].take());
        assert_eq!(second.as_ref(), Some(&handed), "what take hands over is dropped second");
        Ended { dropped, handed }
    }

    /// The writer's inside, while there is a writer.
    pub fn shown(&self) -> Option<Shown> {
        if self.writer.is_null() {
            return None;
        }
        // Safety: it is there, and nothing writes meanwhile.
        let text = format!("{:?}", unsafe { &*self.writer });
        let after = |name: &str| text.rsplit_once(name).expect("a field of WriteHandle").1;
        let word = |name: &str| after(name).split([',', ' ']).next().unwrap().to_string();
        let (_, rest) = text.split_once("oplog: [").expect("the log");
        let (log, _) = rest.split_once(']').expect("the log's end");
        Some(Shown {
            log: log.to_string(),
            swap_index: word("swap_index: ").parse().unwrap(),
            first: word(" first: ") == "true",
            second: word(" second: ") == "true",
        })
    }

    /// How many handles the crate's slab holds, as Debug shows it.
    pub fn handles(&self, slot: usize) -> usize {
        let text = format!("{:?}", self.handle(slot));
        let (_, rest) = text.split_once("len: ").expect("the slab");
        rest.split([' ', ',']).next().unwrap().parse().expect("the slab's length")
    }

    /// The epoch of a handle, as Debug shows it.
    pub fn epoch(&self, slot: usize) -> u64 {
        let text = format!("{:?}", self.handle(slot));
        let (_, rest) = text.rsplit_once("value: ").expect("the epoch");
        rest.split([' ', ',', '}']).next().unwrap().parse().expect("the epoch's digits")
    }
}

impl Drop for World {
    fn drop(&mut self) {
        // Guards first: the writer's end waits for them.
        self.guards = Default::default();
        // Safety: both came out of boxes, and no guard is left.
        unsafe {
            if !self.writer.is_null() {
                drop(Box::from_raw(self.writer));
            }
            for reader in self.readers {
                if !reader.is_null() {
                    drop(Box::from_raw(reader));
                }
            }
        }
    }
}
