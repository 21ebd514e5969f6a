//! What docs/DIFFERENCES.md says of the crate and marks as run, where its comments say something else: on one thread.
//! What takes two is in blocking.rs.

use crate::blocking::{done, ours};
use crate::world::{work_done, Change, Counts, World};
use common::answer::{DECLINED, DONE};
use common::{call, steps, Player, Record, Reply};
use left_right::Absorb;
use std::cell::Cell;
use std::collections::VecDeque;
use std::panic::{catch_unwind, AssertUnwindSafe};

const ADD: Change = Change::Add(7, 3);

fn holds(it: bool, what: &str) -> Result<(), String> {
    if it {
        Ok(())
    } else {
        Err(format!("not so: {what}"))
    }
}

/// How far the other copy is ahead, each time that the crate applies an operation a second time.
#[derive(Default, Clone)]
struct Seen(u64);

thread_local!(static AHEAD: Cell<i64> = const { Cell::new(0) });

impl Absorb<()> for Seen {
    fn absorb_first(&mut self, _: &mut (), _: &Self) {
        self.0 += 1;
    }

    fn absorb_second(&mut self, _: (), other: &Self) {
        AHEAD.set(other.0 as i64 - self.0 as i64);
        self.0 += 1;
    }

    fn sync_with(&mut self, first: &Self) {
        self.0 = first.0;
    }
}

fn second_from_the_start() -> Result<(), String> {
    let shown = World::new(false).shown().unwrap();
    holds(shown.first && shown.second, "`second` is true before any publish")
}

/// Appends while `first` are in no log, and flush does not see them.
fn first_publishes() -> Result<(), String> {
    let mut world = World::new(false);
    world.create();
    world.append(ADD);
    holds(work_done().second == 1, "an append while `first` is applied at once, as a second absorption")?;
    holds(world.shown().unwrap().log.is_empty(), "an append while `first` is not logged")?;
    holds(!world.has_pending(), "an append while `first` is not pending")?;
    world.flush();
    world.enter(1);
    holds(world.counts(1, 0).pairs.is_empty(), "flush leaves the first appends invisible")?;
    holds(world.epoch(0) == 2, "an append while `first` moves the writer's own epoch by 2")?;

    // The guard above is open while this publish goes through, and the copies are synchronised by the next one.
    world.publish();
    holds(work_done().synchronised == 0, "the first publish does not synchronise")?;
    holds(world.counts(1, 0).pairs.is_empty(), "a guard keeps its table over a publish")?;
    holds(world.enter(1) == Some(1), "a nested guard")?;
    holds(world.counts(1, 1).pairs.get(&7) == Some(&3), "a nested guard may stand on the other copy")?;
    holds(!world.try_publish(), "the second publish would wait")?;
    world.release(1, 0);
    holds(!world.try_publish(), "and waits for the last guard, whichever copy it is on")?;
    world.release(1, 1);
    world.publish();
    holds(work_done().synchronised == 1, "the second publish synchronises")
}

/// While `first` the writer's own handle enters and leaves once for all of a batch, and for an empty one too.
fn batches() -> Result<(), String> {
    let mut world = World::new(false);
    world.extend(vec![ADD, ADD, Change::Drop(7)]);
    holds(work_done().second == 3, "a batch while `first` is applied at once, as second absorptions")?;
    holds(world.shown().unwrap().log.is_empty(), "a batch while `first` is not logged")?;
    holds(world.epoch(0) == 2, "a batch while `first` moves the writer's own epoch by 2")?;
    world.extend(Vec::new());
    holds(world.epoch(0) == 4, "an empty batch while `first` moves the writer's own epoch by 2")?;

    world.publish();
    world.extend(vec![ADD, Change::Drop(7)]);
    world.extend(Vec::new());
    holds(work_done().second == 0, "a later batch is not applied")?;
    holds(
        world.shown().unwrap().log == "Add(7, 3), Drop(7)",
        "a later batch is logged, and an empty one adds nothing",
    )?;
    holds(world.epoch(0) == 4, "a later batch leaves the writer's own epoch alone")
}

/// Publish is not the only call that makes appends visible.
fn exposed() -> Result<(), String> {
    let mut world = World::new(false);
    world.create();
    world.append(ADD);
    holds(world.try_publish(), "a try while `first` publishes")?;
    world.enter(1);
    holds(world.counts(1, 0).pairs.get(&7) == Some(&3), "a try makes appends visible")?;
    world.append(ADD);
    world.flush();
    world.enter(1);
    holds(world.counts(1, 1).pairs.get(&7) == Some(&6), "a flush makes appends visible")
}

/// Take lets go of a copy that never saw the appends where no publish was made, or one and nothing appended since, and
/// nowhere else: after every row of at most six appends and publishes.
fn taken() -> Result<(), String> {
    for (length, row) in (0..7).flat_map(|length| (0..1 << length).map(move |row: u32| (length, row))) {
        let mut world = World::new(false);
        for at in 0..length {
            if row >> at & 1 == 1 {
                world.publish();
            } else {
                world.append(Change::Add(at, 1));
            }
        }
        let ended = world.take();
        let never = row == 0 || row == 1 << (length - 1);
        holds(work_done().synchronised == u64::from(!never), "the copies are synchronised after all other rows")?;
        let all = Counts { pairs: (0..length).filter(|at| row >> at & 1 == 0).map(|at| (at, 1)).collect(), spill: 0 };
        holds(ended.handed == all, "take hands over a copy with all appends")?;
        let dropped = if never { Counts::default() } else { all };
        holds(ended.dropped == Some(dropped), "take drops a copy with all appends, or one never synchronised")?;
    }
    Ok(())
}

fn take_leaves_handles() -> Result<(), String> {
    let mut world = World::new(false);
    world.create();
    world.take();
    holds(world.was_dropped(1) && world.enter(1).is_none(), "take did not wait for the handle, only for guards")
}

/// A world whose slot 1 was inside at the last swap, and is not now.
fn left() -> World {
    let mut world = World::new(false);
    world.create();
    world.enter(1);
    world.publish();
    world.release(1, 0);
    world
}

fn leaving_is_enough() -> Result<(), String> {
    holds(left().try_publish(), "a reader that has left is not waited for, though it has seen nothing since the swap")
}

/// A handle made after the last publish is waited for if it has an old handle's key.
fn later_handles() -> Result<(), String> {
    for inside in [false, true] {
        let mut world = left();
        world.drop_handle(1);
        world.create();
        if inside {
            world.enter(1);
        }
        holds(world.try_publish() != inside, "a new handle is waited for inside, though it never saw the old copy")?;
    }
    Ok(())
}

/// Numbers that were not read at the last swap.
fn older_numbers() -> Result<(), String> {
    let mut world = World::new(false);
    world.create();
    world.enter(1);
    holds(world.try_publish(), "before the first swap a try passes a reader that is inside")?;

    let mut world = World::new(false);
    world.publish();
    world.create();
    world.enter(1);
    holds(world.try_publish(), "a number that nobody read is even, and whoever is inside is passed")?;

    let mut world = left();
    world.drop_handle(1);
    world.publish();
    world.create();
    world.enter(1);
    holds(!world.try_publish(), "a number of the swap before the last, from a handle that is gone, is waited for")
}

/// Two freed slots, of which one has an odd snapshot: a handle in it is waited for once it is inside. Only the one freed
/// last is handed out.
fn two_freed_slots(player: Player) -> Result<(), String> {
    for (odd, answer, value) in [(1, DONE, steps::PUBLISH + 1), (2, DECLINED, 2)] {
        let mut world = World::new(false);
        world.create();
        world.create();
        world.enter(odd);
        world.publish();
        world.release(odd, 0);
        world.drop_handle(1);
        world.drop_handle(2);
        holds(world.create() == 2, "slab hands out the key freed last")?;
        world.enter(2);
        holds(
            world.try_publish() == (answer == DONE),
            "with two freed slots the crate's slab hands out the one freed last",
        )?;

        let on = |call| Record::on(odd as u8, call);
        ours(
            player,
            &[
                (Record::of(call::CREATE), done(1)),
                (Record::of(call::CREATE), done(2)),
                (on(call::ENTER), done(0)),
                (on(call::GO_ON), done(0)),
                (Record::of(call::PUBLISH), done(0)),
                (Record::of(call::RUN), done(steps::FIRST_PUBLISH)),
                (on(call::RELEASE), done(0)),
                (Record::on(1, call::DROP), done(0)),
                (Record::on(2, call::DROP), done(0)),
                (Record::of(call::CREATE), done(2)),
                (Record::on(2, call::ENTER), done(0)),
                (Record::on(2, call::GO_ON), done(0)),
                (Record::of(call::TRY), done(0)),
                (Record::of(call::RUN), Reply { answer, value }),
            ],
        )?;
    }
    Ok(())
}

/// While `first`, the other copy is behind and not ahead.
fn other_copy() -> Result<(), String> {
    let (mut writer, _reader) = left_right::new::<Seen, ()>();
    writer.append(()).append(());
    holds(AHEAD.get() == -1, "a second absorption while `first` sees a copy that is behind")?;
    writer.publish().append(()).publish().publish();
    holds(AHEAD.get() == 1, "later it sees one that is ahead")
}

fn empty_drain() -> Result<(), String> {
    let mut log: VecDeque<u8> = VecDeque::from([1]);
    log.drain(0..0);
    holds(log.len() == 1, "drain(0..0) removes nothing")
}

/// A forgotten guard leaves the handle inside, and its drop panics, after it has left the slab.
fn forgotten_guard() -> Result<(), String> {
    let (_writer, reader) = left_right::new::<Counts, Change>();
    std::mem::forget(reader.enter());
    let dropped = catch_unwind(AssertUnwindSafe(|| drop(reader)));
    holds(dropped.is_err(), "a handle with a forgotten guard panics when it is dropped")
}

pub fn all(player: Player) -> Result<String, String> {
    second_from_the_start()?;
    first_publishes()?;
    batches()?;
    exposed()?;
    taken()?;
    take_leaves_handles()?;
    leaving_is_enough()?;
    later_handles()?;
    older_numbers()?;
    two_freed_slots(player)?;
    other_copy()?;
    empty_drain()?;
    forgotten_guard()?;
    Ok("what is said of the crate's comments holds of its code\n".to_string())
}
