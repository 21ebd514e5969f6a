//! The known ends of the scope, its counts, the order of refusals and the refused files.

use super::*;
use common::{schedule, steps, Random};

const TOP: u64 = u64::MAX;

fn add(key: u64, amount: u64) -> Operation {
    Operation { kind: ADD, key, amount }
}

fn drop_key(key: u64) -> Operation {
    Operation { kind: DROP, key, amount: 0 }
}

/// So many operations, each of a key of its own.
fn adds(count: usize) -> Vec<Operation> {
    (0..count as u64).map(|key| add(key, 1)).collect()
}

const WIPE: Operation = Operation { kind: CLEAR, key: 0, amount: 0 };

fn says(answer: u8, value: u64) -> Reply {
    Reply { answer, value }
}

/// Begins a publish and runs it.
fn published(m: &mut Machine) -> Reply {
    assert_eq!(m.publish(), says(DONE, 0));
    m.run()
}

/// Enters a handle that has no guard open, and loads.
fn inside(m: &mut Machine, slot: u8) -> Reply {
    assert_eq!(m.enter(slot), says(DONE, 0));
    m.go_on(slot)
}

/// P1, from its bytes. Returns the machine's end for P2.
fn first_case() -> Machine {
    let records = [
        Record::of(call::CREATE),
        Record::append(ADD, 7, 3),
        Record::of(call::PUBLISH),
        Record::of(call::RUN),
        Record::on(1, call::ENTER),
        Record::on(1, call::GO_ON),
        Record { key: 7, ..Record::on(1, call::LOOK_UP) },
    ];
    const WRITTEN: usize = 7 * ENTRY;
    let mut out = [0xaa; WRITTEN + 7];
    assert_eq!(play(&schedule(&records), &mut out), (PLAYED, WRITTEN as u64));
    let values = [1, 0, 0, steps::FIRST_PUBLISH, 0, 0, 3];
    for (entry, value) in out.chunks_exact(ENTRY).zip(values) {
        assert_eq!(Reply::from_bytes(entry), says(DONE, value));
    }
    assert_eq!(out[WRITTEN..], [0xaa; 7]);
    let mut m = Machine::fresh();
    let mut records = records.into_iter();
    for value in values {
        assert_eq!(m.call(&mut records), says(DONE, value));
    }
    m
}

#[test]
fn counts_of_steps() {
    // As the document has them, with 16 slots.
    assert_eq!((SLOTS, steps::FIRST_PUBLISH, steps::PUBLISH, steps::TAKE_END), (16, 17, 33, 35));
}

#[test]
fn p1_whole_transcript() {
    first_case();
}

#[test]
fn p2_one_publish_passes_a_guard_and_the_next_is_held() {
    let mut m = first_case();
    assert_eq!(m.append(add(9, 1)), says(DONE, 0));
    // The copying, and one operation.
    assert_eq!(published(&mut m), says(DONE, steps::PUBLISH + 2));
    assert_eq!(m.look_up(1, 0, 9), says(DONE, 0));
    assert_eq!(m.look_up(1, 0, 7), says(DONE, 3));
    assert_eq!(published(&mut m), says(HELD, 1));
    assert_eq!(m.step(), says(HELD, 0));
    assert_eq!(m.run(), says(HELD, 0));
    assert_eq!(m.release(1, 0), says(DONE, 0));
    // One poll was made before, and the operation is applied to the other copy.
    assert_eq!(m.run(), says(DONE, steps::PUBLISH - 1 + 1));
    assert_eq!(inside(&mut m, 1), says(DONE, 0));
    assert_eq!(m.look_up(1, 0, 9), says(DONE, 1));
}

#[test]
fn p3_flush_is_no_first_publish() {
    let mut m = Machine::fresh();
    m.create();
    assert_eq!(m.append(add(7, 3)), says(DONE, 0));
    assert_eq!(m.flush(), says(DONE, 0));
    assert_eq!(m.step(), says(NOT_NOW, 0));
    assert_eq!(inside(&mut m, 1), says(DONE, 0));
    assert_eq!(m.look_up(1, 0, 7), says(DONE, 0));
    assert_eq!(m.view(1, 0), Some(&[0, 0][..]));
}

#[test]
fn p4_guards_of_one_handle_on_two_copies() {
    let mut m = Machine::fresh();
    m.create();
    m.append(add(7, 3));
    assert_eq!(inside(&mut m, 1), says(DONE, 0));
    assert_eq!(published(&mut m), says(DONE, steps::FIRST_PUBLISH));
    assert_eq!(m.enter(1), says(DONE, 1));
    let open: Vec<Side> = m.slots[1].guards.iter().flatten().copied().collect();
    assert_eq!(open, [LEFT, RIGHT]);
    assert_eq!(m.slots[1].epoch, 1);
    assert_eq!(m.look_up(1, 0, 7), says(DONE, 0));
    assert_eq!(m.look_up(1, 1, 7), says(DONE, 3));
    // Releasing in the order of opening keeps the epoch until the last.
    assert_eq!(m.release(1, 0), says(DONE, 0));
    assert_eq!(m.slots[1].epoch, 1);
    assert_eq!(m.release(1, 1), says(DONE, 0));
    assert_eq!(m.slots[1].epoch, 2);
}

#[test]
fn p5_epochs_go_round() {
    let mut m = Machine::fresh();
    m.create();
    m.slots[1].epoch = TOP - 1;
    assert_eq!(inside(&mut m, 1), says(DONE, 0));
    assert_eq!(m.slots[1].epoch, TOP);
    // Held by the epoch 2^64-1, and passed once it is 0.
    published(&mut m);
    assert_eq!(m.snapshots[1], TOP);
    assert_eq!(published(&mut m), says(HELD, 1));
    assert_eq!(m.release(1, 0), says(DONE, 0));
    assert_eq!(m.slots[1].epoch, 0);
    // One poll was made before, and the copying comes on top.
    assert_eq!(m.run(), says(DONE, steps::PUBLISH - 1 + 1));
}

#[test]
fn p6_enter_after_null() {
    let mut m = Machine::fresh();
    m.create();
    m.take();
    assert_eq!(m.run(), says(DONE, 1 + steps::FIRST_PUBLISH + steps::TAKE_END));
    let epoch = m.slots[1].epoch;
    assert_eq!(m.enter(1), says(DONE, 0));
    assert_eq!(m.drop_handle(1), says(NOT_NOW, 0));
    assert_eq!(m.go_on(1), says(NONE, 0));
    assert_eq!(m.drop_handle(1), says(NOT_NOW, 0));
    assert_eq!(m.go_on(1), says(NONE, 0));
    assert_eq!(m.slots[1].epoch, epoch + 2);
    assert_eq!(m.go_on(1), says(NOT_NOW, 0));
    assert_eq!(m.was_dropped(1), says(DONE, 1));
}

#[test]
fn p7_take_on_a_fresh_machine() {
    let mut m = Machine::fresh();
    assert_eq!(m.take(), says(DONE, 0));
    assert_eq!(m.run(), says(DONE, 1 + steps::FIRST_PUBLISH + steps::TAKE_END));
    assert_eq!(m.phase, Phase::Gone);
    assert!(!m.slots[0].used);
    assert!(!m.locked);
}

#[test]
fn p8_a_new_handle_in_an_old_slot_holds_a_publish() {
    let mut m = Machine::fresh();
    assert_eq!(m.create(), says(DONE, 1));
    inside(&mut m, 1);
    published(&mut m);
    assert_eq!(m.snapshots[1], 1);
    assert_eq!(m.release(1, 0), says(DONE, 0));
    assert_eq!(m.drop_handle(1), says(DONE, 0));
    assert_eq!((m.slots[1].epoch, m.snapshots[1]), (2, 1));
    assert_eq!(m.create(), says(DONE, 1));
    assert_eq!((m.slots[1].epoch, m.snapshots[1]), (0, 1));
    assert_eq!(inside(&mut m, 1), says(DONE, 0));
    assert_eq!(published(&mut m), says(HELD, 1));
}

#[test]
fn p8_passed_by_a_try_that_is_declined_later() {
    // The snapshot that counts is the one read at the last swap, not the one that a poll looked at.
    let mut m = Machine::fresh();
    m.create();
    m.create();
    inside(&mut m, 1);
    inside(&mut m, 2);
    published(&mut m);
    m.release(1, 0);
    m.drop_handle(1);
    m.create();
    m.try_publish();
    assert_eq!(m.run(), says(DECLINED, 2));
    inside(&mut m, 1);
    m.try_publish();
    assert_eq!(m.run(), says(DECLINED, 1));
}

#[test]
fn p9_counts_stop_at_the_top() {
    let mut m = Machine::fresh();
    m.create();
    m.append(add(5, TOP - 1));
    m.append(add(5, 1));
    m.append(add(5, 5));
    published(&mut m);
    inside(&mut m, 1);
    assert_eq!(m.look_up(1, 0, 5), says(DONE, TOP));
}

#[test]
fn all_pairs_fit_and_the_next_spills() {
    let mut m = Machine::fresh();
    m.create();
    for key in (0..PAIRS as u64).rev() {
        assert_eq!(m.append(add(key * 3, key + 1)), says(DONE, 0));
    }
    assert_eq!((m.copies[RIGHT].used(), m.copies[RIGHT].spill()), (PAIRS, 0));
    let before = m.copies[RIGHT].clone();
    m.append(add(1, 9));
    assert_eq!((m.copies[RIGHT].used(), m.copies[RIGHT].spill()), (PAIRS, 1));
    assert_eq!(m.copies[RIGHT].words[HEAD_WORDS..], before.words[HEAD_WORDS..]);
    // A present key still grows, a dropped one makes room, and CLEAR takes the spill too.
    m.append(add(3, 1));
    assert_eq!(m.copies[RIGHT].look_up(3), Some(&[3, 3][..]));
    m.append(drop_key(0));
    m.append(add(1, 9));
    assert_eq!((m.copies[RIGHT].used(), m.copies[RIGHT].spill()), (PAIRS, 1));
    assert_eq!(m.copies[RIGHT].words[HEAD_WORDS..place(2)], [1, 9, 3, 3]);
    m.copies[RIGHT].words[1] = TOP;
    m.append(add(2, 1));
    assert_eq!(m.copies[RIGHT].spill(), TOP);
    m.append(WIPE);
    assert_eq!(m.copies[RIGHT].words, [0; WORDS]);
}

#[test]
fn pairs_move_inside_one_copy() {
    let mut t = Table::empty();
    for key in [5, 1, 9, 3, TOP, 0] {
        t.apply(add(key, key / 2 + 1));
    }
    assert_eq!(t.view(), [6, 0, 0, 1, 1, 1, 3, 2, 5, 3, 9, 5, TOP, TOP / 2 + 1]);
    t.apply(drop_key(3));
    t.apply(drop_key(4));
    t.apply(drop_key(TOP));
    assert_eq!(t.view(), [4, 0, 0, 1, 1, 1, 5, 3, 9, 5]);
    assert!(t.words[place(4)..].iter().all(|&word| word == 0));
}

#[test]
fn the_log_fills_after_the_first_publish() {
    const ROOM: u64 = LOG_ROOM as u64;
    let mut m = Machine::fresh();
    published(&mut m);
    for key in 0..ROOM {
        assert_eq!(m.append(add(key, 1)), says(DONE, 0));
    }
    assert_eq!(m.append(add(ROOM, 1)), says(LOG_FULL, 0));
    // One publish applies all and drops none: the other copy still wants them.
    assert_eq!(published(&mut m), says(DONE, steps::PUBLISH + 1 + ROOM));
    assert_eq!(m.append(add(ROOM, 1)), says(LOG_FULL, 0));
    assert_eq!(published(&mut m), says(DONE, steps::PUBLISH + ROOM));
    assert_eq!(m.log_words(), [0; LOG_WORDS]);
    assert_eq!(m.append(add(ROOM, 1)), says(DONE, 0));
    assert_eq!(m.log_words()[..=OPERATION_WORDS], [ADD.into(), ROOM, 1, 0]);
}

#[test]
fn a_batch_has_room_for_64() {
    assert_eq!(BATCH_ROOM, 64);
    for first in [true, false] {
        let mut m = Machine::fresh();
        if !first {
            published(&mut m);
        }
        assert_eq!(m.extend(&adds(65)), says(OPERATION, 0));
        assert_eq!((m.copies[RIGHT].used(), m.log.len(), m.slots[0].epoch), (0, 0, 0));
        assert_eq!(m.extend(&adds(64)), says(DONE, 0));
        let taken = if first { (64, 0, 2) } else { (0, 64, 0) };
        assert_eq!((m.copies[RIGHT].used(), m.log.len(), m.slots[0].epoch), taken);
    }
}

#[test]
fn a_batch_that_the_log_cannot_hold() {
    let mut m = Machine::fresh();
    published(&mut m);
    for size in [64, 64, 64, 8] {
        assert_eq!(m.extend(&adds(size)), says(DONE, 0));
    }
    let before = m.log_words();
    assert_eq!(m.extend(&adds(57)), says(LOG_FULL, 0));
    assert_eq!(m.log_words(), before);
    assert_eq!(m.extend(&adds(56)), says(DONE, 0));
    assert_eq!(m.log.len(), 256);
    // Full, there is room for nothing, and a bad operation is still 5.
    assert_eq!(m.extend(&[]), says(DONE, 0));
    assert_eq!(m.append(add(1, 1)), says(LOG_FULL, 0));
    assert_eq!(m.append(add(1, 0)), says(OPERATION, 0));
    assert_eq!(m.extend(&adds(65)), says(OPERATION, 0));
    assert_eq!(m.log.len(), 256);
}

#[test]
fn a_bad_operation_leaves_the_others_out() {
    let bad = add(8, 0);
    for operations in [[add(7, 3), bad], [bad, add(7, 3)]] {
        let mut m = Machine::fresh();
        assert_eq!(m.extend(&operations), says(OPERATION, 0));
        assert_eq!((m.copies[RIGHT].view(), m.slots[0].epoch), (&[0, 0][..], 0));
        published(&mut m);
        assert_eq!(m.extend(&operations), says(OPERATION, 0));
        assert!(m.log.is_empty());
    }
}

#[test]
fn a_batch_is_its_operations_in_order() {
    let operations = [add(7, 3), drop_key(7), add(8, 1), WIPE, add(9, 1), add(9, 2)];
    let mut m = Machine::fresh();
    m.extend(&operations);
    assert_eq!(m.copies[RIGHT].view(), [1, 0, 9, 3]);

    let (mut one, mut by_one) = (Machine::fresh(), Machine::fresh());
    for m in [&mut one, &mut by_one] {
        published(m);
    }
    one.extend(&operations);
    for operation in operations {
        by_one.append(operation);
    }
    assert_eq!(one.log, by_one.log);
    assert_eq!(published(&mut one), says(DONE, steps::PUBLISH + 1 + 6));
    assert_eq!(one.copies[LEFT].view(), [1, 0, 9, 3]);
}

#[test]
fn take_after_the_first_publish_with_an_empty_log() {
    let mut m = Machine::fresh();
    m.append(add(7, 3));
    published(&mut m);
    let kept = m.pointer;
    assert_eq!(m.take(), says(DONE, 0));
    for _ in 1..steps::TAKE_END {
        assert_eq!(m.step(), says(DONE, 0));
    }
    // The copy that is dropped never heard of the key.
    assert_eq!(m.phase, Phase::Finish);
    assert!(m.second);
    assert_eq!(m.copies[1 - kept].view(), [0, 0]);
    assert_eq!(m.step(), says(DONE, 1));
    assert_eq!(m.copies[kept].view(), [1, 0, 7, 3]);
    assert_eq!(m.step(), says(GONE, 0));

    let mut m = Machine::fresh();
    published(&mut m);
    m.take();
    assert_eq!(m.run(), says(DONE, steps::TAKE_END));
}

#[test]
fn counts_of_publishes() {
    // The first has its own count; the others have one more for the copying (once) and for each operation in the log.
    let mut m = Machine::fresh();
    m.append(add(1, 1));
    assert_eq!(published(&mut m).value, steps::FIRST_PUBLISH);
    assert_eq!(published(&mut m).value, steps::PUBLISH + 1);
    assert_eq!(published(&mut m).value, steps::PUBLISH);
    m.append(add(2, 1));
    m.append(add(3, 1));
    assert_eq!(published(&mut m).value, steps::PUBLISH + 2);
    m.append(add(4, 1));
    assert_eq!(m.swap_index, 2);
    assert_eq!(published(&mut m).value, steps::PUBLISH + 3);
    assert_eq!(published(&mut m).value, steps::PUBLISH + 1);
    assert_eq!(published(&mut m).value, steps::PUBLISH);
    let table = [4, 0, 1, 1, 2, 1, 3, 1, 4, 1];
    assert_eq!(m.copies[LEFT].view(), table);
    assert_eq!(m.copies[RIGHT].view(), table);
}

#[test]
fn counts_of_tries() {
    // A first try polls too.
    let mut m = Machine::fresh();
    assert_eq!(m.try_publish(), says(DONE, 0));
    assert_eq!(m.run(), says(DONE, steps::PUBLISH));
    assert_eq!(m.try_publish(), says(DONE, 0));
    assert_eq!(m.run(), says(DONE, steps::PUBLISH + 1));
    m.append(add(2, 1));
    assert_eq!(m.try_publish(), says(DONE, 0));
    assert_eq!(m.run(), says(DONE, steps::PUBLISH + 1));
}

#[test]
fn counts_of_takes() {
    // `before` appends stand below the swap index, `after` behind it.
    for before in 0..3 {
        for after in 0..3 {
            let mut m = Machine::fresh();
            published(&mut m);
            for key in 0..before {
                m.append(add(key, 1));
            }
            if before > 0 {
                published(&mut m);
            }
            for key in 0..after {
                m.append(add(key, 1));
            }
            let unsynchronised = m.second as u64;
            m.take();
            let held = before + after;
            let first = if held > 0 { 1 + steps::PUBLISH + unsynchronised + held } else { 0 };
            let second = if after > 0 { 1 + steps::PUBLISH + after } else { 0 };
            assert_eq!(m.run(), says(DONE, first + second + steps::TAKE_END), "{before} before, {after} after");
        }
    }
}

#[test]
fn while_first_only_slot_0_notices_an_append() {
    let mut m = Machine::fresh();
    m.slots[0].epoch = TOP - 1;
    m.append(add(1, 1));
    assert_eq!(m.slots[0].epoch, 0);
    assert!(m.log.is_empty());
    published(&mut m);
    m.append(add(1, 1));
    assert_eq!(m.slots[0].epoch, 0);
    assert_eq!(m.log.len(), 1);
}

#[test]
fn while_first_slot_0_notices_a_batch_once() {
    let mut m = Machine::fresh();
    for (size, epoch) in [(3, 2), (0, 4), (64, 6), (1, 8)] {
        assert_eq!(m.extend(&adds(size)), says(DONE, 0));
        assert_eq!(m.slots[0].epoch, epoch);
    }
    published(&mut m);
    for size in [3, 0] {
        assert_eq!(m.extend(&adds(size)), says(DONE, 0));
        assert_eq!((m.slots[0].epoch, m.log.len()), (8, 3));
    }
}

#[test]
fn a_declined_try_changes_nothing() {
    let mut m = Machine::fresh();
    m.create();
    inside(&mut m, 1);
    published(&mut m);
    m.append(add(1, 1));
    assert_eq!(m.try_publish(), says(DONE, 0));
    assert_eq!(m.create(), says(LOCKED, 0));
    assert_eq!(m.step(), says(DONE, 0));
    assert_eq!(m.step(), says(DECLINED, 1));
    assert_eq!(m.step(), says(NOT_NOW, 0));
    assert_eq!(m.create(), says(DONE, 2));
    assert!(m.second);
    assert_eq!(m.swap_index, 0);
    assert_eq!(m.try_publish(), says(DONE, 0));
    assert_eq!(m.run(), says(DECLINED, 1));
    m.release(1, 0);
    assert_eq!(m.try_publish(), says(DONE, 0));
    assert_eq!(m.run(), says(DONE, steps::PUBLISH + 2));
}

#[test]
fn take_waits_for_snapshots_of_its_own() {
    // A reader that came after the last publish is even in that publish's snapshot, and must still be waited for.
    let mut m = Machine::fresh();
    m.create();
    published(&mut m);
    inside(&mut m, 1);
    m.take();
    assert_eq!(m.run(), says(HELD, 1 + 1 + steps::SLOTS + 1));
    assert_eq!(m.was_dropped(1), says(DONE, 1));
    assert_eq!(m.enter(1), says(NONE, 0));
    assert_eq!(m.look_up(1, 0, 0), says(DONE, 0));
    assert_eq!(m.release(1, 0), says(DONE, 0));
    assert_eq!(m.run(), says(DONE, steps::SLOTS - 1 + 1));
}

#[test]
fn the_lock_within_a_take() {
    // Free before each publish's begin, before null and before the lock step; held elsewhere.
    let mut m = Machine::fresh();
    published(&mut m);
    m.append(add(1, 1));
    m.take();
    let mut free = Vec::new();
    let mut step = 0;
    loop {
        if !m.locked {
            free.push(step);
        }
        step += 1;
        if m.step().value == 1 {
            break;
        }
    }
    // Two publishes, of which the first copies too, then null, lock and the rest.
    let first = 1 + steps::PUBLISH + 2;
    let both = first + 1 + steps::PUBLISH + 1;
    assert_eq!(free, [0, first, both, both + 1]);
    assert_eq!(step, both + steps::TAKE_END);
}

#[test]
fn create_after_gone_hands_out_slot_0() {
    let mut m = Machine::fresh();
    m.take();
    m.run();
    assert_eq!(m.was_dropped(0), says(NO_SLOT, 0));
    assert_eq!(m.create(), says(DONE, 0));
    assert_eq!(m.was_dropped(0), says(DONE, 1));
    assert_eq!(m.enter(0), says(DONE, 0));
    assert_eq!(m.go_on(0), says(NONE, 0));
    assert_eq!(m.go_on(0), says(NONE, 0));
    assert_eq!(m.drop_handle(0), says(DONE, 0));
    assert_eq!(m.append(Operation { kind: 9, key: 0, amount: 0 }), says(GONE, 0));
}

/// A machine with so many handles besides the writer's own.
fn with_handles(count: u64) -> Machine {
    let mut m = Machine::fresh();
    for slot in 1..=count {
        assert_eq!(m.create(), says(DONE, slot));
    }
    m
}

fn drops(m: &mut Machine, slots: &[u8]) {
    for &slot in slots {
        assert_eq!(m.drop_handle(slot), says(DONE, 0));
    }
}

/// These come one after the other.
fn creates(m: &mut Machine, slots: impl IntoIterator<Item = u8>) {
    for slot in slots {
        assert_eq!(m.create(), says(DONE, slot.into()));
    }
}

#[test]
fn the_slot_freed_last_is_handed_out_first() {
    let mut m = with_handles(2);
    drops(&mut m, &[1, 2]);
    creates(&mut m, [2, 1, 3]);
    // Freed once more, in the other order and with one in use between.
    drops(&mut m, &[3, 1]);
    creates(&mut m, [1, 3, 4]);
}

#[test]
fn take_frees_slot_0_at_its_end() {
    let gone = || {
        let mut m = with_handles(2);
        drops(&mut m, &[1]);
        m.take();
        m.run();
        m
    };
    creates(&mut gone(), [0, 1, 3]);
    let mut m = gone();
    drops(&mut m, &[2]);
    creates(&mut m, [2, 0, 1, 3]);
    drops(&mut m, &[0, 3]);
    creates(&mut m, [3, 0, 4]);
}

#[test]
fn slots_dropped_while_a_take_is_under_way() {
    let mut m = with_handles(4);
    published(&mut m);
    m.append(add(1, 1));
    m.take();
    // Before each of its two publishes, before null and before the lock.
    let mut dropped = Vec::new();
    for slot in [3, 1, 4, 2] {
        while m.locked {
            assert_eq!(m.step(), says(DONE, 0));
        }
        dropped.push(m.phase);
        drops(&mut m, &[slot]);
        assert_eq!(m.step(), says(DONE, 0));
    }
    assert_eq!(dropped, [Phase::Begin(Whose::TakeFirst), Phase::Begin(Whose::TakeSecond), Phase::Null, Phase::Lock]);
    assert_eq!(m.run().answer, DONE);
    creates(&mut m, [0, 2, 4, 1, 3, 5]);
}

#[test]
fn sixteen_slots_are_handed_out_in_any_order_of_drops() {
    const ALL: std::ops::Range<u8> = 1..SLOTS as u8;
    let mut m = with_handles(ALL.end as u64 - 1);
    let odd_first: Vec<u8> = ALL.filter(|slot| slot % 2 == 1).chain(ALL.filter(|slot| slot % 2 == 0)).collect();
    for order in [ALL.collect(), ALL.rev().collect(), odd_first, vec![9], vec![2, 15, 8]] {
        assert_eq!(m.create(), says(SLOTS_FULL, 0));
        drops(&mut m, &order);
        creates(&mut m, order.into_iter().rev());
    }
    assert_eq!(m.create(), says(SLOTS_FULL, 0));
}

#[test]
fn handles_that_come_and_go() {
    // The same rule from when each slot was freed, which those never in use were not.
    let mut choose = Random::new(1);
    for _ in 0..100 {
        let mut m = Machine::fresh();
        let mut freed_at = [0; SLOTS];
        for now in 1..200 {
            if now == 100 {
                m.take();
                m.run();
                freed_at[0] = now;
            } else if choose.chance(1, 2) {
                let slot = choose.below(SLOTS);
                if m.drop_handle(slot as u8) == says(DONE, 0) {
                    freed_at[slot] = now;
                }
            } else {
                let free = (0..SLOTS).rev().filter(|&slot| !m.slots[slot].used);
                let wanted = free.max_by_key(|&slot| freed_at[slot]);
                assert_eq!(m.create(), wanted.map_or(only(SLOTS_FULL), |slot| says(DONE, slot as u64)));
            }
        }
    }
}

#[test]
fn the_smallest_refusal_wins() {
    let bad = add(7, 0);
    let mut m = Machine::fresh();
    assert_eq!(m.drop_handle(0), says(NOT_NOW, 0));
    assert_eq!(m.enter(SLOTS as u8), says(NO_SLOT, 0));
    assert_eq!(m.enter(1), says(NO_SLOT, 0));
    assert_eq!(m.release(0, 0), says(NO_GUARD, 0));
    assert_eq!(m.look_up(0, GUARDS as u8, 0), says(NO_GUARD, 0));
    assert_eq!(m.go_on(0), says(NOT_NOW, 0));
    assert_eq!(m.append(bad), says(OPERATION, 0));
    // A step due at slot 0 comes before its open guards; a bad operation before both.
    assert_eq!(m.enter(0), says(DONE, 0));
    assert_eq!(m.append(add(1, 1)), says(NOT_NOW, 0));
    assert_eq!(m.append(bad), says(OPERATION, 0));
    assert_eq!(m.flush(), says(NOT_NOW, 0));
    assert_eq!(m.was_dropped(0), says(DONE, 0));
    assert_eq!(m.release(0, 0), says(NO_GUARD, 0));
    assert_eq!(m.go_on(0), says(DONE, 0));
    for guard in 1..GUARDS as u64 {
        assert_eq!(m.enter(0), says(DONE, guard));
    }
    assert_eq!(m.enter(0), says(FOUR_GUARDS, 0));
    for reply in [m.append(add(1, 1)), m.publish(), m.try_publish(), m.flush(), m.take()] {
        assert_eq!(reply, says(GUARDS_OPEN, 0));
    }
    for guard in (0..GUARDS as u8).rev() {
        assert_eq!(m.release(0, guard), says(DONE, 0));
    }
    for slot in 1..SLOTS as u64 {
        assert_eq!(m.create(), says(DONE, slot));
    }
    assert_eq!(m.create(), says(SLOTS_FULL, 0));
    // Under way: 6 for slot 0, 7 before 8 and 12.
    inside(&mut m, 1);
    m.publish();
    assert_eq!(m.append(bad), says(OPERATION, 0));
    assert_eq!(m.append(add(1, 1)), says(NOT_NOW, 0));
    assert_eq!(m.take(), says(NOT_NOW, 0));
    for reply in [m.drop_handle(0), m.enter(0), m.go_on(0), m.release(0, 0), m.look_up(0, 0, 0), m.was_dropped(0)] {
        assert_eq!(reply, says(NOT_NOW, 0));
    }
    assert_eq!(m.create(), says(LOCKED, 0));
    assert_eq!(m.drop_handle(1), says(LOCKED, 0));
    m.run();
    assert_eq!(m.create(), says(SLOTS_FULL, 0));
    assert_eq!(m.drop_handle(1), says(GUARDS_OPEN, 0));
    assert_eq!(m.run(), says(NOT_NOW, 0));
}

#[test]
fn which_refusal_a_batch_gets() {
    let (good, empty) = (adds(2), adds(0));
    let bad = [adds(65), vec![add(1, 1), add(7, 0)]];
    let mut m = Machine::fresh();
    let all = |m: &mut Machine, fit: u8, unfit: u8| {
        for operations in [&good, &empty] {
            assert_eq!(m.extend(operations), says(fit, 0));
        }
        for operations in &bad {
            assert_eq!(m.extend(operations), says(unfit, 0));
        }
    };
    all(&mut m, DONE, OPERATION);
    m.enter(0);
    all(&mut m, NOT_NOW, OPERATION);
    m.go_on(0);
    all(&mut m, GUARDS_OPEN, OPERATION);
    m.release(0, 0);
    m.publish();
    all(&mut m, NOT_NOW, OPERATION);
    m.run();
    m.take();
    m.run();
    all(&mut m, GONE, GONE);
}

#[test]
fn four_guards_come_before_null() {
    let mut m = Machine::fresh();
    m.create();
    inside(&mut m, 1);
    for _ in 1..GUARDS {
        m.enter(1);
    }
    m.take();
    m.run();
    assert_eq!(m.was_dropped(1), says(DONE, 1));
    assert_eq!(m.enter(1), says(FOUR_GUARDS, 0));
    m.release(1, 2);
    assert_eq!(m.enter(1), says(NONE, 0));
}

#[test]
fn refused_files() {
    const WRITTEN: usize = 2 * ENTRY;
    let create = Record::of(call::CREATE);
    let good = schedule(&[create, Record::of(call::PUBLISH)]);
    let refused = |bytes: &[u8], room: usize| {
        let mut out = vec![0x55; room];
        let (answer, written) = play(bytes, &mut out);
        assert_eq!(written, 0);
        assert!(out.iter().all(|&byte| byte == 0x55));
        answer
    };
    assert_eq!(refused(&[], WRITTEN), BAD_MARK);
    assert_eq!(refused(b"LRT\x01", WRITTEN), BAD_MARK);
    assert_eq!(refused(b"LRS\x01\x00", WRITTEN), BAD_MARK);
    assert_eq!(refused(b"LRT\x02\x00", WRITTEN), BAD_VERSION);
    assert_eq!(refused(b"LRT\x01\x01", WRITTEN), BAD_VERSION);
    assert_eq!(refused(&good[..good.len() - 1], WRITTEN), TORN);
    assert_eq!(refused(&good, WRITTEN - 1), SHORT_OUTPUT);
    for call in [0, call::LAST + 1, 255] {
        let bad = Record::of(call);
        assert_eq!(refused(&schedule(&[create, bad]), WRITTEN), BAD_CALL);
        // Torn comes before a bad call, and a bad call before a short output.
        let bytes = schedule(&[bad, create]);
        assert_eq!(refused(&bytes[..bytes.len() - 1], WRITTEN), TORN);
        assert_eq!(refused(&bytes, 0), BAD_CALL);
    }
    assert_eq!(play(&schedule(&[]), &mut []), (PLAYED, 0));
    let mut out = [0x55; WRITTEN + 2];
    assert_eq!(play(&good, &mut out), (PLAYED, WRITTEN as u64));
    assert_eq!(out[WRITTEN..], [0x55, 0x55]);
}

/// A schedule of which some records get an entry, with its replies.
fn plays(records: &[Record], replies: &[Reply]) {
    let bytes = schedule(records);
    let wanted: Vec<u8> = replies.iter().flat_map(|reply| reply.to_bytes()).collect();
    assert_eq!(entries(&bytes[HEADER..]), Ok(replies.len()));
    let mut out = vec![0x55; wanted.len() + 3];
    assert_eq!(play(&bytes, &mut out), (PLAYED, wanted.len() as u64));
    assert_eq!(out, [&wanted[..], &[0x55; 3]].concat());
    // Entries want room, and not records.
    assert_eq!(play(&bytes, &mut out[..wanted.len()]), (PLAYED, wanted.len() as u64));
    assert_eq!(play(&bytes, &mut out[..wanted.len() - 1]), (SHORT_OUTPUT, 0));
}

#[test]
fn batches_in_schedules() {
    let (append, publish, run) = (Record::append(ADD, 7, 3), Record::of(call::PUBLISH), Record::of(call::RUN));
    let members = |size: usize| [vec![Record::batch(size as u64)], vec![append; size]].concat();
    let done = says(DONE, 0);
    plays(&members(0), &[done]);
    plays(&members(64), &[done]);
    plays(&members(65), &[says(OPERATION, 0)]);
    plays(&[members(100), vec![run]].concat(), &[says(OPERATION, 0), says(NOT_NOW, 0)]);
    plays(&[members(1), members(0), vec![append], members(2)].concat(), &[done; 4]);
    // What the batch does not use is ignored, and so is what an append does not use.
    let odd = Record { slot: 99, guard: 98, kind: 97, key: 96, ..Record::batch(1) };
    plays(
        &[odd, Record { slot: 77, guard: 66, ..append }, publish, run],
        &[done, done, says(DONE, steps::FIRST_PUBLISH)],
    );
    // Its members are operations, of which one may be bad.
    plays(&[Record::batch(2), append, Record::append(ADD, 7, 0), append], &[says(OPERATION, 0), done]);
    let gone = [done, says(DONE, 1 + steps::FIRST_PUBLISH + steps::TAKE_END), says(GONE, 0)];
    plays(&[vec![Record::of(call::TAKE), run], members(65)].concat(), &gone);
}

#[test]
fn batches_that_refuse_a_file() {
    let (create, append) = (Record::of(call::CREATE), Record::append(ADD, 7, 3));
    let at_the_batch = |records: &[Record]| {
        let place = records.iter().position(|record| record.call == call::BATCH).unwrap();
        let bytes = schedule(records);
        assert_eq!(entries(&bytes[HEADER..]), Err(place));
        assert_eq!(play(&bytes, &mut []), (BAD_CALL, 0));
        assert_eq!(play(&bytes[..bytes.len() - 1], &mut []), (TORN, 0));
    };
    // Too few are left: of any batch that is cut at any of its records, and of any file where so many are wanted.
    for size in [1, 2, 64, 65, 100] {
        for left in 0..size {
            at_the_batch(&[vec![create, Record::batch(size as u64)], vec![append; left]].concat());
        }
    }
    for amount in [3, 1 << 32, 1 << 62, TOP / RECORD as u64, TOP / 2 + 2, TOP - 1, TOP] {
        at_the_batch(&[append, Record::batch(amount), append, append]);
    }
    // One of them is no append.
    for call in (0..=u8::MAX).filter(|&call| call != call::APPEND) {
        for place in 2..5 {
            let mut records = [create, Record::batch(3), append, append, append, append];
            records[place].call = call;
            at_the_batch(&records);
        }
    }
    // A call that is none is found at its own place, behind a batch too.
    let records = [Record::batch(1), append, Record::of(call::LAST + 1)];
    assert_eq!(entries(&schedule(&records)[HEADER..]), Err(2));
}
