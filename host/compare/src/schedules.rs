//! What is played: random schedules, most of them far within the rules, and damaged files.

use crate::case::Case;
use common::{
    answer, call, kind, turns, Random, Record, BATCH_ROOM, ENTRY, GUARDS, HEADER, LOG_ROOM, PAIRS, RECORD, SLOTS,
};
use reference::{Due, Machine, Operation};

const TOP: u64 = u64::MAX;

/// A table of more keys than this is a large one.
const MANY: u64 = 100;

/// The first slot and the last, and just past it.
const EDGES: [u8; 5] = [0, SLOTS as u8 - 1, SLOTS as u8, SLOTS as u8 + 1, 255];

/// Mostly adds; the last two are none.
const KINDS: [u8; 12] = {
    use kind::{ADD, CLEAR, DROP};
    [ADD, ADD, ADD, ADD, ADD, ADD, DROP, DROP, DROP, CLEAR, 0, CLEAR + 1]
};

/// The calls of handles that come and go.
const CHURN: [u8; 17] = {
    use call::*;
    [
        CREATE, DROP, DROP, ENTER, GO_ON, RELEASE, RELEASE, LOOK_UP, APPEND, BATCH, PUBLISH, PUBLISH, TRY, STEP, RUN,
        RUN, RUN,
    ]
};

/// The calls of an end: many guards, and a take among them.
const END: [u8; 15] = {
    use call::*;
    [CREATE, DROP, ENTER, ENTER, ENTER, ENTER, GO_ON, GO_ON, RELEASE, LOOK_UP, WAS_DROPPED, TAKE, TAKE, STEP, RUN]
};

/// How likely each call is, in the order of the numbers.
type Weights = [usize; call::COUNT];

/// A call's place among the weights.
const fn at(call: u8) -> usize {
    (call - call::FIRST) as usize
}

/// Every field may be anything, but for a batch's amount.
fn wild(choose: &mut Random) -> Vec<Record> {
    let word = choose.word();
    let byte = |at: u64| (word >> (8 * at)) as u8;
    let record = Record {
        call: call::FIRST + byte(0) % call::COUNT as u8,
        slot: byte(1),
        guard: byte(2),
        kind: byte(3),
        key: choose.word(),
        amount: choose.word(),
    };
    whole(choose, record, 3, LOG_ROOM)
}

/// Fields that mostly make sense; the limits and just past them come up too.
fn likely(choose: &mut Random, slots: usize, keys: u64, weights: &Weights) -> Record {
    // A large table has to grow before anything else.
    let kind = if keys > MANY && choose.chance(29, 30) { kind::ADD } else { choose.pick(&KINDS) };
    let call = call::FIRST + choose.weighed(weights) as u8;
    let mut record = Record {
        call,
        slot: if choose.chance(1, 40) { choose.pick(&EDGES) } else { choose.below(slots) as u8 },
        guard: choose.pick(&[0, 0, 0, 0, 1, 1, 2, 3, GUARDS as u8]),
        kind,
        key: choose.word() % keys,
        amount: match kind {
            kind::ADD => choose.pick(&[1, 1, 2, 5, TOP - 1, TOP, 0]),
            _ => (choose.chance(1, 10)) as u64,
        },
    };
    if kind == kind::CLEAR && choose.chance(if keys > MANY { 1 } else { 9 }, 10) {
        record.key = 0;
    }
    if keys > MANY && choose.chance(1, 20) {
        record.key = choose.pick(&[TOP, TOP - 1, 1 << 63]);
    }
    record
}

fn turn(choose: &mut Random, slots: usize, keys: u64, weights: &Weights) -> Vec<Record> {
    let record = likely(choose, slots, keys, weights);
    whole(choose, record, keys, LOG_ROOM)
}

/// A batch's own record gets its members: from none to two too many, and often as many as the log has room for, or one
/// more. Other calls stay alone.
fn whole(choose: &mut Random, record: Record, keys: u64, room: usize) -> Vec<Record> {
    const MOST: usize = BATCH_ROOM + 2;
    if record.call != call::BATCH {
        return vec![record];
    }
    let size = match choose.below(4) {
        0 => choose.below(MOST + 1),
        1 => choose.pick(&[0, BATCH_ROOM - 1, BATCH_ROOM, BATCH_ROOM + 1]),
        2 => choose.pick(&[room, room + 1]).min(BATCH_ROOM),
        _ => choose.below(5),
    };
    // One bad operation refuses all, so most batches have none.
    let bad = choose.chance(1, 8).then(|| choose.pick(&[0, size / 2, size.saturating_sub(1)]));
    let mut turn = vec![Record { amount: size as u64, ..record }];
    turn.extend((0..size).map(|at| append(choose, keys, Some(at) != bad)));
    turn
}

/// An append whose operation is good, or is not.
fn append(choose: &mut Random, keys: u64, good: bool) -> Record {
    loop {
        let record = Record { call: call::APPEND, ..likely(choose, SLOTS, keys, &NO_WEIGHTS) };
        if Operation::of(record).is_good() == good {
            return record;
        }
    }
}

/// Rows of appends become batches.
fn batched(choose: &mut Random, records: &[Record]) -> Vec<Record> {
    let mut made = Vec::new();
    for row in records.chunk_by(|one, two| one.call == call::APPEND && two.call == call::APPEND) {
        for part in row.chunks(1 + choose.below(BATCH_ROOM)) {
            if row[0].call == call::APPEND {
                made.push(Record::batch(part.len() as u64));
            }
            made.extend(part);
        }
    }
    made
}

/// Handles come and go in a slot or two, with publishes between.
fn churn(choose: &mut Random) -> Record {
    Record {
        call: choose.pick(&CHURN),
        slot: choose.pick(&[1, 1, 1, 1, 1, 2]),
        guard: choose.pick(&[0, 0, 0, 0, 1]),
        kind: kind::ADD,
        key: 1,
        amount: 1,
    }
}

const NO_WEIGHTS: Weights = [1; call::COUNT];

/// Some calls often and some not at all, else nothing goes on for long.
fn weights(choose: &mut Random) -> Weights {
    let mut weights = NO_WEIGHTS;
    for weight in &mut weights {
        *weight = choose.pick(&[0, 1, 1, 2, 6]);
    }
    // A take ends everything.
    weights[at(call::TAKE)] = choose.chance(1, 4) as usize;
    for call in [call::ENTER, call::GO_ON, call::PUBLISH, call::STEP, call::RUN] {
        weights[at(call)] = weights[at(call)].max(1);
    }
    weights
}

fn records(choose: &mut Random) -> Vec<Record> {
    match choose.below(20) {
        0 => (0..choose.below(60)).flat_map(|_| wild(choose)).collect(),
        1 if choose.chance(1, 6) => full(choose),
        1 | 2 => {
            let weights = weights(choose);
            (0..choose.below(200)).flat_map(|_| turn(choose, 4, 5, &weights)).collect()
        }
        style => {
            // What the rules refuse is mostly left out, so that the machine gets far.
            let mut weights = weights(choose);
            let mut slots = choose.pick(&[2, 3, 5, SLOTS]);
            let (mut length, mut keys) = (10 + choose.below(300), choose.pick(&[1, 3, 8]));
            if style == 3 {
                // Enough to fill the log and the table.
                (length, keys) = (1000 + choose.below(3000), choose.pick(&[8, 400, 700]));
                weights[at(call::APPEND)] = choose.pick(&[100, 300, 2000]);
                weights[at(call::BATCH)] = choose.pick(&[0, 5, 50]);
                weights[at(call::LOOK_UP)] = 20;
                weights[at(call::TAKE)] = 0;
            }
            if (8..10).contains(&style) {
                // Many handles come and go, so that several slots are freed at once.
                slots = SLOTS;
                for call in [call::CREATE, call::DROP] {
                    weights[at(call)] = choose.pick(&[10, 20]);
                }
            }
            let churned = (4..8).contains(&style);
            let calm = choose.pick(&[2, 8, 1000]);
            let mut machine = Machine::fresh();
            let mut kept = Vec::new();
            for made in 0..length {
                let ending = !churned && style < 12 && made + 40 > length;
                let record = match settle(choose, &machine) {
                    _ if ending => end(choose),
                    Some(record) if choose.chance(1, calm) => record,
                    _ if churned => churn(choose),
                    _ => likely(choose, slots, keys, &weights),
                };
                let turn = whole(choose, record, keys, LOG_ROOM - machine.log.len());
                let answer = machine.call(&mut turn.iter().copied()).answer;
                // A refused call changes nothing, so leaving it out changes nothing after it; nor does a held step.
                let nothing = (answer::LENGTH..=answer::HELD).contains(&answer) && record.call != call::RUN;
                if !nothing || choose.chance(1, 10) {
                    kept.extend(turn);
                }
            }
            kept
        }
    }
}

/// A table filled to its edge and past it, at once or through the log, and every key of it looked up.
fn full(choose: &mut Random) -> Vec<Record> {
    let (publish, run) = (Record::of(call::PUBLISH), Record::of(call::RUN));
    let keys = (PAIRS - 4 + choose.below(10)) as u64;
    let spread = choose.word() | 1;
    let mut records = vec![Record::of(call::CREATE)];
    if choose.chance(1, 2) {
        records.extend([publish, run]);
    }
    for at in 0..keys {
        // Before the log is full.
        if at % 200 == 199 {
            records.extend([publish, run, publish, run]);
        }
        let key = at.wrapping_mul(spread);
        records.push(Record::append(kind::ADD, key, at + 1));
        if choose.chance(1, 100) {
            let gone = (choose.word() % (at + 1)).wrapping_mul(spread);
            records.push(Record::append(kind::DROP, gone, 0));
        }
    }
    records.extend([publish, run, Record::on(1, call::ENTER), Record::on(1, call::GO_ON)]);
    records.extend((0..keys).map(|at| Record { key: at.wrapping_mul(spread), ..Record::on(1, call::LOOK_UP) }));
    if choose.chance(1, 2) {
        records = batched(choose, &records);
    }
    records
}

/// What brings the writer back to where it can begin something, if it is not there.
fn settle(choose: &mut Random, machine: &Machine) -> Option<Record> {
    let writer = &machine.slots[0];
    if writer.due != Due::Nothing {
        Some(Record::on(0, call::GO_ON))
    } else if let Some(guard) = writer.guards.iter().position(|guard| guard.is_some()) {
        Some(Record { guard: guard as u8, ..Record::on(0, call::RELEASE) })
    } else if machine.under_way() {
        // It may be held: then somebody has to leave.
        let (slot, guard) = (choose.below(SLOTS) as u8, choose.below(GUARDS) as u8);
        let leave = Record { guard, ..Record::on(slot, call::RELEASE) };
        Some(if choose.chance(1, 2) { Record::of(call::RUN) } else { leave })
    } else {
        None
    }
}

fn end(choose: &mut Random) -> Record {
    Record {
        call: choose.pick(&END),
        slot: choose.pick(&[0, 1, 1, 1, 1, 1, 1, 2]),
        guard: choose.below(GUARDS) as u8,
        kind: 0,
        key: choose.word() % 3,
        amount: 0,
    }
}

/// A batch that asks for too many, has a member that is no append, or is cut at one of its records.
fn break_batch(choose: &mut Random, records: &mut Vec<Record>) {
    let batches: Vec<usize> = (0..records.len()).filter(|&at| records[at].call == call::BATCH).collect();
    if batches.is_empty() {
        return;
    }
    let own = choose.pick(&batches);
    let size = records[own].amount as usize;
    let member = own + choose.below(size + 1);
    match choose.below(5) {
        0 => records[own].amount = choose.pick(&[TOP, TOP - 1, 1 << 63, 1 << 62, 1 << 32, records.len() as u64]),
        1 => records[own].amount += 1,
        2 if member > own => records[member] = Record::batch(choose.word() % 3),
        3 if member > own => records[member].call = choose.pick(&CHURN),
        _ => records.truncate(member + 1),
    }
}

/// A file that is refused, mostly; two damages may show which comes first.
fn damage(choose: &mut Random, case: &mut Case) {
    match choose.below(6) {
        0 => case.bytes[0] = choose.word() as u8,
        1 => {
            let at = (1 + choose.below(4)).min(case.bytes.len() - 1);
            case.bytes[at] = choose.pick(&[0, 1, 2, b'R', b'T', 255]);
        }
        2 => case.bytes.truncate(1 + choose.below(case.bytes.len())),
        3 => case.bytes.truncate(1 + choose.below(8).min(case.bytes.len() - 1)),
        4 => case.room = choose.below(case.room + 1),
        _ if case.bytes.len() > HEADER => {
            let at = HEADER + RECORD * choose.below((case.bytes.len() - HEADER).div_ceil(RECORD));
            case.bytes[at] = choose.pick(&[0, call::LAST + 1, call::LAST + 2, 128, 255, call::LAST]);
        }
        _ => (),
    }
}

pub fn case(choose: &mut Random) -> Case {
    let damaged = choose.chance(1, 6);
    let mut records = if damaged {
        let mut weights = NO_WEIGHTS;
        weights[at(call::APPEND)] = 3;
        weights[at(call::BATCH)] = 10;
        (0..choose.below(6)).flat_map(|_| turn(choose, 3, 3, &weights)).collect()
    } else {
        records(choose)
    };
    let broken = damaged && choose.chance(1, 2);
    if broken {
        break_batch(choose, &mut records);
    }
    let spare = choose.pick(&[0, 0, 1, ENTRY - 1, ENTRY, 100]);
    let room = turns(&records).len() * ENTRY + spare;
    let mut case = Case { bytes: common::schedule(&records), room, shift: choose.below(8) };
    if damaged {
        for _ in broken as usize..1 + choose.below(2) {
            damage(choose, &mut case);
        }
        if choose.chance(1, 40) {
            case.bytes.clear();
        }
    }
    case
}
