//! Times the players on five schedules: mostly look-ups, mostly appends with a publish every 64, many held polls, batches
//! of 64 with a publish after each, and the same operations and publishes without the batches.
//!
//!   bench [RECORDS]                              times
//!   bench plays PLAYER SCHEDULE TIMES [RECORDS]  that many plays and no more, for something that counts instructions
//!   bench count CALL SCHEDULE [RECORDS]          how many records of that call it has
//!   bench looks FORM PAIRS present|absent ROUNDS that many rounds of 512 look ups on lent words, likewise
//!
//! Three more schedules are there for their instructions alone: handles that come and go with 1, 8 or 15 slots in use.
//!
//! Each player plays each schedule a number of times, in turn, and the shortest time counts: what else the machine does
//! only ever adds. The reference walks through the pairs of a table; `halving` is the same program with a search by
//! halving.

mod forms;

use common::{call, file, kind, schedule, Player, Random, Record, BATCH_ROOM, ENTRY, PAIRS, SLOTS};
use std::time::Instant;

const TURNS: usize = 15;

const RECORDS: u64 = 100_000;

/// Keys of the two large tables: most of the pairs that there is room for.
const KEYS: u64 = 400;

/// A publish, run to its end.
const PUBLISH: [Record; 2] = [Record::of(call::PUBLISH), Record::of(call::RUN)];

/// A handle goes inside.
const fn inside(slot: u8) -> [Record; 2] {
    [Record::on(slot, call::ENTER), Record::on(slot, call::GO_ON)]
}

/// A key looks like a fingerprint: spread over all 64 bits.
fn key(choose: &mut Random, keys: u64) -> u64 {
    (choose.word() % keys + 1).wrapping_mul(0x9e37_79b9_7f4a_7c15)
}

fn look_ups(length: usize) -> Vec<Record> {
    let mut choose = Random::new(1);
    let mut records = vec![Record::of(call::CREATE)];
    // A bit under all keys are there, and look-ups find two of three.
    records.extend((0..5 * KEYS).map(|_| Record::append(kind::ADD, key(&mut choose, KEYS), 1)));
    records.extend(PUBLISH);
    records.extend(inside(1));
    while records.len() < length {
        records.push(Record { key: key(&mut choose, KEYS * 3 / 2), ..Record::on(1, call::LOOK_UP) });
    }
    records.truncate(length);
    records
}

/// A batch's worth of appends, and a publish.
const ROUND: usize = BATCH_ROOM + PUBLISH.len();

/// A first publish, then so many rounds, each with `before` ahead of it.
fn rounds(count: usize, before: &[Record]) -> Vec<Record> {
    let mut choose = Random::new(2);
    let mut records = PUBLISH.to_vec();
    for _ in 0..count {
        records.extend(before);
        for _ in 0..BATCH_ROOM {
            let key = key(&mut choose, KEYS);
            let drops = choose.chance(1, 8);
            records.push(if drops { Record::append(kind::DROP, key, 0) } else { Record::append(kind::ADD, key, 1) });
        }
        records.extend(PUBLISH);
    }
    records
}

fn appends(length: usize) -> Vec<Record> {
    let mut records = rounds(length.div_ceil(ROUND), &[]);
    records.truncate(length);
    records
}

/// No batch is cut, so these may be some records short.
fn batches(length: usize, before: &[Record]) -> Vec<Record> {
    rounds(length / (1 + ROUND), before)
}

fn held(length: usize) -> Vec<Record> {
    const READERS: std::ops::Range<u8> = 1..SLOTS as u8;
    let mut records: Vec<Record> = READERS.map(|_| Record::of(call::CREATE)).collect();
    records.extend(READERS.flat_map(inside));
    records.extend(PUBLISH);
    while records.len() < length {
        // Every reader holds the publish in its turn, for twenty runs and steps, and comes back at once.
        records.extend([Record::append(kind::ADD, 7, 1), Record::of(call::PUBLISH)]);
        for slot in READERS {
            for _ in 0..10 {
                records.extend([Record::of(call::RUN), Record::of(call::STEP)]);
            }
            records.push(Record::on(slot, call::RELEASE));
            records.extend(inside(slot));
        }
        records.push(Record::of(call::RUN));
    }
    records.truncate(length);
    records
}

/// A handle is made and dropped again and again, beside so many slots that stay in use.
fn creates(length: usize, used: u8) -> Vec<Record> {
    let mut records: Vec<Record> = (1..used).map(|_| Record::of(call::CREATE)).collect();
    while records.len() < length {
        records.extend([Record::of(call::CREATE), Record::on(used, call::DROP)]);
    }
    records
}

/// A schedule by its name.
fn named(name: &str, length: usize) -> Option<Vec<Record>> {
    match name {
        "look-ups" => Some(look_ups(length)),
        "appends" => Some(appends(length)),
        "held-polls" => Some(held(length)),
        "batches" => Some(batches(length, &[Record::batch(BATCH_ROOM as u64)])),
        "one-by-one" => Some(batches(length, &[])),
        "creates-1" => Some(creates(length, 1)),
        "creates-8" => Some(creates(length, 8)),
        "creates-15" => Some(creates(length, 15)),
        _ => None,
    }
}

/// Its bytes, and the transcript that it must have.
fn wanted(records: &[Record]) -> (Vec<u8>, Vec<u8>) {
    let bytes = schedule(records);
    let mut transcript = vec![0; records.len() * ENTRY];
    let (answer, written) = reference::play(&bytes, &mut transcript);
    assert_eq!(answer, file::PLAYED);
    transcript.truncate(written as usize);
    (bytes, transcript)
}

fn players() -> Vec<(&'static str, Player)> {
    let mut players: Vec<(&str, Player)> = vec![("reference", reference::play), ("halving", halving::play)];
    if let Some(player) = lrt::player() {
        players.push(("proved", player));
    }
    players
}

/// One play, with what it must write.
fn play(player: Player, schedule: &[u8], wanted: &[u8]) -> f64 {
    let mut out = vec![0; wanted.len()];
    let start = Instant::now();
    let played = player(schedule, &mut out);
    let time = start.elapsed().as_secs_f64();
    assert!(played == (file::PLAYED, out.len() as u64) && out == wanted, "a player differs from the reference");
    time
}

fn plays(words: &mut impl Iterator<Item = String>) -> Option<()> {
    let player = words.next()?;
    let (_, player) = players().into_iter().find(|(name, _)| *name == player)?;
    let name = words.next()?;
    let times = common::number(words.next(), 1);
    let records = named(&name, common::number(words.next(), RECORDS) as usize)?;
    let (bytes, wanted) = wanted(&records);
    for _ in 0..times {
        play(player, &bytes, &wanted);
    }
    Some(())
}

fn count(words: &mut impl Iterator<Item = String>) -> Option<()> {
    let counted = words.next()?;
    let place = call::NAMES.iter().position(|&call| call == counted)?;
    let name = words.next()?;
    let records = named(&name, common::number(words.next(), RECORDS) as usize)?;
    println!("{}", records.iter().filter(|record| record.call == call::FIRST + place as u8).count());
    Some(())
}

fn looks(words: &mut impl Iterator<Item = String>) -> Option<()> {
    let form = words.next()?;
    let (_, form) = forms::FORMS.into_iter().find(|(name, _)| *name == form)?;
    let pairs = common::number(Some(words.next()?), 0) as usize;
    let present = match words.next()?.as_str() {
        "present" => true,
        "absent" => false,
        _ => return None,
    };
    let rounds = common::number(Some(words.next()?), 0);
    (pairs > 0 && PAIRS.is_multiple_of(pairs)).then(|| forms::look_up(form, pairs, present, rounds))
}

fn times(length: usize) {
    let players = players();
    println!("{length} records, shortest of {TURNS} turns");
    for name in ["look-ups", "appends", "held-polls", "batches", "one-by-one"] {
        let records = named(name, length).unwrap();
        let (bytes, wanted) = wanted(&records);
        let mut shortest = vec![f64::MAX; players.len()];
        for _ in 0..TURNS {
            for (best, (_, player)) in shortest.iter_mut().zip(&players) {
                *best = best.min(play(*player, &bytes, &wanted));
            }
        }
        let told: Vec<String> = players
            .iter()
            .zip(&shortest)
            .map(|((player, _), time)| format!("{player} {:.2} ms ({:.2})", time * 1e3, time / shortest[0]))
            .collect();
        println!("{name:>10}: {}", told.join(", "));
    }
}

fn main() {
    let mut words = std::env::args().skip(1).peekable();
    let done = match words.next_if(|word| ["plays", "count", "looks"].contains(&word.as_str())).as_deref() {
        Some("plays") => plays(&mut words),
        Some("count") => count(&mut words),
        Some(_) => looks(&mut words),
        None => {
            times(common::number(words.next(), RECORDS) as usize);
            Some(())
        }
    };
    if done.is_none() {
        eprintln!("bench plays PLAYER SCHEDULE TIMES [RECORDS], bench count CALL SCHEDULE [RECORDS]");
        eprintln!("or bench looks FORM PAIRS present|absent ROUNDS, with 1, 2, 4 .. 512 pairs");
        std::process::exit(2)
    }
}
