//! The wrapper: lengths, what is written and what is not.

use super::player;
use common::{call, file, kind, schedule, steps, Record, Reply, ENTRY, HEADER, MARK, RECORD};

const FIRST: [Record; 7] = [
    Record::of(call::CREATE),
    Record::append(kind::ADD, 7, 3),
    Record::of(call::PUBLISH),
    Record::of(call::RUN),
    Record::on(1, call::ENTER),
    Record::on(1, call::GO_ON),
    Record { key: 7, ..Record::on(1, call::LOOK_UP) },
];
const VALUES: [u64; 7] = [1, 0, 0, steps::FIRST_PUBLISH, 0, 0, 3];
const WRITTEN: usize = FIRST.len() * ENTRY;

/// What stands in the output before it is lent.
const UNTOUCHED: u8 = 0xaa;

/// The entries of calls that were done, by their values.
fn done(values: &[u64]) -> Vec<u8> {
    values.iter().flat_map(|&value| Reply { answer: common::answer::DONE, value }.to_bytes()).collect()
}

/// Plays into a larger buffer, of which `room` bytes are lent, and looks at what stands around them too.
fn written(schedule: &[u8], room: usize) -> ((u64, u64), Vec<u8>) {
    let mut out = vec![UNTOUCHED; room + 2];
    let told = player().expect("the proved player")(schedule, &mut out[1..=room]);
    assert_eq!((out[0], out[room + 1]), (UNTOUCHED, UNTOUCHED), "a byte outside of the output was written");
    (told, out[1..=room].to_vec())
}

fn played(schedule: &[u8], room: usize, wanted: Vec<u8>) {
    let told = (file::PLAYED, wanted.len() as u64);
    let untouched = vec![UNTOUCHED; room - wanted.len()];
    assert_eq!(written(schedule, room), (told, [wanted, untouched].concat()));
}

fn refused(schedule: &[u8], room: usize, answer: u64) {
    assert_eq!(written(schedule, room), ((answer, 0), vec![UNTOUCHED; room]));
}

#[test]
#[cfg_attr(not(proved), ignore = "no static library of the proved player")]
fn shortest() {
    refused(&[], 0, file::BAD_MARK);
    played(&schedule(&[]), 0, Vec::new());
    played(&schedule(&[]), ENTRY, Vec::new());
}

#[test]
#[cfg_attr(not(proved), ignore = "no static library of the proved player")]
fn output_longer_full_and_short() {
    let bytes = schedule(&FIRST);
    played(&bytes, WRITTEN, done(&VALUES));
    played(&bytes, WRITTEN + 7, done(&VALUES));
    refused(&bytes, WRITTEN - 1, file::SHORT_OUTPUT);
    refused(&bytes, 0, file::SHORT_OUTPUT);
}

#[test]
#[cfg_attr(not(proved), ignore = "no static library of the proved player")]
fn damaged() {
    let whole = schedule(&FIRST);
    for length in 0..whole.len() {
        let part = &whole[..length];
        if length < HEADER {
            refused(part, WRITTEN, file::BAD_MARK);
        } else if (length - HEADER) % RECORD != 0 {
            refused(part, WRITTEN, file::TORN);
        } else {
            played(part, WRITTEN, done(&VALUES[..(length - HEADER) / RECORD]));
        }
    }
    for place in (0..=HEADER).chain([HEADER + (FIRST.len() - 1) * RECORD]) {
        let answer = match place {
            _ if place < MARK.len() => file::BAD_MARK,
            _ if place < HEADER => file::BAD_VERSION,
            _ => file::BAD_CALL,
        };
        let mut bytes = whole.clone();
        bytes[place] ^= 0x80;
        refused(&bytes, WRITTEN, answer);
    }
}

#[test]
#[cfg_attr(not(proved), ignore = "no static library of the proved player")]
fn batches() {
    // The member gets no entry, and wants no room for one.
    let mut records = FIRST.to_vec();
    records.insert(1, Record::batch(1));
    played(&schedule(&records), WRITTEN, done(&VALUES));
    refused(&schedule(&records), WRITTEN - 1, file::SHORT_OUTPUT);
    refused(&schedule(&records[..2]), WRITTEN, file::BAD_CALL);
    records[1].amount = u64::MAX;
    refused(&schedule(&records), WRITTEN, file::BAD_CALL);
}

#[test]
#[cfg_attr(not(proved), ignore = "no static library of the proved player")]
fn long() {
    const LENGTH: usize = 100_000;
    let (mut records, mut values) = (FIRST.to_vec(), VALUES.to_vec());
    records.resize(LENGTH, FIRST[6]);
    values.resize(LENGTH, VALUES[6]);
    let bytes = schedule(&records);
    played(&bytes, LENGTH * ENTRY, done(&values));
    refused(&bytes, LENGTH * ENTRY - 1, file::SHORT_OUTPUT);
}
