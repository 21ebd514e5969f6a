//! Schedules and transcripts as bytes.

use crate::{call, ENTRY, HEADER, MARK, RECORD, VERSION};

/// Where the words of a record begin, behind call, slot, guard and kind.
const KEY: usize = 4;
const AMOUNT: usize = KEY + 8;

/// One record of a schedule. Fields that its call does not use are ignored.
#[derive(Clone, Copy, Debug, PartialEq, Eq)]
pub struct Record {
    pub call: u8,
    pub slot: u8,
    pub guard: u8,
    pub kind: u8,
    pub key: u64,
    pub amount: u64,
}

impl Record {
    /// A call with all fields zero.
    pub const fn of(call: u8) -> Record {
        Record { call, slot: 0, guard: 0, kind: 0, key: 0, amount: 0 }
    }

    /// A call on a handle, and on its guard 0 where the call has one.
    pub const fn on(slot: u8, call: u8) -> Record {
        Record { slot, ..Record::of(call) }
    }

    pub const fn append(kind: u8, key: u64, amount: u64) -> Record {
        Record { kind, key, amount, ..Record::of(call::APPEND) }
    }

    /// A batch of the appends that follow.
    pub const fn batch(appends: u64) -> Record {
        Record { amount: appends, ..Record::of(call::BATCH) }
    }

    pub fn from_bytes(bytes: &[u8]) -> Record {
        Record {
            call: bytes[0],
            slot: bytes[1],
            guard: bytes[2],
            kind: bytes[3],
            key: word(&bytes[KEY..AMOUNT]),
            amount: word(&bytes[AMOUNT..RECORD]),
        }
    }

    pub fn to_bytes(&self) -> [u8; RECORD] {
        let mut bytes = [0; RECORD];
        bytes[..KEY].copy_from_slice(&[self.call, self.slot, self.guard, self.kind]);
        bytes[KEY..AMOUNT].copy_from_slice(&self.key.to_le_bytes());
        bytes[AMOUNT..].copy_from_slice(&self.amount.to_le_bytes());
        bytes
    }
}

fn word(bytes: &[u8]) -> u64 {
    u64::from_le_bytes(bytes.try_into().expect("eight bytes"))
}

/// What a call gives back, and what an entry of a transcript says: the answer's number and the value.
#[derive(Clone, Copy, Debug, PartialEq, Eq)]
pub struct Reply {
    pub answer: u8,
    pub value: u64,
}

impl Reply {
    pub fn from_bytes(bytes: &[u8]) -> Reply {
        Reply { answer: bytes[0], value: word(&bytes[1..ENTRY]) }
    }

    #[inline]
    pub fn to_bytes(&self) -> [u8; ENTRY] {
        let mut bytes = [self.answer; ENTRY];
        bytes[1..].copy_from_slice(&self.value.to_le_bytes());
        bytes
    }
}

impl std::fmt::Display for Reply {
    fn fmt(&self, to: &mut std::fmt::Formatter) -> std::fmt::Result {
        write!(to, "{} {}", self.answer, self.value)
    }
}

/// The records cut into turns, each a record and, behind a batch's own, its members, which get no entry. A batch that
/// asks for more than there are has all the rest.
pub fn turns(records: &[Record]) -> Vec<&[Record]> {
    let mut turns = Vec::new();
    let mut rest = records;
    while let Some((first, behind)) = rest.split_first() {
        let members = if first.call == call::BATCH { first.amount.min(behind.len() as u64) as usize } else { 0 };
        let (turn, after) = rest.split_at(1 + members);
        turns.push(turn);
        rest = after;
    }
    turns
}

/// The place of the record that a transcript's entry belongs to.
pub fn answered(records: &[Record], entry: usize) -> usize {
    turns(records)[..entry].iter().map(|turn| turn.len()).sum()
}

/// A schedule file of these records.
pub fn schedule(records: &[Record]) -> Vec<u8> {
    let mut bytes = Vec::with_capacity(HEADER + records.len() * RECORD);
    bytes.extend_from_slice(&MARK);
    bytes.extend_from_slice(&VERSION);
    for record in records {
        bytes.extend_from_slice(&record.to_bytes());
    }
    bytes
}

#[cfg(test)]
mod tests {
    use super::*;

    #[test]
    fn records_go_to_bytes_and_back() {
        let record = Record { call: 6, slot: 5, guard: 4, kind: 3, key: 0x0807060504030201, amount: u64::MAX - 1 };
        let bytes = record.to_bytes();
        assert_eq!(bytes[..12], [6, 5, 4, 3, 1, 2, 3, 4, 5, 6, 7, 8]);
        assert_eq!(Record::from_bytes(&bytes), record);
    }

    #[test]
    fn members_are_of_their_batch() {
        let (run, append) = (Record::of(call::RUN), Record::append(1, 2, 3));
        let records = [append, Record::batch(2), append, append, append, Record::batch(0), run];
        let lengths = |records: &[Record]| -> Vec<usize> { turns(records).iter().map(|turn| turn.len()).collect() };
        assert_eq!(lengths(&records), [1, 3, 1, 1, 1]);
        assert_eq!((answered(&records, 0), answered(&records, 2)), (0, 4));
        assert_eq!(lengths(&[run, Record::batch(u64::MAX), append]), [1, 2]);
    }

    #[test]
    fn replies_go_to_bytes_and_back() {
        let reply = Reply { answer: 9, value: 0x0807060504030201 };
        let bytes = reply.to_bytes();
        assert_eq!(bytes, [9, 1, 2, 3, 4, 5, 6, 7, 8]);
        assert_eq!(Reply::from_bytes(&bytes), reply);
    }
}
