//! One file, and what two players do with it.

use common::{answered, Player, Record, Reply, ENTRY, HEADER, MARK, RECORD, VERSION};

/// A file, well made or not, and how much room there is for its transcript.
#[derive(Clone)]
pub struct Case {
    pub bytes: Vec<u8>,
    pub room: usize,
    /// How far the slices start from an aligned place.
    pub shift: usize,
}

/// What a player said, and what it left in the output and around it.
pub struct Outcome {
    pub answer: u64,
    pub written: u64,
    around: Vec<u8>,
    /// Where the output starts.
    start: usize,
}

/// Bytes before the output and behind it that are looked at too.
const BEFORE: usize = 8;
const AROUND: usize = 32;

impl Outcome {
    pub fn entries(&self) -> impl Iterator<Item = &[u8]> {
        self.around[self.start..][..self.written as usize].chunks_exact(ENTRY)
    }

    fn reply(&self, entry: usize) -> Reply {
        Reply::from_bytes(&self.around[self.start + entry * ENTRY..][..ENTRY])
    }
}

impl Case {
    /// The records of a file whose frame is whole.
    pub fn records(&self) -> Option<Vec<Record>> {
        let whole = self.bytes.len() >= HEADER
            && self.bytes[..MARK.len()] == MARK
            && self.bytes[MARK.len()..HEADER] == VERSION
            && (self.bytes.len() - HEADER) % RECORD == 0;
        whole.then(|| self.bytes[HEADER..].chunks_exact(RECORD).map(Record::from_bytes).collect())
    }

    pub fn played(&self, player: Player) -> Outcome {
        let mut around: Vec<u8> = (0..self.room + AROUND).map(|at| (at * 151 + 77) as u8).collect();
        let mut file = vec![0xee; self.shift];
        file.extend_from_slice(&self.bytes);
        let start = BEFORE + self.shift;
        let (answer, written) = player(&file[self.shift..], &mut around[start..start + self.room]);
        assert!(file[self.shift..] == self.bytes, "the schedule was changed");
        Outcome { answer, written, around, start }
    }

    pub fn difference(&self, other: Player) -> Option<String> {
        let (one, two) = (self.played(reference::play), self.played(other));
        let (said, said_too) = ((one.answer, one.written), (two.answer, two.written));
        if said != said_too {
            return Some(format!("the reference says {said:?} (answer, bytes written), the other {said_too:?}"));
        }
        let at = one.around.iter().zip(&two.around).position(|(one, two)| one != two)?;
        if at < one.start || at >= one.start + one.written as usize {
            return Some("the other wrote outside of the transcript".to_string());
        }
        let entry = (at - one.start) / ENTRY;
        let number = answered(&self.records()?, entry) + 1;
        Some(format!("record {number}: the reference gives {}, the other {}", one.reply(entry), two.reply(entry)))
    }
}
