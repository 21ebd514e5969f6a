//! Schedules in the text form of tools/schedule, which packs it back to the same bytes.

use crate::{call, Record};

/// Which of slot, guard, kind, key and amount a call uses.
fn used(call: u8) -> [bool; 5] {
    match call {
        call::DROP | call::ENTER | call::GO_ON | call::WAS_DROPPED => [true, false, false, false, false],
        call::RELEASE => [true, true, false, false, false],
        call::LOOK_UP => [true, true, false, true, false],
        call::APPEND => [false, false, true, true, true],
        call::BATCH => [false, false, false, false, true],
        _ => [false; 5],
    }
}

/// The plain form says nothing of the fields that the call does not use, so these are zero there.
pub fn line(record: &Record) -> String {
    let Record { call, slot, guard, kind, key, amount } = *record;
    let fields = [slot.into(), guard.into(), kind.into(), key, amount];
    let used = used(call);
    let unused_are_zero = fields.iter().zip(used).all(|(&field, used)| used || field == 0);
    let plain = (call::FIRST..=call::LAST).contains(&call) && unused_are_zero;
    let mut line = if plain { call::NAMES[(call - call::FIRST) as usize].to_string() } else { format!("raw {call}") };
    for (field, used) in fields.iter().zip(used) {
        if used || !plain {
            line += &format!(" {field}");
        }
    }
    line
}

pub fn text(records: &[Record]) -> String {
    records.iter().map(|record| line(record) + "\n").collect()
}

#[cfg(test)]
mod tests {
    use super::*;

    #[test]
    fn every_call_has_its_line() {
        let on = |call| Record::on(1, call);
        for (record, wanted) in [
            (Record::of(call::CREATE), "create"),
            (on(call::DROP), "drop 1"),
            (on(call::ENTER), "enter 1"),
            (on(call::GO_ON), "go-on 1"),
            (Record { guard: 2, ..on(call::RELEASE) }, "release 1 2"),
            (Record { guard: 2, key: 3, ..on(call::LOOK_UP) }, "look-up 1 2 3"),
            (on(call::WAS_DROPPED), "was-dropped 1"),
            (Record::append(1, 2, 3), "append 1 2 3"),
            (Record::of(call::PUBLISH), "publish"),
            (Record::of(call::TRY), "try"),
            (Record::of(call::FLUSH), "flush"),
            (Record::of(call::TAKE), "take"),
            (Record::of(call::STEP), "step"),
            (Record::of(call::RUN), "run"),
            (Record::batch(2), "batch 2"),
        ] {
            assert_eq!(line(&record), wanted);
        }
    }

    #[test]
    fn members_have_lines_of_their_own() {
        let records = [Record::batch(2), Record::append(1, 2, 3), Record::append(2, 3, 0), Record::of(call::PUBLISH)];
        assert_eq!(text(&records), "batch 2\nappend 1 2 3\nappend 2 3 0\npublish\n");
    }

    #[test]
    fn unused_fields_are_told() {
        assert_eq!(line(&Record { amount: 1, ..Record::of(call::CREATE) }), "raw 1 0 0 0 0 1");
        assert_eq!(line(&Record { guard: 1, ..Record::append(1, 2, 3) }), "raw 8 0 1 1 2 3");
        assert_eq!(line(&Record { key: 1, ..Record::batch(2) }), "raw 15 0 0 0 1 2");
        assert_eq!(line(&Record::of(99)), "raw 99 0 0 0 0 0");
    }
}
