//! What is told of a difference.

use crate::case::Case;
use common::{call, kind, schedule, shrink, shrink_within, simplify, text, turns, Player, Record, ENTRY};

/// A record with its members: what is left out of a schedule is left out whole.
type Turn = Vec<Record>;

/// The batch with these members alone asks for as many fewer: if all were there, they still are.
fn with_members(turn: &Turn, members: &[Record]) -> Turn {
    let lost = turn.len() - 1 - members.len();
    let own = Record { amount: turn[0].amount - lost as u64, ..turn[0] };
    [&[own], members].concat()
}

fn simpler(turn: &Turn) -> Vec<Turn> {
    let record = &turn[0];
    if record.call == call::BATCH {
        let with = |member: fn(&Record) -> Record| {
            let members: Turn = turn[1..].iter().map(member).collect();
            [vec![Record::batch(record.amount)], members].concat()
        };
        let same = with(|_| Record::append(kind::ADD, 1, 1));
        return vec![same, with(|member| Record::append(member.kind, member.key, member.amount))];
    }
    let none = Record::of(record.call);
    let mut offers = vec![none];
    for (slot, guard, key, amount) in [
        (record.slot, 0, 0, 0),
        (record.slot, record.guard, 0, 0),
        (record.slot, record.guard, record.key, 0),
        (0, 0, 1, 1),
        (0, 0, record.key, 1),
        (0, 0, 1, record.amount),
        (0, 0, record.key, record.amount),
    ] {
        offers.push(Record { slot, guard, key, amount, ..none });
        offers.push(Record { slot, guard, key, amount, kind: record.kind, ..none });
    }
    offers.into_iter().take_while(|offer| offer != record).map(|offer| vec![offer]).collect()
}

/// Shrinks the case that differs, and prints it.
pub fn report(case: Case, seed: u64, other: Player) {
    println!("a difference, from seed {seed}:");
    let Some(records) = case.records() else {
        let fails = |bytes: &[u8]| Case { bytes: bytes.to_vec(), ..case }.difference(other).is_some();
        let bytes = shrink(case.bytes.clone(), fails);
        let least = Case { bytes, ..case };
        let hex: Vec<String> = least.bytes.iter().map(|byte| format!("{byte:02x}")).collect();
        println!("{}", least.difference(other).unwrap_or_default());
        println!("with room for {} bytes, the file\n{}", least.room, hex.join(" "));
        return;
    };
    // First with all the room that there is need of; else as it was.
    let roomy = |records: &[Record]| Case { bytes: schedule(records), room: records.len() * ENTRY, shift: 0 };
    let as_it_was = |records: &[Record]| Case { bytes: schedule(records), ..case };
    let build: &dyn Fn(&[Record]) -> Case =
        if roomy(&records).difference(other).is_some() { &roomy } else { &as_it_was };
    let fails = |turns: &[Turn]| build(&turns.concat()).difference(other).is_some();
    let turns = shrink(turns(&records).into_iter().map(<[Record]>::to_vec).collect(), fails);
    let turns = shrink_within(turns, |turn| turn[1..].to_vec(), with_members, fails);
    let turns = simplify(turns, simpler, fails);
    let records = shrink(turns, fails).concat();
    let least = build(&records);
    println!("{}", least.difference(other).unwrap_or_default());
    println!("with room for {} bytes, the schedule\n", least.room);
    print!("{}", text(&records));
}
