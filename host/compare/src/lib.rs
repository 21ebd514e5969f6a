//! Plays random schedules through two players and compares all that comes back.
//!
//! One player is the reference. The other is the proved one, or, to see that this comparison finds faults, a reference
//! with one rule broken. Compared are the answer, the number of bytes written, and every byte of the output and around
//! it. A difference is shrunk and printed, and the status is 1.

mod case;
mod report;
mod schedules;

use common::{answer, call, file, turns, Player, Random, Reply};
use std::process::ExitCode;
use std::time::Instant;

/// The program, but for the player that the reference is compared with: `[CALLS [SEED]]` on the command line.
pub fn compare(name: &str, other: Player) -> ExitCode {
    let mut words = std::env::args().skip(1);
    let calls = common::number(words.next(), 1_000_000);
    let seed = common::number(words.next(), 1);
    println!("the reference against {name}: {calls} calls from seed {seed}");
    let start = Instant::now();
    let (mut played, mut records, mut files, mut runs) = (0, 0, 0u64, seed);
    let mut answers = [0u64; answer::COUNT];
    let mut batches = [0u64; answer::COUNT];
    let mut refused = [0u64; file::COUNT];
    while played < calls {
        let seed = runs;
        runs = runs.wrapping_add(1);
        let case = schedules::case(&mut Random::new(seed));
        if case.difference(other).is_some() {
            report::report(case, seed, other);
            return ExitCode::FAILURE;
        }
        files += 1;
        let outcome = case.played(reference::play);
        if outcome.answer == file::PLAYED {
            let file = case.records().expect("a file that was played");
            records += file.len();
            for (turn, entry) in turns(&file).iter().zip(outcome.entries()) {
                let answer = Reply::from_bytes(entry).answer as usize;
                answers[answer] += 1;
                batches[answer] += (turn[0].call == call::BATCH) as u64;
                played += 1;
            }
        } else {
            refused[(outcome.answer - file::FIRST) as usize] += 1;
        }
    }
    let seconds = start.elapsed().as_secs_f64();
    println!(
        "all agree, {files} files, of which those played have {records} records and {played} calls, in {seconds:.1} s"
    );
    println!("answers met: {}; by batches: {}", list(&answers, 0), list(&batches, 0));
    println!("files refused: {}", list(&refused, file::FIRST as usize));
    ExitCode::SUCCESS
}

/// The numbers that were met, and how often.
fn list(counts: &[u64], from: usize) -> String {
    let met = counts.iter().enumerate().filter(|(_, &count)| count > 0);
    let words: Vec<String> = met.map(|(at, count)| format!("{}: {count}", at + from)).collect();
    words.join(", ")
}
