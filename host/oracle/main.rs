//! The differential test against the crate left_right itself.
//!
//!   oracle [HISTORIES [SEED]]
//!   oracle sample FILE [HISTORIES [SEED]]
//!
//! Random histories of whole calls are made on the crate, on one thread, and played by our player from a schedule; each
//! answer and value that the crate has is compared. Then what docs/DIFFERENCES.md says of the crate and marks as run is
//! run, and two threads show where the crate waits and ours is held.
//! A difference is shrunk and printed as a schedule in the text form, and the status is 1.
//! With `sample`, the histories and the transcripts agreed on are written to FILE, if none differs, and that is all.

mod blocking;
mod claims;
mod history;
mod sample;
mod world;

use common::{Player, BATCH_ROOM};
use history::{operations, random, replay, simpler, with_operations, Call, Met, CREATES, NAMES, UNDER_WAY};
use std::panic::{catch_unwind, set_hook, AssertUnwindSafe};
use std::process::{exit, ExitCode};
use std::sync::atomic::{AtomicU64, Ordering};
use std::time::{Duration, Instant};

/// How many histories were begun, for the watch to see that something goes on; it ends at `OVER`.
static HISTORIES: AtomicU64 = AtomicU64::new(0);
const OVER: u64 = u64::MAX;

/// The histories leave out what would wait. Should that be wrong, the crate waits for ever, and this tells of it.
fn watch(player: Player) {
    std::thread::spawn(move || {
        let mut last = 0;
        loop {
            std::thread::sleep(Duration::from_secs(10));
            let now = HISTORIES.load(Ordering::Relaxed);
            if now == OVER {
                return;
            }
            if now == last {
                report(player);
                exit(1);
            }
            last = now;
        }
    });
}

/// What differs in these calls, if anything does, with the schedule so far. A panic is a difference.
fn differs(calls: &[Call], player: Player) -> Option<(String, String)> {
    match catch_unwind(AssertUnwindSafe(|| {
        let (run, outcome) = replay(calls, player);
        (common::text(&run.records), outcome)
    })) {
        Ok((_, Ok(()))) => None,
        Ok((schedule, Err(what))) => Some((what, schedule)),
        Err(_) => Some(("a panic, in these calls".to_string(), format!("{calls:#?}\n"))),
    }
}

/// Shrinks the history under way, which differs, and prints it.
fn report(player: Player) {
    HISTORIES.store(OVER, Ordering::Relaxed);
    let (seed, calls) = UNDER_WAY.lock().unwrap().clone();
    let fails = |calls: &[Call]| differs(calls, player).is_some();
    let calls = common::shrink(calls, fails);
    let calls = common::shrink_within(calls, operations, with_operations, fails);
    let calls = common::simplify(calls, simpler, fails);
    let calls = common::shrink(calls, fails);
    println!("a difference, from the history of seed {seed}:");
    match differs(&calls, player) {
        Some((what, schedule)) => println!("{what}\n\n{schedule}"),
        None => println!("it does not come back when it is played again"),
    }
}

/// What is said of the crate. Where that is not so, a call may panic, or wait for ever.
fn said(player: Player) -> Result<String, String> {
    let back = blocking::apart(move || Ok(claims::all(player)? + &blocking::all(player)?));
    let ended = back.recv_timeout(Duration::from_secs(120));
    ended.unwrap_or_else(|what| Err(format!("what is said of the crate did not end: {what}")))
}

fn main() -> ExitCode {
    let mut words = std::env::args().skip(1).peekable();
    let file = words.next_if(|word| word == "sample").map(|_| words.next().expect("a file for the sample"));
    let histories = common::number(words.next(), if file.is_some() { 120 } else { 100_000 });
    let seed = common::number(words.next(), if file.is_some() { 2391 } else { 1 });
    let (name, player) = match lrt::player() {
        Some(player) => ("the proved player", player),
        None => ("the reference player", reference::play as Player),
    };
    println!("{name} against the crate left-right: {histories} histories from seed {seed}");
    // A panic is told as a difference, with its schedule.
    set_hook(Box::new(|_| ()));
    watch(player);

    let start = Instant::now();
    let mut met = Met::default();
    let mut kept = Vec::new();
    for at in 0..histories {
        HISTORIES.fetch_add(1, Ordering::Relaxed);
        match catch_unwind(AssertUnwindSafe(|| random(seed.wrapping_add(at), player))) {
            Ok((more, Ok(agreed))) => {
                met.add(&more);
                if file.is_some() {
                    kept.push(agreed);
                }
            }
            _ => {
                report(player);
                return ExitCode::FAILURE;
            }
        }
    }
    let calls: Vec<String> = met.calls.iter().zip(NAMES).map(|(count, name)| format!("{count} {name}")).collect();
    println!("all agree, {} records in {:.1} s: {}", met.records, start.elapsed().as_secs_f64(), calls.join(", "));
    println!(
        "among them {} tries declined, {} of these by a later handle in the slot; {} enters with guards on both copies, \
         {} that found none; {} flushes with nothing to do; {} looks at a spilled table; {} appends and batches that \
         filled the log; {} batches while no publish had been, {} of none, {} of {BATCH_ROOM}",
        met.declined,
        met.declined_by_a_later_handle,
        met.two_copies,
        met.none,
        met.idle_flushes,
        met.spilled,
        met.full_logs,
        met.batches_while_first,
        met.empty_batches,
        met.full_batches
    );
    println!(
        "{} creates gave slab's key, {} of these with several slots freed; {} histories had several freed at once, at most \
         {}; {} slots were dropped while a take was under way",
        met.calls[CREATES],
        met.chosen,
        met.several_freed,
        met.most_freed,
        met.dropped_within_takes
    );

    // From here on threads wait on purpose, with limits of their own; beside these there is one for the whole.
    HISTORIES.store(OVER, Ordering::Relaxed);
    let outcome = match file {
        Some(file) => sample::write(&file, &kept),
        None => said(player),
    };
    match outcome {
        Ok(lines) => {
            print!("{lines}");
            ExitCode::SUCCESS
        }
        Err(what) => {
            println!("{what}");
            ExitCode::FAILURE
        }
    }
}
