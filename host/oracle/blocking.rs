//! Where the crate waits, and what is seen meanwhile: two threads, each case beside the same calls in our player.
//!
//! "Waits" is seen by a time limit: the crate's call has not come back after a while, and comes back once the guard is
//! released. The limits are far apart, so that a busy machine does not decide the test.

use crate::world::{Change, Counts};
use common::answer::{DONE, HELD, LOCKED, NONE};
use common::{call, file, kind, schedule, steps, Player, Record, Reply, ENTRY};
use left_right::{ReadHandle, WriteHandle};
use std::sync::mpsc::{channel, Receiver, RecvTimeoutError};
use std::thread;
use std::time::{Duration, Instant};

const WAITS: Duration = Duration::from_millis(300);
const COMES: Duration = Duration::from_secs(20);

type Writer = WriteHandle<Counts, Change>;

/// Makes a call on a thread of its own, and gives word when it is back.
pub fn apart<T: Send + 'static>(call: impl FnOnce() -> T + Send + 'static) -> Receiver<T> {
    let (send, back) = channel();
    thread::spawn(move || {
        let _ = send.send(call());
    });
    back
}

fn publishes(mut writer: Writer) -> Receiver<Writer> {
    apart(move || {
        writer.publish();
        writer
    })
}

fn waits<T>(back: &Receiver<T>, what: &str) -> Result<(), String> {
    match back.recv_timeout(WAITS) {
        Err(RecvTimeoutError::Timeout) => Ok(()),
        Err(RecvTimeoutError::Disconnected) => Err(format!("{what} panicked")),
        Ok(back) => {
            // A writer's end would wait for the guards of this thread.
            std::mem::forget(back);
            Err(format!("{what} did not wait"))
        }
    }
}

fn comes<T>(back: &Receiver<T>, what: &str) -> Result<T, String> {
    back.recv_timeout(COMES).map_err(|_| format!("{what} did not come back"))
}

fn becomes(so: impl Fn() -> bool, what: &str) -> Result<(), String> {
    let start = Instant::now();
    while !so() {
        if start.elapsed() > COMES {
            return Err(format!("{what} did not come to be"));
        }
        thread::yield_now();
    }
    Ok(())
}

fn seven(reader: &ReadHandle<Counts>) -> Option<u64> {
    reader.enter()?.pairs.get(&7).copied()
}

/// Our player gives these replies.
pub fn ours(player: Player, calls: &[(Record, Reply)]) -> Result<(), String> {
    let records: Vec<Record> = calls.iter().map(|&(record, _)| record).collect();
    let mut out = vec![0; records.len() * ENTRY];
    let played = player(&schedule(&records), &mut out);
    if played != (file::PLAYED, out.len() as u64) {
        return Err(format!("our player said {played:?}"));
    }
    for (at, (entry, (record, wanted))) in out.chunks_exact(ENTRY).zip(calls).enumerate() {
        let given = Reply::from_bytes(entry);
        if given != *wanted {
            let line = common::line(record);
            return Err(format!("our record {} ({line}) gave {given}, wanted {wanted}", at + 1));
        }
    }
    Ok(())
}

const CREATE: Record = Record::of(call::CREATE);
const DROP: Record = Record::on(1, call::DROP);
const ENTER: Record = Record::on(1, call::ENTER);
const GO_ON: Record = Record::on(1, call::GO_ON);
const RELEASE: Record = Record::on(1, call::RELEASE);
const SEVEN: Record = Record { key: 7, ..Record::on(1, call::LOOK_UP) };
const DROPPED: Record = Record::on(1, call::WAS_DROPPED);
const ADD: Record = Record::append(kind::ADD, 7, 3);
const PUBLISH: Record = Record::of(call::PUBLISH);
const TAKE: Record = Record::of(call::TAKE);
const RUN: Record = Record::of(call::RUN);

pub const fn done(value: u64) -> Reply {
    Reply { answer: DONE, value }
}

const fn held(value: u64) -> Reply {
    Reply { answer: HELD, value }
}

const fn only(answer: u8) -> Reply {
    Reply { answer, value: 0 }
}

/// The same call by another slot.
fn of(slot: u8, record: Record) -> Record {
    Record { slot, ..record }
}

/// A guard lets one publish through and the next one waits for it. While that one waits it keeps the lock, so that
/// making a handle waits too.
fn publish(player: Player) -> Result<(), String> {
    let (mut writer, reader) = left_right::new::<Counts, Change>();
    let factory = reader.factory();
    writer.publish();
    let guard = reader.enter().ok_or("no guard")?;
    writer.append(Change::Add(7, 3));

    let first = publishes(writer);
    let writer = comes(&first, "the publish after the guard")?;
    if !guard.pairs.is_empty() {
        return Err("the guard's table changed".to_string());
    }

    let second = publishes(writer);
    waits(&second, "the second publish after the guard")?;
    let handle = apart(move || factory.handle());
    waits(&handle, "a new handle while a publish waits")?;
    if !guard.pairs.is_empty() {
        return Err("the guard's table changed".to_string());
    }

    drop(guard);
    let writer = comes(&second, "the publish, after the release")?;
    let handle = comes(&handle, "the new handle, after the release")?;
    for reader in [&reader, &handle] {
        let count = seven(reader);
        if count != Some(3) {
            return Err(format!("after the publish the count is {count:?}"));
        }
    }
    drop(writer);

    ours(
        player,
        &[
            (CREATE, done(1)),
            (PUBLISH, done(0)),
            (RUN, done(steps::FIRST_PUBLISH)),
            (ENTER, done(0)),
            (GO_ON, done(0)),
            (ADD, done(0)),
            (PUBLISH, done(0)),
            (RUN, done(steps::PUBLISH + 2)),
            (SEVEN, done(0)),
            (PUBLISH, done(0)),
            (RUN, held(1)),
            (CREATE, only(LOCKED)),
            (SEVEN, done(0)),
            (RELEASE, done(0)),
            (RUN, done(steps::PUBLISH - 1 + 1)),
            (CREATE, done(2)),
            (ENTER, done(0)),
            (GO_ON, done(0)),
            (SEVEN, done(3)),
        ],
    )
}

/// Take waits for a reader that came after the last publish, and that reader sees null meanwhile.
fn take(player: Player) -> Result<(), String> {
    let (mut writer, reader) = left_right::new::<Counts, Change>();
    writer.append(Change::Add(7, 3));
    writer.publish();
    let guard = reader.enter().ok_or("no guard")?;
    let taken = apart(move || Counts::clone(&writer.take()));
    waits(&taken, "take under a guard")?;
    if !reader.was_dropped() || reader.enter().is_some() {
        return Err("take waits, and its reader sees no null".to_string());
    }
    if guard.pairs.get(&7) != Some(&3) {
        return Err("the guard's table changed".to_string());
    }
    drop(guard);
    let handed = comes(&taken, "take, after the release")?;
    if handed.words() != [1, 0, 7, 3] {
        return Err(format!("take handed over {:?}", handed.words()));
    }

    ours(
        player,
        &[
            (CREATE, done(1)),
            (ADD, done(0)),
            (PUBLISH, done(0)),
            (RUN, done(steps::FIRST_PUBLISH)),
            (ENTER, done(0)),
            (GO_ON, done(0)),
            (TAKE, done(0)),
            (RUN, held(1 + 1 + steps::SLOTS + 1)),
            (DROPPED, done(1)),
            (ENTER, only(NONE)),
            (SEVEN, done(3)),
            (RELEASE, done(0)),
            (RUN, done(steps::SLOTS - 1 + 1)),
        ],
    )
}

/// A new handle in a slot whose old one was inside at the last swap: once it is inside, a publish waits for it (P8).
fn later_handle(player: Player) -> Result<(), String> {
    let (mut writer, reader) = left_right::new::<Counts, Change>();
    let factory = reader.factory();
    let guard = reader.enter().ok_or("no guard")?;
    writer.publish();
    drop(guard);
    drop(reader);
    let reader = factory.handle();
    let guard = reader.enter().ok_or("no guard")?;
    let publish = publishes(writer);
    waits(&publish, "a publish under a later handle's guard")?;
    drop(guard);
    comes(&publish, "the publish, after the release")?;

    ours(
        player,
        &[
            (CREATE, done(1)),
            (ENTER, done(0)),
            (GO_ON, done(0)),
            (PUBLISH, done(0)),
            (RUN, done(steps::FIRST_PUBLISH)),
            (RELEASE, done(0)),
            (DROP, done(0)),
            (CREATE, done(1)),
            (ENTER, done(0)),
            (GO_ON, done(0)),
            (PUBLISH, done(0)),
            (RUN, held(1)),
            (RELEASE, done(0)),
            (RUN, done(steps::PUBLISH - 1 + 1)),
        ],
    )
}

/// Two handles were inside at the last swap. One still is, and a publish waits for it; the other's slot has a later
/// handle, which enters meanwhile. Behind the one waited for, it is waited for too; before it, it was passed, and is not.
fn meanwhile(player: Player, behind: bool) -> Result<(), String> {
    let (mut writer, reader) = left_right::new::<Counts, Change>();
    let factory = reader.factory();
    let other = factory.handle();
    let (stays, goes) = if behind { (reader, other) } else { (other, reader) };
    let staying = stays.enter().ok_or("no guard")?;
    let going = goes.enter().ok_or("no guard")?;
    writer.publish();
    drop(going);
    drop(goes);
    let later = factory.handle();
    let publish = publishes(writer);
    // Debug tells of a lock that is taken: the publish is under way.
    becomes(|| format!("{stays:?}").contains("<locked>"), "a publish that has the lock")?;
    waits(&publish, "a publish under a guard")?;
    let guard = later.enter().ok_or("no guard")?;
    drop(staying);
    let writer = if behind {
        waits(&publish, "the publish, with a later handle inside behind that guard,")?;
        drop(guard);
        comes(&publish, "the publish, after both releases,")?
    } else {
        let writer = comes(&publish, "the publish, with a later handle inside before that guard,")?;
        drop(guard);
        writer
    };
    drop(writer);

    let (stays, goes) = if behind { (1, 2) } else { (2, 1) };
    let mut calls = vec![
        (CREATE, done(1)),
        (CREATE, done(2)),
        (of(stays, ENTER), done(0)),
        (of(stays, GO_ON), done(0)),
        (of(goes, ENTER), done(0)),
        (of(goes, GO_ON), done(0)),
        (PUBLISH, done(0)),
        (RUN, done(steps::FIRST_PUBLISH)),
        (of(goes, RELEASE), done(0)),
        (of(goes, DROP), done(0)),
        (CREATE, done(goes.into())),
        (PUBLISH, done(0)),
        (RUN, held(stays.into())),
        (of(goes, ENTER), done(0)),
        (of(goes, GO_ON), done(0)),
        (of(stays, RELEASE), done(0)),
    ];
    if behind {
        calls.extend([(RUN, held(1)), (of(goes, RELEASE), done(0))]);
    }
    calls.push((RUN, done(steps::PUBLISH - 2 + 1)));
    ours(player, &calls)
}

/// Take and the drop of the writer make appends visible: of their two publishes the first does, and the second waits.
fn ends_expose(player: Player) -> Result<(), String> {
    let ends: [fn(Writer); 2] = [|writer| drop(writer.take()), drop];
    for end in ends {
        let (mut writer, reader) = left_right::new::<Counts, Change>();
        let other = reader.clone();
        writer.publish();
        writer.append(Change::Add(7, 3));
        let guard = reader.enter().ok_or("no guard")?;
        let ended = apart(move || end(writer));
        becomes(|| seven(&other) == Some(3), "a count of 3 while the writer ends")?;
        drop(guard);
        comes(&ended, "the writer's end, after the release,")?;
    }

    ours(
        player,
        &[
            (CREATE, done(1)),
            (CREATE, done(2)),
            (PUBLISH, done(0)),
            (RUN, done(steps::FIRST_PUBLISH)),
            (ADD, done(0)),
            (ENTER, done(0)),
            (GO_ON, done(0)),
            (TAKE, done(0)),
            (RUN, held(1 + steps::PUBLISH + 2 + 1 + 1)),
            (of(2, ENTER), done(0)),
            (of(2, GO_ON), done(0)),
            (of(2, SEVEN), done(3)),
        ],
    )
}

pub fn all(player: Player) -> Result<String, String> {
    publish(player)?;
    take(player)?;
    later_handle(player)?;
    meanwhile(player, false)?;
    meanwhile(player, true)?;
    ends_expose(player)?;
    Ok("with two threads: a publish, a take and a new handle wait where ours are held or locked\n".to_string())
}
