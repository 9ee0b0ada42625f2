//! Transactions at seats of a shared table, each seat in a thread of its own, beside the same calls under one lock.
use crate::form::Form;
use crate::gated::Kind;
use crate::outcomes::Outcomes;
use crate::work::{On, Work};
use crate::{gated, locked, seats};
use std::io;
use std::rt::Runtime;
use std::sync::Wait;
use std::thread::Threads;

/// How many transactions each thread makes.
const TRANSACTIONS: u32 = 200_000;

/// The columns of a row. `parts` are the gates or lanes of a collection. Refusals by cause are known at seats alone.
pub const COLUMNS: &str =
    "on,parts,writes_of_ten,program,threads,thousand_a_second,refused,moved,gates,others";

/// Prints how many transactions a second are committed by one thread, two and four.
pub fn measure<R: Runtime + AllocGlobal + Threads + Wait + Sync>(
    rt: &R,
    form: Form,
) -> io::Result<()> {
    for on in [On::Words, On::Map] {
        for writes in [0, 1] {
            let work = Work { on, writes };
            for threads in [1, 2, 4] {
                report_seats(rt, form, work, threads, TRANSACTIONS)?;
                report_lock(rt, form, work, threads)?;
            }
        }
    }
    for kind in [
        Kind::Map(1, 1),
        Kind::Map(8, 1),
        Kind::Lanes(1),
        Kind::Lanes(4),
    ] {
        for threads in [1, 2, 4] {
            report_gated(rt, form, kind, threads, TRANSACTIONS)?;
        }
    }
    Ok(())
}

/// By the clients of a store.
pub fn report_gated<R: Runtime + AllocGlobal + Threads + Sync>(
    rt: &R,
    form: Form,
    kind: Kind,
    threads: u32,
    transactions: u32,
) -> io::Result<()> {
    let (committed, refused, seconds) = gated::time(rt, kind, threads, transactions)?;
    let speed = f64::from(u32::try_from(committed).unwrap_or(u32::MAX)) / seconds / 1e3;
    let (name, column, parts, writes) = match kind {
        Kind::Map(gates, writes) => {
            (
                format!(in rt.alloc(); "a map over {gates} gates")?,
                "map",
                gates,
                writes,
            )
        }
        Kind::Lanes(lanes) => {
            (
                format!(in rt.alloc(); "a queue in {lanes} lanes")?,
                "queue",
                lanes,
                10,
            )
        }
    };
    match form {
        Form::Sentences => {
            println!(rt;
                "{name}, {writes} writes of ten calls, {threads} threads: {speed:.0} thousand transactions a second; refused: {refused}"
            )
        }
        Form::Csv => {
            println!(rt; "{column},{parts},{writes},clients,{threads},{speed:.0},{refused},,,")
        }
    }
}

pub fn report_seats<R: Runtime + AllocGlobal + Threads + Sync>(
    rt: &R,
    form: Form,
    work: Work,
    threads: u32,
    transactions: u32,
) -> io::Result<()> {
    let (outcomes, seconds) = seats::time(rt, work, threads, transactions)?;
    let name = name_of(work);
    let writes = work.writes;
    let speed = speed(outcomes, seconds);
    let (moved, gates, others) = (outcomes.moved, outcomes.gates, outcomes.others);
    match form {
        Form::Sentences => {
            println!(rt;
                "{name}, {writes} writes of ten calls, {threads} threads: {speed:.0} thousand transactions a second; refused: {moved} moved, {gates} gates, {others} others"
            )
        }
        Form::Csv => {
            let column = column_of(work);
            let refused = moved.saturating_add(gates).saturating_add(others);
            println!(rt;
                "{column},1,{writes},seats,{threads},{speed:.0},{refused},{moved},{gates},{others}"
            )
        }
    }
}

fn report_lock<R: Runtime + AllocGlobal + Threads + Wait + Sync>(
    rt: &R,
    form: Form,
    work: Work,
    threads: u32,
) -> io::Result<()> {
    let (outcomes, seconds) = locked::time(rt, work, threads, TRANSACTIONS)?;
    let name = name_of(work);
    let writes = work.writes;
    let speed = speed(outcomes, seconds);
    match form {
        Form::Sentences => {
            println!(rt;
                "{name}, {writes} writes of ten calls, {threads} threads, one lock: {speed:.0} thousand transactions a second"
            )
        }
        Form::Csv => {
            let column = column_of(work);
            println!(rt; "{column},1,{writes},one lock,{threads},{speed:.0},0,0,0,0")
        }
    }
}

fn name_of(work: Work) -> &'static str {
    match work.on {
        On::Words => "words",
        On::Map => "a map",
        On::Keys => "a map's number of keys",
        On::PriorityQueue => "a priority queue",
        On::Queue => "a queue",
    }
}

fn column_of(work: Work) -> &'static str {
    match work.on {
        On::Words => "words",
        On::Map => "map",
        On::Keys => "keys",
        On::PriorityQueue => "priority queue",
        On::Queue => "queue",
    }
}

fn speed(outcomes: Outcomes, seconds: f64) -> f64 {
    f64::from(outcomes.committed) / seconds / 1e3
}
