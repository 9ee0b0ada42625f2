//! Benchmarks of each layer, by name: `measure NAME` prints what one took, and `measure` alone lists the names ([`NAMES`]). After
//! `--times csv` it prints rows for scripts ([`Form`]).
//!
//! After some names may stand numbers, which ask for one row alone:
//!
//! - `engine KIND WRITES THREADS TRANSACTIONS`: of transactions on words (KIND 0), a map (1), a map whose number of keys is read (2), a
//!   priority queue (3) or a queue (4), of whose calls WRITES of ten change something, in 1, 2 or 4 threads;
//! - `sessions MIX RELATIONS CLIENTS SESSIONS`: of drawn sessions at seats of a shared table, with low contention (MIX 0), with high
//!   contention (1), or long ones (2), of 1 to 64 clients;
//! - `gated KIND GATES THREADS TRANSACTIONS`: of transactions by the clients of a store, on a map over GATES gates of whose calls none
//!   (KIND 0) or one of ten (1) changes something, or a queue in GATES lanes (2);
//! - `lock MIX RELATIONS CLIENTS SESSIONS`: of the same sessions under one lock.
#![tactic(auto)]

use form::Form;
use gated::Kind;
use sessions::{Mix, options};
use std::alloc::Global;
use std::rt::Runtime;
use std::sync::Wait;
use std::thread::Threads;
use std::{env, io};
use work::{On, Work};

mod bases;
mod clock;
mod engine;
mod form;
mod gated;
mod lock;
mod locked;
mod ordered;
mod outcomes;
mod reservations;
mod rows;
mod seats;
mod served;
mod sessions;
mod sets;
mod tries;
mod work;

/// What is printed where no name is given.
const NAMES: &str = "Usage: measure [--times csv] NAME [NUMBERS]

Each name runs a benchmark, for seconds up to some minutes, and prints what it took:

  bases          a take and a put on a queue or a priority queue, by how much it holds, in microseconds a transaction
  engine         transactions at seats of a shared table, in 1, 2 and 4 threads, beside the same calls under one lock
  ordered        drawn sessions of one client, one after another on a world, in microseconds a session
  reservations   actions on the reservation tables, in thousands a second
  sessions       drawn sessions by workers on a shared table, beside the same sessions under one lock
  sets           puts into sets of a transaction and finds in them, in nanoseconds a call

With numbers after it, a name runs one row alone:

  engine KIND WRITES THREADS TRANSACTIONS     KIND: 0 words, 1 a map, 2 a map whose number of keys is read, 3 a priority queue, 4 a queue
                                              WRITES: how many of ten calls change something; THREADS: 1, 2 or 4
  gated KIND GATES THREADS TRANSACTIONS       KIND: 0 a map over GATES gates, which is read, 1 with one write of ten calls, 2 a queue in
                                              GATES lanes; THREADS: 1 to 64
  sessions MIX RELATIONS CLIENTS SESSIONS     MIX: 0 low contention, 1 high contention, 2 long sessions, 3 long with high
                                              contention; CLIENTS: 1 to 64
  lock MIX RELATIONS CLIENTS SESSIONS         the same sessions under one lock

With --times csv it prints a line of names, and then a line for each row, with commas.
";

fn main(rt: HostRuntime) -> io::Result<()> {
    let mut words = env::args(&rt)?;
    let _program = words.next();
    let Some(first) = words.next() else {
        return rt.print(NAMES);
    };
    if first.as_str() == "--times" {
        return measure_in_form(&rt, words);
    }
    let numbers = numbers_of(rt.alloc(), words)?;
    measure(&rt, Form::Sentences, first.as_str(), numbers.as_slice())
}

/// What follows `--times`: the form, the name and its numbers.
fn measure_in_form<R: Runtime + AllocGlobal + Threads + Wait + Sync>(
    rt: &R,
    mut words: env::Args<Global>,
) -> io::Result<()> {
    let form = match words.next() {
        Some(word) if word.as_str() == "csv" => Form::Csv,
        _ => return Err(io::Error::other("the form of times is csv")),
    };
    let Some(name) = words.next() else {
        return Err(io::Error::other("no name is given"));
    };
    let numbers = numbers_of(rt.alloc(), words)?;
    let columns = columns_of(name.as_str())?;
    println!(rt; "{columns}")?;
    measure(rt, form, name.as_str(), numbers.as_slice())
}

fn numbers_of(alloc: Global, words: env::Args<Global>) -> io::Result<Vec<u32>> {
    let mut numbers = Vec::new(alloc);
    for word in words {
        match word.parse::<u32>() {
            Ok(number) => numbers.push(number)?,
            Err(_) => return Err(io::Error::other("a word is no number")),
        }
    }
    Ok(numbers)
}

fn columns_of(name: &str) -> io::Result<&'static str> {
    match name {
        "bases" => Ok(bases::COLUMNS),
        "engine" | "gated" => Ok(engine::COLUMNS),
        "ordered" => Ok(ordered::COLUMNS),
        "reservations" => Ok(reservations::COLUMNS),
        "sessions" | "lock" => Ok(rows::COLUMNS),
        "sets" => Ok(sets::COLUMNS),
        _ => Err(io::Error::other("no benchmark has this name")),
    }
}

fn measure<R: Runtime + AllocGlobal + Threads + Wait + Sync>(
    rt: &R,
    form: Form,
    name: &str,
    numbers: &[u32],
) -> io::Result<()> {
    match numbers {
        [] => measure_all(rt, form, name),
        _ => measure_one(rt, form, name, numbers),
    }
}

fn measure_all<R: Runtime + AllocGlobal + Threads + Wait + Sync>(
    rt: &R,
    form: Form,
    name: &str,
) -> io::Result<()> {
    match name {
        "bases" => bases::measure(rt, form),
        "engine" => engine::measure(rt, form),
        "ordered" => ordered::measure(rt, form),
        "reservations" => reservations::measure(rt, form),
        "sessions" => rows::measure(rt, form),
        "sets" => sets::measure(rt, form),
        _ => Err(io::Error::other("no benchmark has this name")),
    }
}

fn measure_one<R: Runtime + AllocGlobal + Threads + Wait + Sync>(
    rt: &R,
    form: Form,
    name: &str,
    numbers: &[u32],
) -> io::Result<()> {
    match (name, numbers) {
        ("engine", [kind, writes, threads, transactions]) => {
            engine::report_seats(rt, form, work_of(*kind, *writes)?, *threads, *transactions)
        }
        ("gated", [kind, gates, threads, transactions]) => {
            engine::report_gated(rt, form, kind_of(*kind, *gates)?, *threads, *transactions)
        }
        ("sessions", [mix, relations, clients, sessions]) => {
            let mix = mix_of(*mix)?;
            rows::report_table(
                rt,
                form,
                mix,
                &options(mix, *relations, *clients, *sessions),
                1,
            )
        }
        ("lock", [mix, relations, clients, sessions]) => {
            let mix = mix_of(*mix)?;
            rows::report_lock(
                rt,
                form,
                mix,
                &options(mix, *relations, *clients, *sessions),
                1,
            )
        }
        _ => Err(io::Error::other("no benchmark has this name and these numbers")),
    }
}

fn mix_of(mix: u32) -> io::Result<Mix> {
    match mix {
        0 => Ok(Mix::Low),
        1 => Ok(Mix::High),
        2 => Ok(Mix::Long),
        3 => Ok(Mix::LongHigh),
        _ => Err(io::Error::other("no mix has this number")),
    }
}

fn kind_of(kind: u32, gates: u32) -> io::Result<Kind> {
    match kind {
        0 => Ok(Kind::Map(gates, 0)),
        1 => Ok(Kind::Map(gates, 1)),
        2 => Ok(Kind::Lanes(gates)),
        _ => Err(io::Error::other("no kind has this number")),
    }
}

fn work_of(kind: u32, writes: u32) -> io::Result<Work> {
    let on = match kind {
        0 => On::Words,
        1 => On::Map,
        2 => On::Keys,
        3 => On::PriorityQueue,
        4 => On::Queue,
        _ => return Err(io::Error::other("no kind has this number")),
    };
    Ok(Work { on, writes })
}
