//! Generated sessions by workers on a shared table, beside the same sessions under one lock.
use crate::form::Form;
use crate::sessions::{Mix, SEED, options};
use crate::{lock, served};
use std::io;
use std::rt::Runtime;
use std::sync::Wait;
use std::thread::Threads;
use text_formats::Options;

/// How many sessions a round has for each item of a kind, like STAMP: so customers have few bookings, however few items there are.
const SESSIONS_AN_ITEM: u32 = 4;

/// The columns of a row. Under one lock a session is tried once.
pub const COLUMNS: &str = "contention,items,program,clients,thousand_a_second,tries";

/// Prints how many sessions a second are served of each mix, with many items and with few, of one client, two and four.
pub fn measure<R: Runtime + AllocGlobal + Threads + Wait + Sync>(
    rt: &R,
    form: Form,
) -> io::Result<()> {
    for mix in [Mix::Low, Mix::High, Mix::Long] {
        for (relations, rounds) in [(10_000, 3), (1000, 30), (100, 300)] {
            for clients in [1, 2, 4] {
                let options = options(mix, relations, clients, relations * SESSIONS_AN_ITEM);
                report_table(rt, form, mix, &options, rounds)?;
                report_lock(rt, form, mix, &options, rounds)?;
            }
        }
    }
    Ok(())
}

/// At seats of a shared table, in so many rounds.
pub fn report_table<R: Runtime + AllocGlobal + Threads + Wait + Sync>(
    rt: &R,
    form: Form,
    mix: Mix,
    options: &Options,
    rounds: u32,
) -> io::Result<()> {
    let mut seconds = 0.0;
    let mut tries: u64 = 0;
    for round in 0..rounds {
        let (more, made) = served::time(rt, options, SEED + u64::from(round))?;
        seconds += more;
        tries = tries.saturating_add(made);
    }
    let what = mix.name();
    let Options {
        relations,
        clients,
        ..
    } = *options;
    let speed = speed(options, rounds, seconds);
    let tries = u32::try_from(tries).unwrap_or(u32::MAX);
    let tries = f64::from(tries) / (f64::from(options.transactions) * f64::from(rounds));
    match form {
        Form::Sentences => {
            println!(rt;
                "{what}, {relations} items a kind, {clients} clients, at seats: {speed:.1} thousand sessions a second, {tries:.2} tries each"
            )
        }
        Form::Csv => {
            let column = mix.column();
            println!(rt; "{column},{relations},seats,{clients},{speed:.1},{tries:.2}")
        }
    }
}

/// Under one lock, in so many rounds.
pub fn report_lock<R: Runtime + AllocGlobal + Threads + Wait + Sync>(
    rt: &R,
    form: Form,
    mix: Mix,
    options: &Options,
    rounds: u32,
) -> io::Result<()> {
    let mut seconds = 0.0;
    for round in 0..rounds {
        seconds += lock::time(rt, options, SEED + u64::from(round))?;
    }
    let what = mix.name();
    let Options {
        relations,
        clients,
        ..
    } = *options;
    let speed = speed(options, rounds, seconds);
    match form {
        Form::Sentences => {
            println!(rt;
                "{what}, {relations} items a kind, {clients} clients, one lock: {speed:.1} thousand sessions a second"
            )
        }
        Form::Csv => {
            let column = mix.column();
            println!(rt; "{column},{relations},one lock,{clients},{speed:.1},1")
        }
    }
}

fn speed(options: &Options, rounds: u32, seconds: f64) -> f64 {
    f64::from(options.transactions) * f64::from(rounds) / seconds / 1e3
}
