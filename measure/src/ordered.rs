//! Drawn sessions of one client, one after another on a running world, in microseconds a session.
ghost use Rattle.text_formats.specs.Options.{AreWithin};

use crate::clock::seconds_since;
use crate::form::Form;
use crate::sessions::{Mix, SEED, STRIPES, memory, no_such_sessions, options};
use std::io;
use std::rt::Runtime;
use std::time::Instant;
use text_formats::{Options, generate, opening};
use vac_model::Action;
use vacation_core::run_in_order;

pub const COLUMNS: &str = "items,sessions,microseconds";

/// Prints what a session takes with few items and with many, of few sessions and of many.
pub fn measure(rt: &(impl Runtime + AllocGlobal), form: Form) -> io::Result<()> {
    for relations in [100, 10_000] {
        for sessions in [1000, 10_000, 100_000] {
            report(rt, form, relations, sessions)?;
        }
    }
    Ok(())
}

/// With so many items of each kind, and so many sessions.
fn report(
    rt: &(impl Runtime + AllocGlobal),
    form: Form,
    relations: u32,
    sessions: u32,
) -> io::Result<()> {
    let seconds = seconds_of(rt, &options(Mix::Long, relations, 1, sessions))?;
    let micros = seconds * 1e6 / f64::from(sessions);
    match form {
        Form::Sentences => {
            println!(rt;
                "{relations} items a kind, {sessions} sessions: {micros:.1} microseconds a session"
            )
        }
        Form::Csv => println!(rt; "{relations},{sessions},{micros:.1}"),
    }
}

fn seconds_of(rt: &(impl Runtime + AllocGlobal), options: &Options) -> io::Result<f64> {
    if options.are_within() {
        drawn(rt, options)
    } else {
        Err(no_such_sessions())
    }
}

fn drawn(rt: &(impl Runtime + AllocGlobal), options: &Options) -> io::Result<f64>
    requires { AreWithin options.now }
{
    let actions = generate(rt.alloc(), SEED, 1, options).map_err(memory)?;
    timed(rt, options, actions.as_slice())
}

fn timed(
    rt: &(impl Runtime + AllocGlobal),
    options: &Options,
    actions: &[Action],
) -> io::Result<f64>
    requires { AreWithin options.now }
{
    let tables = opening(rt.alloc(), SEED, options).map_err(memory)?;
    let start = Instant::now(rt);
    let run = run_in_order(rt.alloc(), tables, STRIPES, actions);
    let is_refused = run.is_err();
    drop(run);
    if is_refused {
        return Err(io::Error::other("a session was refused"));
    }
    seconds_since(rt, start)
}
