//! Drawn sessions by workers on a shared table.
ghost use Rattle.std.specs.Prelude.{◌≡◌, ◌≤◌, IfOk, length};
ghost use Rattle.text_formats.specs.Options.{AreWithin};
ghost use Rattle.vac_model.specs.Balanced.{IsBalanced};
ghost use Rattle.shared_table.specs.Seated.{view};
ghost use Rattle.tx_engine.specs.Ready.{IsReady};

use crate::clock::seconds_since;
use crate::sessions::{STRIPES, lists_of, memory, no_such_sessions};
use crate::tries::Tries;
use client_sessions::{Entry, Session, state_of};
use seq_model::{ACTOR_LIMIT, Items, Memory, Refusal, Shape, State};
use std::alloc::Global;
use std::io;
use std::rt::Runtime;
use std::sync::Wait;
use std::thread::Threads;
use std::time::Instant;
use text_formats::{Options, opening};
use tx_engine::TxSeat;
use shared_table::TxTable;
use vac_model::{Action, Tables};
use workers::{Report, run_workers_owned};

/// The most attempts of a session.
const TRIES: u64 = 1_000_000;

/// The seconds that the workers take for the sessions, and how many attempts they make.
pub fn time<R: Runtime + AllocGlobal + Threads + Wait + Sync>(
    rt: &R,
    options: &Options,
    seed: u64,
) -> io::Result<(f64, u64)> {
    if options.are_within() {
        drawn(rt, options, seed)
    } else {
        Err(no_such_sessions())
    }
}

fn drawn<R: Runtime + AllocGlobal + Threads + Wait + Sync>(
    rt: &R,
    options: &Options,
    seed: u64,
) -> io::Result<(f64, u64)>
    requires { AreWithin options.now }
{
    let tables = opening(rt.alloc(), seed, options).map_err(memory)?;
    let made = from_tables(rt, options, seed, &tables);
    drop(tables);
    made
}

fn from_tables<R: Runtime + AllocGlobal + Threads + Wait + Sync>(
    rt: &R,
    options: &Options,
    seed: u64,
    tables: &Tables,
) -> io::Result<(f64, u64)>
    requires within { AreWithin options.now }
    requires balanced { IsBalanced tables.now }
{
    let lists = lists_of(rt.alloc(), seed, options).map_err(memory)?;
    of_lists(rt, tables, lists.as_slice())
}

fn of_lists<R: Runtime + AllocGlobal + Threads + Wait + Sync>(
    rt: &R,
    tables: &Tables,
    lists: &[Vec<Action>],
) -> io::Result<(f64, u64)>
    requires { IsBalanced tables.now }
{
    let sessions = all_sessions(rt.alloc(), lists).map_err(refused)?;
    if sessions.is_empty() || sessions.len() > ACTOR_LIMIT as usize {
        return Err(no_such_sessions());
    }
    let state = state_of(rt.alloc(), tables).map_err(memory)?;
    at_table(rt, state, sessions)
}

fn at_table<R: Runtime + AllocGlobal + Threads + Wait + Sync>(
    rt: &R,
    state: State<Entry>,
    sessions: Vec<Vec<Session>>,
) -> io::Result<(f64, u64)>
    requires { (1 ≤ length sessions.items) × (length sessions.items ≤ ACTOR_LIMIT) }
{
    match open(rt.alloc(), state) {
        Ok((table, seat)) => {
            let made = run(rt, &table, seat, sessions);
            drop(table);
            made
        }
        Err(refusal) => Err(refused(refusal)),
    }
}

/// The sessions of the actions of each list.
fn all_sessions(alloc: Global, lists: &[Vec<Action>]) -> Result<Vec<Vec<Session>>, Refusal> {
    let mut all = Vec::with_capacity(alloc, lists.len())?;
    for list in lists {
        let mut sessions = Vec::with_capacity(alloc, list.len())?;
        for action in list {
            sessions.push(Session::new(alloc, action)?)?;
        }
        all.push(sessions)?;
    }
    Ok(all)
}

fn refused(_refusal: Refusal) -> io::Error {
    io::Error::other("the table can't be opened")
}

fn open(alloc: Global, state: State<Entry>) -> Result<(TxTable<Entry>, TxSeat<Entry>), Refusal>
    ensures ready { IfOk result (λ opened. IsReady opened.0 opened.1) }
    ensures shares { IfOk result (λ opened. (view opened.1.seat).shares ≡ 64) }
{
    let shape = Shape {
        stripes: Items::from_vec(vec![in alloc; STRIPES; 8]?),
        clock: 0,
    };
    TxSeat::open(alloc, &shape, state)
}

fn run<R: Runtime + AllocGlobal + Threads + Wait + Sync>(
    rt: &R,
    table: &TxTable<Entry>,
    seat: TxSeat<Entry>,
    sessions: Vec<Vec<Session>>,
) -> io::Result<(f64, u64)>
    requires ready { IsReady table.now seat }
    requires shares { (view seat.seat).shares ≡ 64 }
    requires some { (1 ≤ length sessions.items) × (length sessions.items ≤ ACTOR_LIMIT) }
{
    match Tries::new(rt.alloc(), sessions.len()) {
        Ok(tries) => timed(rt, table, seat, sessions, &tries),
        Err(refusal) => {
            drop(seat);
            Err(memory(refusal))
        }
    }
}

fn timed<R: Runtime + AllocGlobal + Threads + Wait + Sync>(
    rt: &R,
    table: &TxTable<Entry>,
    seat: TxSeat<Entry>,
    sessions: Vec<Vec<Session>>,
    tries: &Tries,
) -> io::Result<(f64, u64)>
    requires ready { IsReady table.now seat }
    requires shares { (view seat.seat).shares ≡ 64 }
    requires some { (1 ≤ length sessions.items) × (length sessions.items ≤ ACTOR_LIMIT) }
{
    let start = Instant::now(rt);
    let (seat, report) = run_workers_owned(rt, rt.alloc(), table, seat, sessions, TRIES, tries);
    let seconds = seconds_since(rt, start);
    drop(seat);
    let whole = is_whole(&report);
    drop(report);
    if whole {
        Ok((seconds?, tries.all()))
    } else {
        Err(io::Error::other("a session was missed"))
    }
}

/// Whether no session was missed.
fn is_whole(report: &Result<Report<Entry>, Memory>) -> bool {
    match report {
        Ok(report) => report.missed.is_empty(),
        Err(_) => false,
    }
}
