//! Transactions at seats of a table, each seat in a thread of its own.
ghost use Rattle.std.specs.Prelude.{◌<◌, ◌≡◌, IfOk};
ghost use Rattle.std.specs.Thread.{IsSync};
ghost use Rattle.shared_table.specs.Seated.{view};
ghost use Rattle.tx_engine.specs.Ready.{HasBegunSince, IsReady};

use crate::clock::seconds_since;
use crate::outcomes::Outcomes;
use crate::work::{Calls, Work, drawn, opening, refused, shape};
use rand_core::SeedableRng;
use rand_xoshiro::Xoshiro256PlusPlus;
use seq_model::{Call, Refusal};
use std::alloc::Global;
use std::io;
use std::rt::Runtime;
use std::thread::{Threads, join};
use std::time::Instant;
use tx_engine::{Tx, TxSeat, begin};
use shared_table::TxTable;

/// What comes of so many transactions of each thread, and the seconds that they take. There are one, two or four threads.
pub fn time<R: Runtime + AllocGlobal + Threads + Sync>(
    rt: &R,
    work: Work,
    threads: u32,
    transactions: u32,
) -> io::Result<(Outcomes, f64)> {
    match open(rt.alloc(), work) {
        Ok((table, seat)) => {
            let timed = timed(rt, &table, seat, work, threads, transactions);
            drop(table);
            timed
        }
        Err(refusal) => Err(refused(refusal)),
    }
}

fn timed<R: Runtime + AllocGlobal + Threads + Sync>(
    rt: &R,
    table: &TxTable<u64>,
    seat: TxSeat<u64>,
    work: Work,
    threads: u32,
    transactions: u32,
) -> io::Result<(Outcomes, f64)>
    requires ready { IsReady table.now seat }
    requires shares { (view seat.seat).shares ≡ 64 }
{
    let start = Instant::now(rt);
    let outcomes = run(rt, table, seat, work, threads, transactions)?;
    let seconds = seconds_since(rt, start)?;
    Ok((outcomes, seconds))
}

fn open(alloc: Global, work: Work) -> Result<(TxTable<u64>, TxSeat<u64>), Refusal>
    ensures ready { IfOk result (λ opened. IsReady opened.0 opened.1) }
    ensures shares { IfOk result (λ opened. (view opened.1.seat).shares ≡ 64) }
{
    let shape = shape(alloc, work)?;
    let state = opening(alloc, work)?;
    TxSeat::open(alloc, &shape, state)
}

fn run<R: Threads + Sync>(
    rt: &R,
    table: &TxTable<u64>,
    seat: TxSeat<u64>,
    work: Work,
    threads: u32,
    transactions: u32,
) -> io::Result<Outcomes>
    requires ready { IsReady table.now seat }
    requires shares { (view seat.seat).shares ≡ 64 }
{
    match threads {
        1 => Ok(on_one(table, seat, work, transactions, 1)),
        2 => Ok(on_two(rt, table, seat, work, transactions, 1)),
        4 => Ok(on_four(rt, table, seat, work, transactions)),
        _ => {
            drop(seat);
            Err(io::Error::other("there are one, two or four threads"))
        }
    }
}

fn on_four<R: Threads + Sync>(
    rt: &R,
    table: &TxTable<u64>,
    mut seat: TxSeat<u64>,
    work: Work,
    transactions: u32,
) -> Outcomes
    requires ready { IsReady table.now seat }
    requires shares { 33 < (view seat.seat).shares }
{
    let other = seat.split(table, 32);
    let (first, second) = join(
        rt,
        || -> Outcomes
            requires sync { IsSync R.row }
            requires ready { IsReady table.now seat }
            requires shares { 1 < (view seat.seat).shares }
        { on_two(rt, table, seat, work, transactions, 1) },
        || -> Outcomes
            requires sync { IsSync R.row }
            requires ready { IsReady table.now other }
            requires shares { 1 < (view other.seat).shares }
        { on_two(rt, table, other, work, transactions, 3) },
    );
    first.and(second)
}

fn on_two<R: Threads + Sync>(
    rt: &R,
    table: &TxTable<u64>,
    mut seat: TxSeat<u64>,
    work: Work,
    transactions: u32,
    seed: u64,
) -> Outcomes
    requires ready { IsReady table.now seat }
    requires shares { 1 < (view seat.seat).shares }
    requires seed { seed < 64 }
{
    let other = seat.split(table, 1);
    let (first, second) = join(
        rt,
        || -> Outcomes
            requires ready { IsReady table.now seat }
        { on_one(table, seat, work, transactions, seed) },
        || -> Outcomes
            requires ready { IsReady table.now other }
            requires seed { seed < 64 }
        { on_one(table, other, work, transactions, seed + 1) },
    );
    first.and(second)
}

fn on_one(
    table: &TxTable<u64>,
    mut seat: TxSeat<u64>,
    work: Work,
    transactions: u32,
    seed: u64,
) -> Outcomes
    requires ready { IsReady table.now seat }
{
    let mut random = Xoshiro256PlusPlus::seed_from_u64(seed);
    let mut outcomes = Outcomes::NONE;
    'transactions: for _ in 0..transactions {
        outcomes.note(transact(table, &mut seat, work, &mut random));
    }
    drop(seat);
    outcomes
}

fn transact(
    table: &TxTable<u64>,
    seat: &mut TxSeat<u64>,
    work: Work,
    random: &mut Xoshiro256PlusPlus,
) -> Result<(), Refusal>
    requires ready { IsReady table.now seat.old }
    ensures ready { IsReady table.now seat.new }
{
    let calls = drawn(work, random);
    let mut tx = begin(seat, table)?;
    make_calls(&mut tx, calls)?;
    let _ = tx.commit()?;
    Ok(())
}

fn make_calls(tx: &mut Tx<'_, u64>, calls: Calls) -> Result<(), Refusal>
    requires ready { IsReady tx.old.table.now tx.old.seat.now }
    requires since { HasBegunSince tx.old.table.now tx.old.seat.now }
    ensures same_reference { tx.new.seat.ghost_name ≡ tx.old.seat.ghost_name }
    ensures same_table { tx.new.table.now ≡ tx.old.table.now }
    ensures ready { IsReady tx.new.table.now tx.new.seat.now }
    ensures since { HasBegunSince tx.new.table.now tx.new.seat.now }
{
    'calls: for call in calls {
        make_call(tx, call)?;
    }
    Ok(())
}

fn make_call(tx: &mut Tx<'_, u64>, call: Call<u64>) -> Result<(), Refusal>
    requires ready { IsReady tx.old.table.now tx.old.seat.now }
    requires since { HasBegunSince tx.old.table.now tx.old.seat.now }
    ensures same_reference { tx.new.seat.ghost_name ≡ tx.old.seat.ghost_name }
    ensures same_table { tx.new.table.now ≡ tx.old.table.now }
    ensures ready { IsReady tx.new.table.now tx.new.seat.now }
    ensures since { HasBegunSince tx.new.table.now tx.new.seat.now }
{
    let _ = tx.call(call.op, call.target)?;
    Ok(())
}
