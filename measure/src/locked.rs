//! The same calls on a state under one lock.
use crate::clock::seconds_since;
use crate::outcomes::Outcomes;
use crate::work::{Work, drawn, opening, refused};
use rand_core::SeedableRng;
use rand_xoshiro::Xoshiro256PlusPlus;
use seq_model::{Refusal, State};
use std::io;
use std::rt::Runtime;
use std::sync::{Mutex, Wait};
use std::thread::{Threads, map_indices};
use std::time::Instant;

/// So many transactions by each of so many threads: what came of them, and the seconds that they took.
pub fn time<R: Runtime + AllocGlobal + Threads + Wait + Sync>(
    rt: &R,
    work: Work,
    threads: u32,
    transactions: u32,
) -> io::Result<(Outcomes, f64)> {
    let state = opening(rt.alloc(), work).map_err(refused)?;
    run(rt, &Mutex::new(state), work, threads, transactions)
}

fn run<R: Runtime + AllocGlobal + Threads + Wait + Sync>(
    rt: &R,
    state: &Mutex<State<u64>>,
    work: Work,
    threads: u32,
    transactions: u32,
) -> io::Result<(Outcomes, f64)> {
    let start = Instant::now(rt);
    let each = map_indices(
        rt,
        rt.alloc(),
        threads as usize,
        &|thread| { transact_all(rt, state, work, transactions, seed_of(thread)) },
    )?;
    let seconds = seconds_since(rt, start)?;
    Ok((Outcomes::all(each.as_slice()), seconds))
}

// The same seed as at the seat of this thread.
fn seed_of(thread: usize) -> u64 {
    (thread as u64).saturating_add(1)
}

fn transact_all<R: Wait>(
    rt: &R,
    state: &Mutex<State<u64>>,
    work: Work,
    transactions: u32,
    seed: u64,
) -> Outcomes {
    let mut random = Xoshiro256PlusPlus::seed_from_u64(seed);
    let mut outcomes = Outcomes::NONE;
    for _ in 0..transactions {
        outcomes.note(transact(rt, state, work, &mut random));
    }
    outcomes
}

fn transact<R: Wait>(
    rt: &R,
    state: &Mutex<State<u64>>,
    work: Work,
    random: &mut Xoshiro256PlusPlus,
) -> Result<(), Refusal> {
    // What is drawn under the lock would burden the lock alone.
    let calls = drawn(work, random);
    let mut guard = state.lock(rt);
    let state = &mut *guard;
    for call in &calls {
        let _ = state.apply(call)?;
    }
    Ok(())
}
