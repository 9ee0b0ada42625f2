//! Transactions by the clients of a store, on one collection that lies over one gate or several.
use crate::clock::seconds_since;
use rand_core::{Rng, SeedableRng};
use rand_xoshiro::Xoshiro256PlusPlus;
use seq_model::{Entries, Memory, QueueItems, Refusal};
use std::alloc::Global;
use std::io;
use std::rt::Runtime;
use std::sync::atomic::{AtomicU64, Ordering};
use std::thread::Threads;
use std::time::Instant;
use wolimevar::{Body, Client, Lanes, Layout, Map, Scope, Session, Store, Transaction};

/// How many keys the map has.
const KEYS: u64 = 65_536;

/// The stripes of all collections of the map together.
const STRIPES: u32 = 1024;

/// How many items a queue has at first.
const ITEMS: u64 = 1024;

/// How often a transaction is attempted.
const TRIES: u64 = 1_000_000;

/// How many transactions a thread takes at once of those that are left.
const SHARE: u64 = 500;

/// What the transactions are on.
#[derive(Clone, Copy)]
pub enum Kind {
    /// A map over so many gates: four gets, of which so many of ten are puts.
    Map(u32, u32),
    /// A queue in so many lanes: an item is taken, and put back.
    Lanes(u32),
}

#[derive(Clone, Copy)]
enum Handle {
    Map(Map<u64>, u32),
    Lanes(Lanes),
}

/// Four calls on keys of a map; or an item that goes round.
#[derive(Drop)]
enum Step {
    Keys(Map<u64>, [(u64, bool); 4]),
    Lanes(Lanes),
}

impl Body<u64> for Step {
    type Out = ();

    type Error = Refusal;

    fn run<S: Scope<u64>>(&self, tx: &mut Transaction<'_, u64, S>) -> Result<(), Refusal> {
        match self {
            Step::Keys(map, calls) => {
                for (key, puts) in calls {
                    if *puts {
                        map.put(tx, *key, *key)?;
                    } else {
                        map.get(tx, *key)?;
                    }
                }
                Ok(())
            }
            Step::Lanes(lanes) => {
                let item = lanes.dequeue(tx)?.unwrap_or(0);
                Ok(lanes.enqueue(tx, item)??)
            }
        }
    }
}

/// A thread that makes some of the transactions. All take from one number, so that none works alone at the end.
#[derive(Drop)]
struct Guest<'a> {
    handle: Handle,
    taken: &'a AtomicU64,
    all: u64,
    seed: u64,
}

/// A key, and whether a value is put there.
fn drawn(writes: u32, random: &mut Xoshiro256PlusPlus) -> (u64, bool) {
    let key = random.next_u64() % KEYS;
    (key, random.next_u64() % 10 < u64::from(writes))
}

fn step_of(handle: Handle, random: &mut Xoshiro256PlusPlus) -> Step {
    match handle {
        Handle::Map(map, writes) => {
            let calls = [
                drawn(writes, random),
                drawn(writes, random),
                drawn(writes, random),
                drawn(writes, random),
            ];
            Step::Keys(map, calls)
        }
        Handle::Lanes(lanes) => Step::Lanes(lanes),
    }
}

impl<'a> Session<u64> for Guest<'a> {
    /// How many transactions were committed, and how many attempts were refused.
    type Out = (u64, u64);

    fn serve<S: Scope<u64>>(self, client: &mut Client<'_, u64, S>) -> (u64, u64) {
        let mut random = Xoshiro256PlusPlus::seed_from_u64(self.seed);
        while self.taken.fetch_add(SHARE, Ordering::SeqCst) < self.all {
            for _ in 0..SHARE {
                let step = step_of(self.handle, &mut random);
                let _ = client.atomically(TRIES, &step).is_ok();
            }
        }
        let tally = client.tally();
        (tally.committed, tally.refusals())
    }
}

fn entries(alloc: Global) -> Result<Entries<u64>, Memory> {
    let mut entries = Entries::new(alloc);
    for key in 0..KEYS {
        entries.insert(key, key)?;
    }
    Ok(entries)
}

fn items(alloc: Global) -> Result<QueueItems, Memory> {
    let mut items = QueueItems::new(alloc);
    for item in 0..ITEMS {
        items.push(item)?;
    }
    Ok(items)
}

fn open(alloc: Global, kind: Kind) -> Result<(Store<u64>, Handle), Refusal> {
    let mut layout = Layout::new(alloc);
    let handle = match kind {
        Kind::Map(gates, writes) => {
            let stripes = STRIPES / gates.max(1);
            Handle::Map(layout.map_over(gates, stripes, entries(alloc)?)?, writes)
        }
        Kind::Lanes(lanes) => Handle::Lanes(layout.lanes(lanes, 8, items(alloc)?)?),
    };
    Ok((layout.open()?, handle))
}

/// How many transactions so many threads made, so many each in the mean, how many attempts were refused, and the seconds that they took.
pub fn time<R: Runtime + AllocGlobal + Threads + Sync>(
    rt: &R,
    kind: Kind,
    threads: u32,
    transactions: u32,
) -> io::Result<(u64, u64, f64)> {
    let Ok(opened) = open(rt.alloc(), kind) else {
        return Err(io::Error::other("the store can't be opened"));
    };
    let (mut store, handle) = opened;
    let taken = AtomicU64::new(0);
    let all = u64::from(threads).saturating_mul(u64::from(transactions));
    let mut guests = Vec::new(rt.alloc());
    for thread in 0..threads {
        let seed = u64::from(thread).saturating_add(1);
        guests.push(Guest {
            handle,
            taken: &taken,
            all,
            seed,
        })?;
    }
    let start = Instant::now(rt);
    let served = store.run(rt, guests);
    let seconds = seconds_since(rt, start)?;
    drop(store);
    let Ok(each) = served else {
        return Err(io::Error::other("no session was served"));
    };
    let (mut committed, mut refused) = (0u64, 0u64);
    for one in each {
        committed = committed.saturating_add(one.0);
        refused = refused.saturating_add(one.1);
    }
    Ok((committed, refused, seconds))
}
