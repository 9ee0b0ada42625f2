//! The calls of the transactions, and what they are made on.
ghost use Rattle.std.specs.Prelude.{◌<◌};

use rand_core::Rng;
use rand_xoshiro::Xoshiro256PlusPlus;
use seq_model::{
    Call, Counts, Entries, Held, Items, Memory, Op, QueueItems, Refusal, Shape, State,
};
use std::alloc::Global;
use std::io;

/// How many words there are, or keys of the map.
pub const KEYS: u32 = 65_536;

/// The stripes of a collection.
const STRIPES: u32 = 1024;

/// How many elements a priority queue has at first, or items a queue.
const ITEMS: u64 = 1024;

/// What the calls are on.
#[derive(Clone, Copy)]
pub enum On {
    Words,
    /// The keys of a map.
    Map,
    /// A map, whose number of keys is read.
    Keys,
    PriorityQueue,
    Queue,
}

/// What the calls are on, and how many of ten change something.
#[derive(Clone, Copy)]
pub struct Work {
    pub on: On,
    pub writes: u32,
}

/// The calls of a transaction.
pub type Calls = [Call<u64>; 4];

pub fn drawn(work: Work, random: &mut Xoshiro256PlusPlus) -> Calls {
    [
        drawn_call(work, random),
        drawn_call(work, random),
        drawn_call(work, random),
        drawn_call(work, random),
    ]
}

/// A word, a key, the number of keys, or one end of a collection, and what is made of it.
fn drawn_call(work: Work, random: &mut Xoshiro256PlusPlus) -> Call<u64> {
    let key = random.next_u64() % u64::from(KEYS);
    let is_write = random.next_u64() % 10 < u64::from(work.writes);
    let target = match work.on {
        On::Words => key as u32,
        _ => 0,
    };
    let op = if is_write {
        write_of(work.on, key)
    } else {
        read_of(work.on, key)
    };
    Call { target, op }
}

fn read_of(on: On, key: u64) -> Op<u64> {
    match on {
        On::Words => Op::Read,
        On::Map => Op::Get(key),
        On::Keys => Op::Len,
        On::PriorityQueue => Op::Least,
        On::Queue => Op::Peek,
    }
}

fn write_of(on: On, key: u64) -> Op<u64> {
    let is_even = key % 2 == 0;
    match on {
        On::Words => Op::Write(key),
        On::Map | On::Keys => Op::Put(key, key),
        On::PriorityQueue if is_even => Op::Insert(key),
        On::PriorityQueue => Op::TakeLeast,
        On::Queue if is_even => Op::Enqueue(key),
        On::Queue => Op::Dequeue,
    }
}

/// Words, or a collection: a map with an entry for each key, or one with some elements.
pub fn opening(alloc: Global, work: Work) -> Result<State<u64>, Refusal> {
    let held = match work.on {
        On::Words => {
            return State::new(vec![in alloc; 0; KEYS as usize]?, Vec::new(alloc));
        }
        On::Map | On::Keys => map(alloc)?,
        On::PriorityQueue => priority_queue(alloc)?,
        On::Queue => queue(alloc)?,
    };
    State::new(Vec::new(alloc), vec![in alloc; held]?)
}

fn map(alloc: Global) -> Result<Held<u64>, Memory> {
    let mut entries = Entries::new(alloc);
    for key in 0..u64::from(KEYS) {
        entries.insert(key, key)?;
    }
    Ok(Held::Map(entries))
}

fn priority_queue(alloc: Global) -> Result<Held<u64>, Memory> {
    let mut counts = Counts::new(alloc);
    for element in 0..ITEMS {
        counts.set_copies(element, 1)?;
    }
    Ok(Held::Pq(counts))
}

fn queue(alloc: Global) -> Result<Held<u64>, Memory> {
    let mut items = QueueItems::new(alloc);
    for item in 0..ITEMS {
        items.push(item)?;
    }
    Ok(Held::Queue { head: 0, items })
}

pub fn shape(alloc: Global, work: Work) -> Result<Shape, Memory> {
    let mut stripes = Items::new(alloc);
    if !matches!(work.on, On::Words) {
        stripes.push(STRIPES)?;
    }
    Ok(Shape { stripes, clock: 0 })
}

/// What ends a benchmark that can't open what it is on.
pub fn refused(_refusal: Refusal) -> io::Error {
    io::Error::other("what the calls are made on can't be opened")
}
