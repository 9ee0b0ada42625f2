//! 64 shards a table, each a Mutex and a hash table. A session takes the locks of all shards that it needs in one order, customers
//! before cars, flights and rooms, and inside a table by shard, so no session is attempted twice. A reservation and an update know
//! their shards; a deletion reads them in the customer's list, once it has the customer's lock, which is first.

use peers::tl2::Far;
use peers::{act, drive, Action, Args, Booking, Counts, Final, Fx, Item, Logged, Options, Peer, Sessions, Store, What};
use std::cell::UnsafeCell;
use std::collections::HashMap;
use std::convert::Infallible;
use std::sync::atomic::{AtomicU64, Ordering};
use std::sync::{Mutex, MutexGuard};

const SHARDS: usize = 64;
const CUSTOMERS: usize = 3;

/// The lock stands beside what it guards, so that a session reaches the tables by index while its guards are in a list.
struct Shard<V> {
    lock: Mutex<()>,
    map: UnsafeCell<HashMap<u64, V, Fx>>,
}

impl<V> Shard<V> {
    fn new() -> Far<Self> {
        Far(Shard { lock: Mutex::new(()), map: UnsafeCell::default() })
    }
}

struct Sharded {
    /// At kind * SHARDS + id % SHARDS.
    items: Vec<Far<Shard<Item>>>,
    customers: Vec<Far<Shard<Vec<Booking>>>>,
    /// For the audit: how many sessions were served.
    served: Far<AtomicU64>,
}

unsafe impl Sync for Sharded {}

#[inline]
fn shard_of(id: u64) -> usize {
    (id % SHARDS as u64) as usize
}

/// The tables while a session's locks are held: by table, a bit for each shard.
struct Held<'a> {
    tables: &'a Sharded,
    locked: [u64; 4],
}

// A map is reached only where its lock is held, which is asserted, and no reference outlives the borrow of self.
impl Held<'_> {
    #[inline]
    fn items(&mut self, kind: usize, id: u64) -> &mut HashMap<u64, Item, Fx> {
        let s = shard_of(id);
        assert!(self.locked[kind] >> s & 1 == 1);
        unsafe { &mut *self.tables.items[kind * SHARDS + s].0.map.get() }
    }
    #[inline]
    fn customers(&mut self, id: u64) -> &mut HashMap<u64, Vec<Booking>, Fx> {
        let s = shard_of(id);
        assert!(self.locked[CUSTOMERS] >> s & 1 == 1);
        unsafe { &mut *self.tables.customers[s].0.map.get() }
    }
}

impl Store for Held<'_> {
    type Err = Infallible;
    #[inline]
    fn item(&mut self, kind: usize, id: u64) -> Result<Option<Item>, Infallible> {
        Ok(self.items(kind, id).get(&id).copied())
    }
    #[inline]
    fn put_item(&mut self, kind: usize, id: u64, item: Item) -> Result<(), Infallible> {
        self.items(kind, id).insert(id, item);
        Ok(())
    }
    #[inline]
    fn remove_item(&mut self, kind: usize, id: u64) -> Result<(), Infallible> {
        self.items(kind, id).remove(&id);
        Ok(())
    }
    #[inline]
    fn customer(&mut self, id: u64) -> Result<Option<&[Booking]>, Infallible> {
        Ok(self.customers(id).get(&id).map(|v| v.as_slice()))
    }
    #[inline]
    fn append(&mut self, id: u64, new: &[Booking]) -> Result<(), Infallible> {
        self.customers(id).entry(id).or_default().extend_from_slice(new);
        Ok(())
    }
    #[inline]
    fn take_customer(&mut self, id: u64) -> Result<Option<Vec<Booking>>, Infallible> {
        Ok(self.customers(id).remove(&id))
    }
}

impl Sharded {
    /// Takes the locks that an action needs.
    #[inline]
    fn lock<'a>(&'a self, a: Action<'_>, guards: &mut Vec<MutexGuard<'a, ()>>) -> Held<'a> {
        let mut held = Held { tables: self, locked: [0; 4] };
        if a.what != What::Update {
            let s = shard_of(a.customer);
            held.locked[CUSTOMERS] |= 1 << s;
            guards.push(self.customers[s].0.lock.lock().unwrap());
        }
        let mut items = [0u64; 3];
        if a.what == What::Delete {
            for b in held.customers(a.customer).get(&a.customer).into_iter().flatten() {
                items[b.kind as usize] |= 1 << shard_of(b.id);
            }
        } else {
            for x in a.args {
                items[x.kind as usize] |= 1 << shard_of(x.id);
            }
        }
        for (kind, mut shards) in items.into_iter().enumerate() {
            held.locked[kind] = shards;
            while shards != 0 {
                let s = shards.trailing_zeros() as usize;
                shards &= shards - 1;
                guards.push(self.items[kind * SHARDS + s].0.lock.lock().unwrap());
            }
        }
        held
    }
}

impl Peer for Sharded {
    fn open(opening: &[(usize, u64, Item)]) -> Self {
        let mut items: Vec<_> = (0..3 * SHARDS).map(|_| Shard::new()).collect();
        for (kind, id, item) in opening {
            items[kind * SHARDS + shard_of(*id)].0.map.get_mut().insert(*id, *item);
        }
        let customers = (0..SHARDS).map(|_| Shard::new()).collect();
        Sharded { items, customers, served: Far(AtomicU64::new(0)) }
    }

    fn work(&self, sessions: &Sessions, audit: bool) -> Counts {
        let mut c = Counts { tries: 1, ..Counts::default() };
        let mut guards = Vec::with_capacity(4 * SHARDS);
        for session in 0..sessions.count() {
            let action = sessions.get(session);
            let mut held = self.lock(action, &mut guards);
            let Ok(reply) = act(&mut held, action);
            if audit {
                let number = self.served.0.fetch_add(1, Ordering::Relaxed);
                c.log.push(Logged { number, reader: false, reply, session });
            }
            guards.clear();
            c.replies = c.replies.wrapping_add(reply);
        }
        c
    }

    fn last(self) -> Final {
        let mut f = Final::default();
        for (i, s) in self.items.into_iter().enumerate() {
            f.items[i / SHARDS].extend(s.0.map.into_inner());
        }
        for s in self.customers {
            f.customers.extend(s.0.map.into_inner());
        }
        f
    }
}

fn main() {
    drive::<Sharded>("sharded", &Options::read(&Args::parse(), &[]));
}
