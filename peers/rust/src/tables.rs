//! Tables in one thread: what a run leaves, and plain hash tables, which sessions one after another are replayed on.

use crate::actions::{mix, Store, BOOKINGS_LIMIT, EMPTY, NUMBER_LIMIT};
use crate::sessions::{Booking, Item};
use std::collections::{BTreeMap, HashMap, HashSet};
use std::convert::Infallible;
use std::hash::{BuildHasher, BuildHasherDefault, Hasher};

#[derive(Default, PartialEq, Eq)]
pub struct Final {
    pub items: [BTreeMap<u64, Item>; 3],
    pub customers: BTreeMap<u64, Vec<Booking>>,
}

impl Final {
    pub fn digest(&self) -> u64 {
        let mut h = EMPTY;
        for (id, it) in self.items.iter().flatten() {
            h = [*id, it.total, it.used, it.free, it.price].into_iter().fold(h, mix);
        }
        for (id, list) in &self.customers {
            h = mix(h, *id);
            for b in list {
                h = mix(mix(mix(h, b.kind as u64), b.id), b.price as u64);
            }
        }
        h
    }

    /// Whether each item's used units are those that customers hold, and each number is within its limits.
    pub fn balanced(&self) -> bool {
        let mut held: HashMap<(usize, u64), u64> = HashMap::new();
        for list in self.customers.values() {
            let mut own = HashSet::new();
            if list.len() > BOOKINGS_LIMIT || !list.iter().all(|b| own.insert((b.kind, b.id))) {
                return false;
            }
            for b in list {
                *held.entry((b.kind as usize, b.id)).or_insert(0) += 1;
            }
        }
        for (kind, items) in self.items.iter().enumerate() {
            for (id, it) in items {
                let used = held.remove(&(kind, *id)).unwrap_or(0);
                let fits = (1..=NUMBER_LIMIT).contains(&it.total) && it.price <= NUMBER_LIMIT;
                if !fits || it.used != used || it.used + it.free != it.total {
                    return false;
                }
            }
        }
        held.is_empty()
    }
}

#[derive(Default)]
pub struct Plain<H: BuildHasher + Default> {
    items: [HashMap<u64, Item, H>; 3],
    customers: HashMap<u64, Vec<Booking>, H>,
}

impl<H: BuildHasher + Default> Plain<H> {
    pub fn open(opening: &[(usize, u64, Item)]) -> Self {
        let mut p = Plain { items: Default::default(), customers: Default::default() };
        for (kind, id, item) in opening {
            p.items[*kind].insert(*id, *item);
        }
        p
    }
    pub fn last(self) -> Final {
        Final {
            items: self.items.map(|items| items.into_iter().collect()),
            customers: self.customers.into_iter().collect(),
        }
    }
}

impl<H: BuildHasher + Default> Store for Plain<H> {
    type Err = Infallible;
    #[inline]
    fn item(&mut self, kind: usize, id: u64) -> Result<Option<Item>, Infallible> {
        Ok(self.items[kind].get(&id).copied())
    }
    #[inline]
    fn put_item(&mut self, kind: usize, id: u64, item: Item) -> Result<(), Infallible> {
        self.items[kind].insert(id, item);
        Ok(())
    }
    #[inline]
    fn remove_item(&mut self, kind: usize, id: u64) -> Result<(), Infallible> {
        self.items[kind].remove(&id);
        Ok(())
    }
    #[inline]
    fn customer(&mut self, id: u64) -> Result<Option<&[Booking]>, Infallible> {
        Ok(self.customers.get(&id).map(|v| v.as_slice()))
    }
    #[inline]
    fn append(&mut self, id: u64, new: &[Booking]) -> Result<(), Infallible> {
        self.customers.entry(id).or_default().extend_from_slice(new);
        Ok(())
    }
    #[inline]
    fn take_customer(&mut self, id: u64) -> Result<Option<Vec<Booking>>, Infallible> {
        Ok(self.customers.remove(&id))
    }
}

/// A cheap hash of a number: a multiplication.
#[derive(Default)]
pub struct Multiply(u64);

impl Hasher for Multiply {
    #[inline]
    fn finish(&self) -> u64 {
        self.0
    }
    #[inline]
    fn write(&mut self, bytes: &[u8]) {
        for b in bytes {
            self.write_u64(*b as u64);
        }
    }
    #[inline]
    fn write_u64(&mut self, x: u64) {
        let y = (self.0 ^ x).wrapping_mul(0x9E3779B97F4A7C15);
        self.0 = y ^ (y >> 32);
    }
}

pub type Fx = BuildHasherDefault<Multiply>;
