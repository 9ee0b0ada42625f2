//! TL2 on words, written by hand and not verified: a clock, lock words (2 * version + locked), a read set, a write set, locks in rising
//! order, and no check of the read set where no other commit took a number since the begin.

use std::sync::atomic::{AtomicU64, Ordering::*};

/// On a cache line of its own.
#[repr(align(128))]
pub struct Far<T>(pub T);

#[derive(Clone, Copy)]
pub enum Abort {
    Moved,
    Busy,
    Stale,
    GateBusy,
    Invalid,
}

#[derive(Default)]
pub struct Loc {
    pub lock: AtomicU64,
    pub value: AtomicU64,
}

/// A location on a cache line of its own.
#[repr(align(64))]
#[derive(Default)]
pub struct WideLoc(Loc);

pub trait Place: Default + Send + Sync {
    fn loc(&self) -> &Loc;
}
impl Place for Loc {
    #[inline(always)]
    fn loc(&self) -> &Loc {
        self
    }
}
impl Place for WideLoc {
    #[inline(always)]
    fn loc(&self) -> &Loc {
        &self.0
    }
}

pub struct Core<P> {
    pub clock: Far<AtomicU64>,
    pub locs: Vec<P>,
}

impl<P: Place> Core<P> {
    pub fn new(n: usize) -> Self {
        Core { clock: Far(AtomicU64::new(0)), locs: (0..n).map(|_| P::default()).collect() }
    }
    #[inline(always)]
    pub fn at(&self, l: u32) -> &Loc {
        self.locs[l as usize].loc()
    }
    /// The value, between two loads of its lock word.
    #[inline(always)]
    pub fn sample(&self, l: u32, rv: u64) -> Result<u64, Abort> {
        let p = self.at(l);
        let a = p.lock.load(Acquire);
        if a & 1 == 1 || a >> 1 > rv {
            return Err(Abort::Moved);
        }
        let v = p.value.load(Acquire);
        if p.lock.load(Relaxed) != a {
            return Err(Abort::Moved);
        }
        Ok(v)
    }
}

/// A hash table from keys to places in a list, emptied in no time.
pub struct Index {
    /// Key, generation, place.
    slots: Vec<(u64, u32, u32)>,
    gen: u32,
    len: usize,
}

impl Default for Index {
    fn default() -> Self {
        Index { slots: vec![(0, 0, 0); 64], gen: 1, len: 0 }
    }
}

impl Index {
    #[inline]
    pub fn clear(&mut self) {
        self.len = 0;
        self.gen = self.gen.wrapping_add(1);
        if self.gen == 0 {
            self.slots.fill((0, 0, 0));
            self.gen = 1;
        }
    }
    #[inline(always)]
    fn start(&self, key: u64) -> usize {
        (key.wrapping_mul(0x9E3779B97F4A7C15) >> (64 - self.slots.len().trailing_zeros())) as usize
    }
    #[inline(always)]
    pub fn find(&self, key: u64) -> Option<usize> {
        let mask = self.slots.len() - 1;
        let mut i = self.start(key);
        loop {
            let (k, g, p) = self.slots[i];
            if g != self.gen {
                return None;
            }
            if k == key {
                return Some(p as usize);
            }
            i = (i + 1) & mask;
        }
    }
    /// Condition: the key is absent.
    #[inline(always)]
    pub fn insert(&mut self, key: u64, place: usize) {
        if (self.len + 1) * 2 > self.slots.len() {
            self.grow();
        }
        self.put(key, place as u32);
        self.len += 1;
    }
    #[inline(always)]
    fn put(&mut self, key: u64, place: u32) {
        let mask = self.slots.len() - 1;
        let mut i = self.start(key);
        while self.slots[i].1 == self.gen {
            i = (i + 1) & mask;
        }
        self.slots[i] = (key, self.gen, place);
    }
    #[cold]
    fn grow(&mut self) {
        let n = self.slots.len() * 2;
        let old = std::mem::replace(&mut self.slots, vec![(0, 0, 0); n]);
        let gen = self.gen;
        self.gen = 1;
        for (k, g, p) in old {
            if g == gen {
                self.put(k, p);
            }
        }
    }
}

/// A map from locations to values.
#[derive(Default)]
pub struct LocMap {
    pub list: Vec<(u32, u64)>,
    index: Index,
}

impl LocMap {
    #[inline]
    pub fn clear(&mut self) {
        if !self.list.is_empty() {
            self.list.clear();
            self.index.clear();
        }
    }
    #[inline(always)]
    pub fn find(&self, l: u32) -> Option<u64> {
        if self.list.is_empty() {
            return None;
        }
        self.index.find(l as u64).map(|p| self.list[p].1)
    }
    #[inline(always)]
    pub fn put(&mut self, l: u32, v: u64) {
        match self.index.find(l as u64) {
            Some(p) => self.list[p].1 = v,
            None => self.add(l, v),
        }
    }
    /// Condition: absent.
    #[inline(always)]
    pub fn add(&mut self, l: u32, v: u64) {
        self.index.insert(l as u64, self.list.len());
        self.list.push((l, v));
    }
}

#[derive(Default)]
pub struct Sets {
    pub rv: u64,
    pub reads: LocMap,
    pub writes: LocMap,
    /// Location, value to store, old lock word.
    order: Vec<(u32, u64, u64)>,
}

impl Sets {
    #[inline]
    pub fn begin<P: Place>(&mut self, core: &Core<P>) {
        self.reads.clear();
        self.writes.clear();
        self.rv = core.clock.0.load(Acquire);
    }
    #[inline(always)]
    pub fn read<P: Place>(&mut self, core: &Core<P>, l: u32) -> Result<u64, Abort> {
        match self.writes.find(l) {
            Some(v) => Ok(v),
            None => self.first_read(core, l),
        }
    }
    /// What this transaction read at the location, and not what it will write there.
    #[inline(always)]
    pub fn first_read<P: Place>(&mut self, core: &Core<P>, l: u32) -> Result<u64, Abort> {
        if let Some(v) = self.reads.find(l) {
            return Ok(v);
        }
        let v = core.sample(l, self.rv)?;
        self.reads.add(l, v);
        Ok(v)
    }
    #[inline(always)]
    pub fn only_reads(&self) -> bool {
        self.writes.list.is_empty()
    }
    #[inline(always)]
    pub fn write(&mut self, l: u32, v: u64) {
        self.writes.put(l, v);
    }
    /// Takes the locks and a number, and checks the read set. On a refusal the locks are released.
    pub fn lock<P: Place>(&mut self, core: &Core<P>) -> Result<u64, Abort> {
        self.order.clear();
        self.order.extend(self.writes.list.iter().map(|w| (w.0, w.1, 0)));
        self.order.sort_unstable_by_key(|w| w.0);
        for i in 0..self.order.len() {
            let p = core.at(self.order[i].0);
            let w = p.lock.load(Relaxed);
            if w & 1 == 1 || p.lock.compare_exchange(w, w | 1, AcqRel, Relaxed).is_err() {
                self.give_back(core, i);
                return Err(Abort::Busy);
            }
            self.order[i].2 = w;
        }
        let wv = core.clock.0.fetch_add(1, AcqRel) + 1;
        if self.rv + 1 != wv && !self.reads.list.iter().all(|r| self.is_valid(core, r.0)) {
            self.give_back_all(core);
            return Err(Abort::Invalid);
        }
        Ok(wv)
    }
    /// A word that this transaction has locked keeps its old version.
    #[inline(always)]
    fn is_valid<P: Place>(&self, core: &Core<P>, l: u32) -> bool {
        let w = core.at(l).lock.load(Acquire);
        w >> 1 <= self.rv && (w & 1 == 0 || self.writes.find(l).is_some())
    }
    fn give_back<P: Place>(&self, core: &Core<P>, n: usize) {
        for (l, _, old) in &self.order[..n] {
            core.at(*l).lock.store(*old, Release);
        }
    }
    pub fn give_back_all<P: Place>(&self, core: &Core<P>) {
        self.give_back(core, self.order.len());
    }
    #[inline]
    pub fn store<P: Place>(&self, core: &Core<P>) {
        for (l, v, _) in &self.order {
            core.at(*l).value.store(*v, Release);
        }
    }
    #[inline]
    pub fn release<P: Place>(&self, core: &Core<P>, wv: u64) {
        for (l, _, _) in &self.order {
            core.at(*l).lock.store(wv << 1, Release);
        }
    }
    /// The commit of a transaction on words alone.
    #[inline]
    pub fn commit<P: Place>(&mut self, core: &Core<P>) -> Result<u64, Abort> {
        if self.only_reads() {
            return Ok(self.rv);
        }
        let wv = self.lock(core)?;
        self.store(core);
        self.release(core, wv);
        Ok(wv)
    }
}

/// A spin that doubles from attempt to attempt, and yields at each 16th.
#[inline]
pub fn wait(tries: u64) {
    for _ in 0..1u32 << tries.min(8) {
        std::hint::spin_loop();
    }
    if tries % 16 == 0 {
        std::thread::yield_now();
    }
}
