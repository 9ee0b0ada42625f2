//! TL2 with boosted tables without Wolimevar's gate for each table: a stripe is a small list behind a spin lock of its own, beside its
//! lock word, which also stands for the edition; a customer's list is shared and extended in place at the commit; and there is a pause
//! between attempts. So it shows what the design could give, and not what its rules allow.
//! `--stripes` says how many a table has, 4,096 where it is left out.

use peers::tl2::*;
use peers::{attempts, drive, Args, Booking, Counts, Final, Item, Options, Peer, Sessions, Store, Transaction};
use std::cell::UnsafeCell;
use std::sync::atomic::{AtomicBool, AtomicU64, AtomicUsize, Ordering::*};
use std::sync::Arc;

#[repr(align(64))]
struct Stripe<V> {
    lock: AtomicU64,
    gate: AtomicBool,
    map: UnsafeCell<Vec<(u64, V)>>,
}

unsafe impl<V: Send> Sync for Stripe<V> {}

impl<V> Stripe<V> {
    fn new() -> Self {
        let (lock, gate) = Default::default();
        Stripe { lock, gate, map: UnsafeCell::new(Vec::new()) }
    }
    #[inline(always)]
    fn with<T>(&self, f: impl FnOnce(&mut Vec<(u64, V)>) -> T) -> T {
        let mut n = 0u32;
        while self.gate.compare_exchange_weak(false, true, Acquire, Relaxed).is_err() {
            n += 1;
            if n % 256 == 0 {
                std::thread::yield_now();
            }
            std::hint::spin_loop();
        }
        let answer = f(unsafe { &mut *self.map.get() });
        self.gate.store(false, Release);
        answer
    }
    fn into_free(self) -> Vec<(u64, V)> {
        assert!(self.lock.load(Acquire) & 1 == 0);
        self.map.into_inner()
    }
}

/// The key's value, between two loads of its stripe's lock word.
#[inline(always)]
fn sample<V: Clone>(s: &Stripe<V>, rv: u64, key: u64) -> Result<Option<V>, Abort> {
    let word = s.lock.load(Acquire);
    if word & 1 == 1 || word >> 1 > rv {
        return Err(Abort::Moved);
    }
    let v = s.with(|m| m.iter().find(|e| e.0 == key).map(|e| e.1.clone()));
    if s.lock.load(Acquire) != word {
        return Err(Abort::Moved);
    }
    Ok(v)
}

type List = Arc<Vec<Booking>>;

/// The locations are the stripes of items, at kind * stripes + id % stripes, and after them those of customers.
struct Table {
    clock: Far<AtomicU64>,
    items: Vec<Stripe<Item>>,
    customers: Vec<Stripe<List>>,
    stripes: u64,
}

impl Table {
    #[inline(always)]
    fn item_stripe(&self, kind: usize, id: u64) -> usize {
        (kind as u64 * self.stripes + (id & (self.stripes - 1))) as usize
    }
    #[inline(always)]
    fn customer_stripe(&self, id: u64) -> &Stripe<List> {
        &self.customers[(id & (self.stripes - 1)) as usize]
    }
    #[inline(always)]
    fn customer_location(&self, id: u64) -> u32 {
        self.items.len() as u32 + (id & (self.stripes - 1)) as u32
    }
    #[inline(always)]
    fn word(&self, l: u32) -> &AtomicU64 {
        match self.items.get(l as usize) {
            Some(s) => &s.lock,
            None => &self.customers[l as usize - self.items.len()].lock,
        }
    }
}

struct ItemEntry {
    stripe: u32,
    id: u64,
    now: Option<Item>,
    changed: bool,
}

/// What the commit makes of the customer.
#[derive(Clone, Copy, PartialEq)]
enum Plan {
    Keep,
    Append,
    Remove,
}

struct Tx<'a> {
    table: &'a Table,
    rv: u64,
    items: Vec<ItemEntry>,
    index: Index,
    /// A session reaches one customer.
    customer: Option<(u64, Option<List>)>,
    plan: Plan,
    new: Vec<Booking>,
    /// Location, old lock word.
    order: Vec<(u32, u64)>,
}

impl<'a> Tx<'a> {
    fn new(table: &'a Table) -> Self {
        let (items, index, new, order) = Default::default();
        Tx { table, rv: 0, items, index, customer: None, plan: Plan::Keep, new, order }
    }
    #[inline(always)]
    fn item_entry(&mut self, kind: usize, id: u64) -> Result<usize, Abort> {
        let key = id << 2 | kind as u64;
        if let Some(p) = self.index.find(key) {
            return Ok(p);
        }
        let stripe = self.table.item_stripe(kind, id);
        let now = sample(&self.table.items[stripe], self.rv, id)?;
        let p = self.items.len();
        self.index.insert(key, p);
        self.items.push(ItemEntry { stripe: stripe as u32, id, now, changed: false });
        Ok(p)
    }
    #[inline(always)]
    fn set_item(&mut self, kind: usize, id: u64, now: Option<Item>) -> Result<(), Abort> {
        let p = self.item_entry(kind, id)?;
        self.items[p].now = now;
        self.items[p].changed = true;
        Ok(())
    }
    #[inline(always)]
    fn list(&mut self, id: u64) -> Result<Option<&List>, Abort> {
        if self.customer.is_none() {
            self.customer = Some((id, sample(self.table.customer_stripe(id), self.rv, id)?));
        }
        let (customer, list) = self.customer.as_ref().unwrap();
        assert!(*customer == id);
        Ok(list.as_ref())
    }
    fn give_back(&self, n: usize) {
        for (l, old) in &self.order[..n] {
            self.table.word(*l).store(*old, Release);
        }
    }
    #[inline]
    fn lock(&mut self) -> Result<(), Abort> {
        self.order.sort_unstable();
        self.order.dedup();
        for i in 0..self.order.len() {
            let word = self.table.word(self.order[i].0);
            let old = word.load(Relaxed);
            if old & 1 == 1 || word.compare_exchange(old, old | 1, AcqRel, Relaxed).is_err() {
                self.give_back(i);
                return Err(Abort::Busy);
            }
            self.order[i].1 = old;
        }
        Ok(())
    }
    #[inline(always)]
    fn is_valid(&self, l: u32) -> bool {
        let word = self.table.word(l).load(Acquire);
        let locked = word & 1 == 1;
        word >> 1 <= self.rv && (!locked || self.order.binary_search_by_key(&l, |o| o.0).is_ok())
    }
    #[inline]
    fn put_items(&self) {
        for e in self.items.iter().filter(|e| e.changed) {
            self.table.items[e.stripe as usize].with(|m| {
                match (m.iter().position(|x| x.0 == e.id), e.now) {
                    (Some(p), Some(v)) => m[p].1 = v,
                    (Some(p), None) => drop(m.swap_remove(p)),
                    (None, Some(v)) => m.push((e.id, v)),
                    (None, None) => {}
                }
            });
        }
    }
    #[inline]
    fn put_customer(&mut self) {
        let Some((id, list)) = self.customer.take() else { return };
        // Nobody else then shares it, as a rule, and it is extended in place.
        drop(list);
        let (new, plan) = (&self.new, self.plan);
        // A list that is removed is dropped outside the spin lock.
        let _removed = self.table.customer_stripe(id).with(|m| {
            match (m.iter().position(|x| x.0 == id), plan) {
                (Some(p), Plan::Append) => Arc::make_mut(&mut m[p].1).extend_from_slice(new),
                (None, Plan::Append) => m.push((id, Arc::new(new.clone()))),
                (Some(p), _) => return Some(m.swap_remove(p)),
                (None, _) => {}
            }
            None
        });
    }
}

impl Transaction for Tx<'_> {
    #[inline]
    fn begin(&mut self) {
        self.items.clear();
        self.index.clear();
        self.customer = None;
        self.plan = Plan::Keep;
        self.new.clear();
        self.rv = self.table.clock.0.load(Acquire);
    }
    #[inline]
    fn commit(&mut self) -> Result<(u64, bool), Abort> {
        let customer = self.customer.as_ref().map(|(id, _)| self.table.customer_location(*id));
        self.order.clear();
        self.order.extend(self.items.iter().filter(|e| e.changed).map(|e| (e.stripe, 0)));
        if self.plan != Plan::Keep {
            self.order.extend(customer.map(|l| (l, 0)));
        }
        if self.order.is_empty() {
            return Ok((self.rv, true));
        }
        self.lock()?;
        let wv = self.table.clock.0.fetch_add(1, AcqRel) + 1;
        let alone = wv == self.rv + 1;
        let mut read = self.items.iter().map(|e| e.stripe).chain(customer);
        if !alone && !read.all(|l| self.is_valid(l)) {
            self.give_back(self.order.len());
            return Err(Abort::Invalid);
        }
        self.put_items();
        if self.plan != Plan::Keep {
            self.put_customer();
        }
        for (l, _) in &self.order {
            self.table.word(*l).store(wv << 1, Release);
        }
        Ok((wv, false))
    }
}

impl Store for Tx<'_> {
    type Err = Abort;
    #[inline]
    fn item(&mut self, kind: usize, id: u64) -> Result<Option<Item>, Abort> {
        let p = self.item_entry(kind, id)?;
        Ok(self.items[p].now)
    }
    #[inline]
    fn put_item(&mut self, kind: usize, id: u64, item: Item) -> Result<(), Abort> {
        self.set_item(kind, id, Some(item))
    }
    #[inline]
    fn remove_item(&mut self, kind: usize, id: u64) -> Result<(), Abort> {
        self.set_item(kind, id, None)
    }
    #[inline]
    fn customer(&mut self, id: u64) -> Result<Option<&[Booking]>, Abort> {
        Ok(self.list(id)?.map(|l| l.as_slice()))
    }
    #[inline]
    fn append(&mut self, id: u64, new: &[Booking]) -> Result<(), Abort> {
        self.list(id)?;
        assert!(self.plan == Plan::Keep);
        self.plan = Plan::Append;
        self.new.extend_from_slice(new);
        Ok(())
    }
    #[inline]
    fn take_customer(&mut self, id: u64) -> Result<Option<Vec<Booking>>, Abort> {
        assert!(self.plan == Plan::Keep);
        let list = self.list(id)?.map(|l| l.to_vec());
        if list.is_some() {
            self.plan = Plan::Remove;
        }
        Ok(list)
    }
}

static STRIPES: AtomicUsize = AtomicUsize::new(0);

impl Peer for Table {
    fn open(opening: &[(usize, u64, Item)]) -> Self {
        let n = STRIPES.load(Relaxed);
        let mut t = Table {
            clock: Far(AtomicU64::new(0)),
            items: (0..3 * n).map(|_| Stripe::new()).collect(),
            customers: (0..n).map(|_| Stripe::new()).collect(),
            stripes: n as u64,
        };
        for (kind, id, item) in opening {
            let stripe = t.item_stripe(*kind, *id);
            t.items[stripe].map.get_mut().push((*id, *item));
        }
        t
    }
    fn work(&self, sessions: &Sessions, audit: bool) -> Counts {
        attempts(&mut Tx::new(self), sessions, audit, true)
    }
    fn last(self) -> Final {
        let mut f = Final::default();
        for (i, s) in self.items.into_iter().enumerate() {
            f.items[i / self.stripes as usize].extend(s.into_free());
        }
        for (id, list) in self.customers.into_iter().flat_map(Stripe::into_free) {
            f.customers.insert(id, list.to_vec());
        }
        f
    }
}

fn main() {
    let a = Args::parse();
    let o = Options::read(&a, &["stripes"]);
    let n = a.stripes(4096);
    STRIPES.store(n, Relaxed);
    drive::<Table>(&format!("tl2s-{n}"), &o);
}
