//! Wolimevar's own design, written by hand, fast and not verified: TL2, and hash tables boosted on it. Each table is one collection with
//! a gate, which is tried 64 times, and an edition for each stripe, which is the value of the stripe's location. A transaction keeps
//! entries of its own, copied under the gate, and puts the changed ones back once it has its locks and the gates.
//! `--stripes` says how many a table has, 64 where it is left out. The next attempt follows at once, or with `--wait` after a pause.

use peers::tl2::*;
use peers::{attempts, drive, Args, Booking, Counts, Final, Fx, Item, Options, Peer, Sessions, Store, Transaction};
use std::cell::UnsafeCell;
use std::collections::HashMap;
use std::sync::atomic::{AtomicBool, AtomicUsize, Ordering::*};

const GATE_TRIES: usize = 64;
const CUSTOMERS: usize = 3;

trait Value {
    fn copy(&self) -> Self;
}
impl Value for Item {
    #[inline(always)]
    fn copy(&self) -> Self {
        *self
    }
}
impl Value for Vec<Booking> {
    /// A copy that has room for what a session may append.
    #[inline]
    fn copy(&self) -> Self {
        let mut v = Vec::with_capacity(self.len() + 3);
        v.extend_from_slice(self);
        v
    }
}

struct Base<V> {
    map: HashMap<u64, V, Fx>,
    editions: Vec<u64>,
}

struct Collection<V> {
    gate: Far<AtomicBool>,
    base: Far<UnsafeCell<Base<V>>>,
    /// The location of its first stripe, and how many it has, a power of two.
    first: u64,
    stripes: u64,
}

unsafe impl<V: Send> Sync for Collection<V> {}

impl<V> Collection<V> {
    fn new(place: usize, stripes: usize) -> Self {
        let base = Base { map: HashMap::default(), editions: vec![0; stripes] };
        Collection {
            gate: Far(AtomicBool::new(false)),
            base: Far(UnsafeCell::new(base)),
            first: (place * stripes) as u64,
            stripes: stripes as u64,
        }
    }
    #[inline(always)]
    fn stripe(&self, key: u64) -> u64 {
        key & (self.stripes - 1)
    }
    #[inline(always)]
    fn location(&self, key: u64) -> u32 {
        (self.first + self.stripe(key)) as u32
    }
    #[inline(always)]
    fn take(&self) -> Result<(), Abort> {
        for _ in 0..GATE_TRIES {
            if self.gate.0.compare_exchange(false, true, Acquire, Relaxed).is_ok() {
                return Ok(());
            }
            std::hint::spin_loop();
        }
        Err(Abort::GateBusy)
    }
    #[inline(always)]
    fn release(&self) {
        self.gate.0.store(false, Release);
    }
    /// Each location is free and has its base's edition.
    fn check_editions(&self, core: &Core<WideLoc>) {
        let base = unsafe { &*self.base.0.get() };
        for (i, edition) in base.editions.iter().enumerate() {
            let l = core.at(self.first as u32 + i as u32);
            assert!(l.lock.load(Acquire) & 1 == 0 && l.value.load(Acquire) == *edition);
        }
    }
}

struct Entry<V> {
    key: u64,
    edition: u64,
    now: Option<V>,
    changed: bool,
}

/// What a transaction has touched of a collection.
struct Memo<V> {
    entries: Vec<Entry<V>>,
    index: Index,
    changed: bool,
}

impl<V> Default for Memo<V> {
    fn default() -> Self {
        Memo { entries: Vec::new(), index: Index::default(), changed: false }
    }
}

impl<V: Value> Memo<V> {
    fn clear(&mut self) {
        self.entries.clear();
        self.index.clear();
        self.changed = false;
    }
    /// The key's entry: copied under the gate at the first call, then its location read and the editions compared.
    #[inline]
    fn touch(
        &mut self,
        sets: &mut Sets,
        core: &Core<WideLoc>,
        c: &Collection<V>,
        key: u64,
    ) -> Result<usize, Abort> {
        if let Some(p) = self.index.find(key) {
            return Ok(p);
        }
        c.take()?;
        let base = unsafe { &*c.base.0.get() };
        let now = base.map.get(&key).map(V::copy);
        let edition = base.editions[c.stripe(key) as usize];
        c.release();
        if sets.first_read(core, c.location(key))? != edition {
            return Err(Abort::Stale);
        }
        let p = self.entries.len();
        self.index.insert(key, p);
        self.entries.push(Entry { key, edition, now, changed: false });
        Ok(p)
    }
    #[inline]
    fn change(&mut self, sets: &mut Sets, c: &Collection<V>, p: usize) {
        let e = &mut self.entries[p];
        self.changed = true;
        if !e.changed {
            e.changed = true;
            sets.write(c.location(e.key), e.edition + 1);
        }
    }
    /// Puts the changed entries back, and raises the editions of their stripes by one. The gate is held, and is released.
    #[inline]
    fn replay(&mut self, c: &Collection<V>) {
        let base = unsafe { &mut *c.base.0.get() };
        for e in self.entries.iter_mut().filter(|e| e.changed) {
            base.editions[c.stripe(e.key) as usize] = e.edition + 1;
            match e.now.take() {
                Some(v) => base.map.insert(e.key, v),
                None => base.map.remove(&e.key),
            };
        }
        c.release();
    }
}

struct Table {
    core: Core<WideLoc>,
    items: [Collection<Item>; 3],
    customers: Collection<Vec<Booking>>,
}

struct Tx<'a> {
    table: &'a Table,
    sets: Sets,
    items: [Memo<Item>; 3],
    customers: Memo<Vec<Booking>>,
}

impl<'a> Tx<'a> {
    fn new(table: &'a Table) -> Self {
        let (items, customers) = Default::default();
        Tx { table, sets: Sets::default(), items, customers }
    }
    #[inline(always)]
    fn item_entry(&mut self, kind: usize, id: u64) -> Result<usize, Abort> {
        let t = self.table;
        self.items[kind].touch(&mut self.sets, &t.core, &t.items[kind], id)
    }
    #[inline(always)]
    fn customer_entry(&mut self, id: u64) -> Result<usize, Abort> {
        let t = self.table;
        self.customers.touch(&mut self.sets, &t.core, &t.customers, id)
    }
    #[inline(always)]
    fn set_item(&mut self, kind: usize, id: u64, now: Option<Item>) -> Result<(), Abort> {
        let p = self.item_entry(kind, id)?;
        self.items[kind].entries[p].now = now;
        self.items[kind].change(&mut self.sets, &self.table.items[kind], p);
        Ok(())
    }
    /// Which collections the transaction changes.
    #[inline(always)]
    fn changed(&self) -> [bool; 4] {
        let [cars, flights, rooms] = &self.items;
        [cars.changed, flights.changed, rooms.changed, self.customers.changed]
    }
    /// Takes the gates of all that is changed, or none.
    #[inline]
    fn take_gates(&self, changed: [bool; 4]) -> Result<(), Abort> {
        let t = self.table;
        for c in 0..4 {
            if !changed[c] {
                continue;
            }
            let taken = if c == CUSTOMERS { t.customers.take() } else { t.items[c].take() };
            if taken.is_err() {
                for k in (0..c).filter(|k| changed[*k]) {
                    t.items[k].release();
                }
                return taken;
            }
        }
        Ok(())
    }
}

impl Transaction for Tx<'_> {
    #[inline]
    fn begin(&mut self) {
        for m in &mut self.items {
            m.clear();
        }
        self.customers.clear();
        self.sets.begin(&self.table.core);
    }
    #[inline]
    fn commit(&mut self) -> Result<(u64, bool), Abort> {
        let t = self.table;
        if self.sets.only_reads() {
            t.core.clock.0.load(Acquire);
            return Ok((self.sets.rv, true));
        }
        let wv = self.sets.lock(&t.core)?;
        let changed = self.changed();
        if let Err(abort) = self.take_gates(changed) {
            self.sets.give_back_all(&t.core);
            return Err(abort);
        }
        self.sets.store(&t.core);
        for k in (0..3).filter(|k| changed[*k]) {
            self.items[k].replay(&t.items[k]);
        }
        if changed[CUSTOMERS] {
            self.customers.replay(&t.customers);
        }
        self.sets.release(&t.core, wv);
        Ok((wv, false))
    }
}

impl Store for Tx<'_> {
    type Err = Abort;
    #[inline]
    fn item(&mut self, kind: usize, id: u64) -> Result<Option<Item>, Abort> {
        let p = self.item_entry(kind, id)?;
        Ok(self.items[kind].entries[p].now)
    }
    #[inline]
    fn put_item(&mut self, kind: usize, id: u64, item: Item) -> Result<(), Abort> {
        self.set_item(kind, id, Some(item))
    }
    #[inline]
    fn remove_item(&mut self, kind: usize, id: u64) -> Result<(), Abort> {
        self.set_item(kind, id, None)
    }
    #[inline]
    fn customer(&mut self, id: u64) -> Result<Option<&[Booking]>, Abort> {
        let p = self.customer_entry(id)?;
        Ok(self.customers.entries[p].now.as_deref())
    }
    #[inline]
    fn append(&mut self, id: u64, new: &[Booking]) -> Result<(), Abort> {
        let p = self.customer_entry(id)?;
        self.customers.entries[p].now.get_or_insert_with(Vec::new).extend_from_slice(new);
        self.customers.change(&mut self.sets, &self.table.customers, p);
        Ok(())
    }
    #[inline]
    fn take_customer(&mut self, id: u64) -> Result<Option<Vec<Booking>>, Abort> {
        let p = self.customer_entry(id)?;
        let list = self.customers.entries[p].now.take();
        if list.is_some() {
            self.customers.change(&mut self.sets, &self.table.customers, p);
        }
        Ok(list)
    }
}

static STRIPES: AtomicUsize = AtomicUsize::new(0);
static WAITS: AtomicBool = AtomicBool::new(false);

impl Peer for Table {
    fn open(opening: &[(usize, u64, Item)]) -> Self {
        let n = STRIPES.load(Relaxed);
        let mut t = Table {
            core: Core::new(4 * n),
            items: [0, 1, 2].map(|kind| Collection::new(kind, n)),
            customers: Collection::new(CUSTOMERS, n),
        };
        for (kind, id, item) in opening {
            t.items[*kind].base.0.get_mut().map.insert(*id, *item);
        }
        t
    }
    fn work(&self, sessions: &Sessions, audit: bool) -> Counts {
        attempts(&mut Tx::new(self), sessions, audit, WAITS.load(Relaxed))
    }
    fn last(self) -> Final {
        self.items.iter().for_each(|c| c.check_editions(&self.core));
        self.customers.check_editions(&self.core);
        Final {
            items: self.items.map(|c| c.base.0.into_inner().map.into_iter().collect()),
            customers: self.customers.base.0.into_inner().map.into_iter().collect(),
        }
    }
}

fn main() {
    let a = Args::parse();
    let o = Options::read(&a, &["stripes", "wait"]);
    let (n, waits) = (a.stripes(64), a.flag("wait"));
    STRIPES.store(n, Relaxed);
    WAITS.store(waits, Relaxed);
    drive::<Table>(&format!("tl2g-{n}{}", if waits { "w" } else { "" }), &o);
}
