//! Items, bookings, and sessions and opening tables, which are drawn in the order of docs/formats.md ("Drawn sessions").

use crate::Options;

/// PCG32 (XSH RR 64/32).
#[derive(Clone)]
pub struct Generator {
    state: u64,
    inc: u64,
}

impl Generator {
    pub fn new(seed: u64, stream: u64) -> Generator {
        let inc = (stream << 1) | 1;
        let mut g = Generator { state: seed.wrapping_add(inc), inc };
        g.step();
        g
    }
    #[inline]
    fn step(&mut self) {
        self.state = self.state.wrapping_mul(6364136223846793005).wrapping_add(self.inc);
    }
    #[inline]
    fn next(&mut self) -> u32 {
        let s = self.state;
        self.step();
        ((((s >> 18) ^ s) >> 27) as u32).rotate_right((s >> 59) as u32)
    }
    #[inline]
    pub fn below(&mut self, n: u64) -> u64 {
        (self.next() as u64 * n) >> 32
    }
}

/// Of a kind: 0 is car, 1 flight, 2 room.
#[derive(Clone, Copy, PartialEq, Eq)]
pub struct Item {
    pub total: u64,
    pub used: u64,
    pub free: u64,
    pub price: u64,
}

#[derive(Clone, Copy, PartialEq, Eq)]
pub struct Booking {
    pub id: u64,
    pub price: u32,
    pub kind: u8,
}

/// One ask of a reservation, or one change of an update.
#[derive(Clone, Copy)]
pub struct Arg {
    pub id: u64,
    pub kind: u8,
    pub add: bool,
    pub price: u32,
}

#[derive(Clone, Copy, PartialEq, Eq)]
pub enum What {
    Reserve,
    Delete,
    Update,
}

#[derive(Clone, Copy)]
struct Head {
    what: What,
    len: u16,
    customer: u64,
    start: u32,
}

#[derive(Default)]
pub struct Sessions {
    heads: Vec<Head>,
    args: Vec<Arg>,
}

#[derive(Clone, Copy)]
pub struct Action<'a> {
    pub what: What,
    pub customer: u64,
    pub args: &'a [Arg],
}

impl Sessions {
    #[inline]
    pub fn get(&self, i: usize) -> Action<'_> {
        let h = self.heads[i];
        let s = h.start as usize;
        Action { what: h.what, customer: h.customer, args: &self.args[s..s + h.len as usize] }
    }
    #[inline]
    pub fn count(&self) -> usize {
        self.heads.len()
    }

    pub fn draw(seed: u64, worker: u64, count: u64, o: &Options) -> Sessions {
        let mut g = Generator::new(seed, worker);
        let last = o.last_id();
        let mut s = Sessions::default();
        for _ in 0..count {
            let r = g.below(100);
            let start = s.args.len() as u32;
            let (what, customer) = if r < o.percent_user {
                let customer = 1 + g.below(last);
                s.args.extend((0..o.queries).map(|_| ask(&mut g, last)));
                (What::Reserve, customer)
            } else if r % 2 == 1 {
                (What::Delete, 1 + g.below(last))
            } else {
                s.args.extend((0..o.queries).map(|_| change(&mut g, last)));
                (What::Update, 0)
            };
            let len = (s.args.len() - start as usize) as u16;
            s.heads.push(Head { what, len, customer, start });
        }
        s
    }
}

fn ask(g: &mut Generator, last: u64) -> Arg {
    let kind = g.below(3) as u8;
    Arg { id: 1 + g.below(last), kind, add: false, price: 0 }
}

fn change(g: &mut Generator, last: u64) -> Arg {
    let kind = g.below(3) as u8;
    let id = 1 + g.below(last);
    let add = g.below(2) == 1;
    let price = if add { 50 + 10 * g.below(5) as u32 } else { 0 };
    Arg { id, kind, add, price }
}

/// Kind, id, item; by kind, then id.
pub fn opening(seed: u64, o: &Options) -> Vec<(usize, u64, Item)> {
    let mut g = Generator::new(seed, 0);
    let mut items = Vec::new();
    for kind in 0..3 {
        for id in 1..=o.relations {
            let total = 100 * (1 + g.below(5));
            let price = 50 + 10 * g.below(5);
            items.push((kind, id, Item { total, used: 0, free: total, price }));
        }
    }
    items
}
