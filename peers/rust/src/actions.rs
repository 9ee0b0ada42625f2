//! What a session does, whatever keeps it apart from others. Its reply is folded into one number.

use crate::sessions::{Action, Arg, Booking, Item, What};

pub const BOOKINGS_LIMIT: usize = 1000;
pub const NUMBER_LIMIT: u64 = 4_294_967_295;
const FLIGHT: u8 = 1;
/// The units that an update adds or takes.
const CHANGED: u64 = 100;

/// What a session needs of the tables. An error ends the attempt.
pub trait Store {
    type Err;
    fn item(&mut self, kind: usize, id: u64) -> Result<Option<Item>, Self::Err>;
    fn put_item(&mut self, kind: usize, id: u64, item: Item) -> Result<(), Self::Err>;
    fn remove_item(&mut self, kind: usize, id: u64) -> Result<(), Self::Err>;
    fn customer(&mut self, id: u64) -> Result<Option<&[Booking]>, Self::Err>;
    /// Adds the customer if absent, then the bookings at the end of the list.
    fn append(&mut self, id: u64, new: &[Booking]) -> Result<(), Self::Err>;
    /// Removes the customer and hands out the list.
    fn take_customer(&mut self, id: u64) -> Result<Option<Vec<Booking>>, Self::Err>;
}

pub const EMPTY: u64 = 0xcbf29ce484222325;

/// A running hash (FNV) of a reply, or of tables.
#[inline]
pub fn mix(h: u64, x: u64) -> u64 {
    (h ^ x).wrapping_mul(0x100000001b3)
}

#[inline]
pub fn act<S: Store>(s: &mut S, a: Action<'_>) -> Result<u64, S::Err> {
    match a.what {
        What::Reserve => reserve(s, a.customer, a.args),
        What::Delete => delete(s, a.customer),
        What::Update => update(s, a.args),
    }
}

/// Of each kind the dearest item among those asked for, the first of equals.
type Dearest = [Option<(u64, Item)>; 3];

#[inline]
fn dearest<S: Store>(s: &mut S, asks: &[Arg]) -> Result<Dearest, S::Err> {
    let mut found: Dearest = [None; 3];
    for a in asks {
        let k = a.kind as usize;
        if let Some(item) = s.item(k, a.id)? {
            match found[k] {
                Some((_, other)) if other.price >= item.price => {}
                _ => found[k] = Some((a.id, item)),
            }
        }
    }
    Ok(found)
}

struct NewBookings {
    reply: u64,
    list: [Booking; 3],
    count: usize,
}

#[inline]
fn book(found: &Dearest, held: &[Booking]) -> NewBookings {
    let none = Booking { id: 0, price: 0, kind: 0 };
    let mut new = NewBookings { reply: EMPTY, list: [none; 3], count: 0 };
    for (k, entry) in found.iter().enumerate() {
        let Some((id, item)) = entry else {
            new.reply = mix(new.reply, 0);
            continue;
        };
        let refused = if held.iter().any(|b| b.id == *id && b.kind == k as u8) {
            Some(2)
        } else if item.free == 0 {
            Some(3)
        } else if held.len() + new.count >= BOOKINGS_LIMIT {
            Some(4)
        } else {
            None
        };
        new.reply = mix(mix(new.reply, refused.unwrap_or(1)), *id);
        if refused.is_none() {
            new.reply = mix(new.reply, item.price);
            new.list[new.count] = Booking { id: *id, price: item.price as u32, kind: k as u8 };
            new.count += 1;
        }
    }
    new
}

fn reserve<S: Store>(s: &mut S, customer: u64, asks: &[Arg]) -> Result<u64, S::Err> {
    let found = dearest(s, asks)?;
    if found.iter().all(|c| c.is_none()) {
        return Ok(mix(EMPTY, 9));
    }
    let held = s.customer(customer)?;
    let absent = held.is_none();
    let new = book(&found, held.unwrap_or(&[]));
    let list = &new.list[..new.count];
    for b in list {
        let k = b.kind as usize;
        if let Some((id, item)) = found[k] {
            s.put_item(k, id, Item { used: item.used + 1, free: item.free - 1, ..item })?;
        }
    }
    if absent || new.count > 0 {
        s.append(customer, list)?;
    }
    Ok(new.reply)
}

fn delete<S: Store>(s: &mut S, customer: u64) -> Result<u64, S::Err> {
    let Some(list) = s.take_customer(customer)? else { return Ok(mix(EMPTY, 5)) };
    let mut bill = 0u64;
    for b in &list {
        let k = b.kind as usize;
        let Some(item) = s.item(k, b.id)? else { panic!("a booked item is gone") };
        s.put_item(k, b.id, Item { used: item.used - 1, free: item.free + 1, ..item })?;
        bill += b.price as u64;
    }
    Ok(mix(mix(EMPTY, 6), bill))
}

enum Outcome {
    Refused,
    Put(Item),
    Removed,
}

#[inline]
fn outcome(change: &Arg, item: Option<Item>) -> Outcome {
    let (n, price) = (CHANGED, change.price as u64);
    match item {
        None if change.add => Outcome::Put(Item { total: n, used: 0, free: n, price }),
        None => Outcome::Refused,
        Some(it) if change.add && it.total + n > NUMBER_LIMIT => Outcome::Refused,
        Some(it) if change.add => {
            Outcome::Put(Item { total: it.total + n, free: it.free + n, price, ..it })
        }
        Some(it) if change.kind == FLIGHT && it.used > 0 => Outcome::Refused,
        Some(_) if change.kind == FLIGHT => Outcome::Removed,
        Some(it) if it.free < n => Outcome::Refused,
        Some(it) if it.total == n => Outcome::Removed,
        Some(it) => Outcome::Put(Item { total: it.total - n, free: it.free - n, ..it }),
    }
}

fn update<S: Store>(s: &mut S, changes: &[Arg]) -> Result<u64, S::Err> {
    let mut reply = EMPTY;
    for c in changes {
        let k = c.kind as usize;
        let item = s.item(k, c.id)?;
        let outcome = outcome(c, item);
        reply = mix(reply, if matches!(outcome, Outcome::Refused) { 8 } else { 7 });
        match outcome {
            Outcome::Refused => {}
            Outcome::Put(item) => s.put_item(k, c.id, item)?,
            Outcome::Removed => s.remove_item(k, c.id)?,
        }
    }
    Ok(reply)
}
