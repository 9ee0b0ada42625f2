//! Actions on the reservation tables, in actions a second.
ghost use Rattle.std.specs.Prelude.{◌<◌, OnOk};
ghost use Rattle.vac_model.specs.Balanced.{IsBalanced};

use crate::clock::seconds_since;
use crate::form::Form;
use rand_core::{Rng, SeedableRng};
use rand_xoshiro::Xoshiro256PlusPlus;
use seq_model::{Items, Memory};
use std::alloc::Global;
use std::io;
use std::rt::Runtime;
use std::time::Instant;
use vac_model::{Action, ActionRefusal, Ask, Change, Kind, Tables};

/// How many actions are made before the clock is read, and how many are timed.
const ACTIONS: u64 = 200_000;

/// How many items a reservation asks for.
const ASKS: usize = 6;

pub const COLUMNS: &str = "items,thousand_a_second";

/// Prints how many actions a second are made with few items and with many.
pub fn measure(rt: &(impl Runtime + AllocGlobal), form: Form) -> io::Result<()> {
    report(rt, form, 100)?;
    report(rt, form, 10_000)
}

/// Of so many items of each kind, and as many customers.
fn report(rt: &(impl Runtime + AllocGlobal), form: Form, items: u64) -> io::Result<()>
    requires { 0 < items }
{
    let seconds = seconds_of(rt, items)?;
    let speed = ACTIONS as f64 / seconds / 1e3;
    match form {
        Form::Sentences => println!(rt;
            "{items} items a kind: {speed:.0} thousand actions a second"
        ),
        Form::Csv => println!(rt; "{items},{speed:.0}"),
    }
}

fn seconds_of(rt: &(impl Runtime + AllocGlobal), items: u64) -> io::Result<f64>
    requires { 0 < items }
{
    let mut tables = Tables::new(rt.alloc());
    let seconds = timed(rt, items, &mut tables);
    drop(tables);
    seconds
}

/// The time of the second half of the actions.
fn timed(rt: &(impl Runtime + AllocGlobal), items: u64, tables: &mut Tables) -> io::Result<f64>
    requires some { 0 < items }
    requires balanced { IsBalanced tables.old }
{
    let mut random = Xoshiro256PlusPlus::seed_from_u64(1);
    open(rt.alloc(), items, tables).map_err(refused)?;
    run(rt.alloc(), items, &mut random, tables).map_err(refused)?;
    let start = Instant::now(rt);
    run(rt.alloc(), items, &mut random, tables).map_err(refused)?;
    seconds_since(rt, start)
}

fn refused(_refusal: ActionRefusal) -> io::Error {
    io::Error::other("an action was refused")
}

/// Adds the items, each with ten units.
fn open(alloc: Global, items: u64, tables: &mut Tables) -> Result<(), ActionRefusal>
    requires { IsBalanced tables.old }
    ensures { OnOk result (IsBalanced tables.new) }
{
    for id in 0..items {
        let action = opening_of(alloc, id)?;
        tables.act(&action)?;
    }
    Ok(())
}

/// Adds the items of an id, one of each kind.
fn opening_of(alloc: Global, id: u64) -> Result<Action, Memory> {
    let mut changes = Items::new(alloc);
    changes.push(added(Kind::Car, id, 10, id))?;
    changes.push(added(Kind::Flight, id, 10, id))?;
    changes.push(added(Kind::Room, id, 10, id))?;
    Ok(Action::Update(changes))
}

/// So many units more of an item, at a price drawn.
fn added(kind: Kind, id: u64, units: u64, random: u64) -> Change {
    Change::Add(kind, id, units, 50 + random % 500)
}

fn run(
    alloc: Global,
    items: u64,
    random: &mut Xoshiro256PlusPlus,
    tables: &mut Tables,
) -> Result<(), ActionRefusal>
    requires some { 0 < items }
    requires balanced { IsBalanced tables.old }
    ensures { OnOk result (IsBalanced tables.new) }
{
    for _ in 0..ACTIONS {
        let action = drawn(alloc, items, random)?;
        tables.act(&action)?;
    }
    Ok(())
}

// Of a hundred actions about eighty are reservations, ten deletions and ten updates, which set a price: so with few items and with many
// as many units are there for each customer, and the answers are of one mix.
fn drawn(alloc: Global, items: u64, random: &mut Xoshiro256PlusPlus) -> Result<Action, Memory>
    requires { 0 < items }
{
    let customer = random.next_u64() % items;
    match random.next_u64() % 100 {
        0..=79 => Ok(Action::Reserve(customer, 1, asks(alloc, items, random)?)),
        80..=89 => Ok(Action::Delete(customer)),
        _ => {
            let mut changes = Items::new(alloc);
            let id = random.next_u64() % items;
            let kind = kind_of(random.next_u64());
            changes.push(added(kind, id, 0, random.next_u64()))?;
            Ok(Action::Update(changes))
        }
    }
}

fn kind_of(random: u64) -> Kind {
    match random % 3 {
        0 => Kind::Car,
        1 => Kind::Flight,
        _ => Kind::Room,
    }
}

fn asks(alloc: Global, items: u64, random: &mut Xoshiro256PlusPlus) -> Result<Items<Ask>, Memory>
    requires { 0 < items }
{
    let mut asks = Items::new(alloc);
    for _ in 0..ASKS {
        let kind = kind_of(random.next_u64());
        let id = random.next_u64() % items;
        asks.push(Ask { kind, id })?;
    }
    Ok(asks)
}
