//! Puts into sets of a transaction and finds in them, in nanoseconds a call.
ghost use Rattle.std.specs.Prelude.{◌<◌, ◌≤◌};

use crate::form::Form;
use rand::seq::SliceRandom;
use rand_core::SeedableRng;
use rand_xoshiro::Xoshiro256PlusPlus;
use std::alloc::{AllocError, Global};
use std::io;
use std::rt::Runtime;
use std::time::{Duration, Instant};
use tx_sets::{ReadSet, SetRefusal};

/// All locations. They go into sets of one size, in one order, so that each set has its own.
const LOCATIONS: u32 = 8192;

/// The stride of one order: collections of 256 stripes have the stripe of one key so far apart.
const APART: u32 = 256;

/// How often each location is put and found.
const ROUNDS: u32 = 1000;

pub const COLUMNS: &str = "locations,order,nanoseconds_a_put,nanoseconds_a_find";

/// Prints the times at few locations a set and at as many as it may have, rising, rising at equal distances, and in random order.
pub fn measure(rt: &(impl Runtime + AllocGlobal), form: Form) -> io::Result<()> {
    let apart = all_locations(rt.alloc(), APART)?;
    report_both(rt, form, "256 apart", apart.as_slice())?;
    let mut locations = all_locations(rt.alloc(), 1)?;
    report_both(rt, form, "rising", locations.as_slice())?;
    locations.shuffle(&mut Xoshiro256PlusPlus::seed_from_u64(1));
    report_both(rt, form, "random", locations.as_slice())
}

fn report_both(
    rt: &(impl Runtime + AllocGlobal),
    form: Form,
    order: &str,
    locations: &[u32],
) -> io::Result<()> {
    report(rt, form, order, 10, locations)?;
    report(rt, form, order, 4096, locations)
}

fn all_locations(alloc: Global, distance: u32) -> Result<Vec<u32>, AllocError>
    requires { distance ≤ APART }
{
    let mut locations = Vec::new(alloc);
    for location in 0..LOCATIONS {
        locations.push(location * distance)?;
    }
    Ok(locations)
}

fn report(
    rt: &(impl Runtime + AllocGlobal),
    form: Form,
    order: &str,
    size: usize,
    locations: &[u32],
) -> io::Result<()>
    requires { 0 < size }
{
    let put = nanos_a_call(time_puts(rt, size, locations)?);
    let find = nanos_a_call(time_finds(rt, size, locations)?);
    match form {
        Form::Sentences => {
            println!(rt; "{size} locations, {order}: {put:.1} ns a put, {find:.1} ns a find")
        }
        Form::Csv => println!(rt; "{size},{order},{put:.1},{find:.1}"),
    }
}

fn nanos_a_call(time: Duration) -> f64 {
    time.as_secs_f64() * 1e9 / f64::from(LOCATIONS) / f64::from(ROUNDS)
}

fn refused(_refusal: SetRefusal) -> io::Error {
    io::Error::other("a set has no room")
}

fn time_puts(
    rt: &(impl Runtime + AllocGlobal),
    size: usize,
    locations: &[u32],
) -> io::Result<Duration>
    requires { 0 < size }
{
    let mut set = ReadSet::new(rt.alloc());
    set.reserve(size).map_err(refused)?;
    let start = Instant::now(rt)?;
    put_rounds(&mut set, size, locations).map_err(refused)?;
    start.elapsed(rt)
}

fn put_rounds(set: &mut ReadSet, size: usize, locations: &[u32]) -> Result<(), SetRefusal>
    requires { 0 < size }
{
    for _ in 0..ROUNDS {
        for chunk in locations.chunks(size) {
            set.clear();
            put_all(set, chunk)?;
        }
    }
    Ok(())
}

fn put_all(set: &mut ReadSet, locations: &[u32]) -> Result<(), SetRefusal> {
    for location in locations {
        set.put(*location, 1)?;
    }
    Ok(())
}

fn time_finds(
    rt: &(impl Runtime + AllocGlobal),
    size: usize,
    locations: &[u32],
) -> io::Result<Duration>
    requires { 0 < size }
{
    let sets = sets_of(rt.alloc(), size, locations).map_err(refused)?;
    let start = Instant::now(rt)?;
    let found = find_rounds(sets.as_slice(), size, locations);
    let time = start.elapsed(rt)?;
    if found {
        Ok(time)
    } else {
        Err(io::Error::other("not all locations were found"))
    }
}

fn sets_of(alloc: Global, size: usize, locations: &[u32]) -> Result<Vec<ReadSet>, SetRefusal>
    requires { 0 < size }
{
    let mut sets = Vec::new(alloc);
    for chunk in locations.chunks(size) {
        let mut set = ReadSet::new(alloc);
        put_all(&mut set, chunk)?;
        sets.push(set)?;
    }
    Ok(sets)
}

fn find_rounds(sets: &[ReadSet], size: usize, locations: &[u32]) -> bool
    requires { 0 < size }
{
    let mut found = true;
    for _ in 0..ROUNDS {
        for (set, chunk) in sets.iter().zip(locations.chunks(size)) {
            found &= finds_all(set, chunk);
        }
    }
    found
}

fn finds_all(set: &ReadSet, locations: &[u32]) -> bool {
    let mut found = true;
    for location in locations {
        found &= set.find(*location).is_some();
    }
    found
}
