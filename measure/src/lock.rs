//! The same sessions on tables under one lock.
ghost use Rattle.text_formats.specs.Options.{AreWithin};
ghost use Rattle.vac_model.specs.Balanced.{IsBalanced};

use crate::clock::seconds_since;
use crate::sessions::{lists_of, memory, no_such_sessions};
use std::io;
use std::rt::Runtime;
use std::sync::{Mutex, Wait};
use std::thread::{Threads, map_indices};
use std::time::Instant;
use text_formats::{Options, opening};
use vac_model::{Action, Tables};

/// Tables that are balanced whenever their lock is taken.
#[derive(Drop)]
struct Balanced {
    tables: Tables,
    ghost balanced: { IsBalanced tables },
}

impl Balanced {
    fn act(&mut self, action: &Action) -> bool {
        self.tables.act(action).is_ok()
    }
}

/// The seconds that the sessions take.
pub fn time<R: Runtime + AllocGlobal + Threads + Wait + Sync>(
    rt: &R,
    options: &Options,
    seed: u64,
) -> io::Result<f64> {
    if options.are_within() {
        drawn(rt, options, seed)
    } else {
        Err(no_such_sessions())
    }
}

fn drawn<R: Runtime + AllocGlobal + Threads + Wait + Sync>(
    rt: &R,
    options: &Options,
    seed: u64,
) -> io::Result<f64>
    requires { AreWithin options.now }
{
    let lists = lists_of(rt.alloc(), seed, options).map_err(memory)?;
    opened(rt, options, seed, lists.as_slice())
}

fn opened<R: Runtime + AllocGlobal + Threads + Wait + Sync>(
    rt: &R,
    options: &Options,
    seed: u64,
    lists: &[Vec<Action>],
) -> io::Result<f64>
    requires { AreWithin options.now }
{
    let tables = opening(rt.alloc(), seed, options).map_err(memory)?;
    act_all(rt, &Mutex::new(Balanced { tables }), lists)
}

fn act_all<R: Runtime + AllocGlobal + Threads + Wait + Sync>(
    rt: &R,
    tables: &Mutex<Balanced>,
    lists: &[Vec<Action>],
) -> io::Result<f64> {
    let start = Instant::now(rt);
    let allowed = map_indices(
        rt,
        rt.alloc(),
        lists.len(),
        &|client| {
            match lists.get(client) {
                Some(list) => act_each(rt, tables, list.as_slice()),
                None => false,
            }
        },
    )?;
    let seconds = seconds_since(rt, start);
    if allowed.as_slice().contains(&false) {
        return Err(io::Error::other("an action was refused"));
    }
    seconds
}

/// Whether none of the actions is refused.
fn act_each<R: Wait>(rt: &R, tables: &Mutex<Balanced>, list: &[Action]) -> bool {
    let mut allowed = true;
    for action in list {
        allowed &= tables.lock(rt).act(action);
    }
    allowed
}
