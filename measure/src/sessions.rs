//! The sessions that are run.
ghost use Rattle.text_formats.specs.Options.{AreWithin};

use seq_model::Memory;
use std::alloc::Global;
use std::io;
use text_formats::{Options, generate};
use vac_model::Action;

/// What a first round is drawn from.
pub const SEED: u64 = 1;

/// The stripes of each collection, as many as the program has.
pub const STRIPES: u32 = 64;

/// How many queries a session has, how many percent of the ids are named, and how many percent of the sessions are reservations.
#[derive(Clone, Copy)]
pub enum Mix {
    /// Few conflicts, like STAMP's `vacation-low`: 2, 90 and 98.
    Low,
    /// More of them, like its `vacation-high`: 4, 60 and 90.
    High,
    /// Long sessions: 10, 90 and 90.
    Long,
    /// Long sessions with more conflicts, which other transactional memories are measured at: 10, 60 and 90.
    LongHigh,
}

impl Mix {
    pub fn name(self) -> &'static str {
        match self {
            Mix::Low => "low contention",
            Mix::High => "high contention",
            Mix::Long => "long sessions",
            Mix::LongHigh => "long sessions, high contention",
        }
    }

    /// Its name in a column.
    pub fn column(self) -> &'static str {
        match self {
            Mix::Low => "low",
            Mix::High => "high",
            Mix::Long => "long",
            Mix::LongHigh => "long high",
        }
    }
}

/// So many sessions of so many clients.
pub fn options(mix: Mix, relations: u32, clients: u32, sessions: u32) -> Options {
    let (queries, percent_queried, percent_user) = match mix {
        Mix::Low => (2, 90, 98),
        Mix::High => (4, 60, 90),
        Mix::Long => (10, 90, 90),
        Mix::LongHigh => (10, 60, 90),
    };
    Options {
        clients,
        queries,
        percent_queried,
        relations,
        transactions: sessions,
        percent_user,
    }
}

/// The sessions of each client.
pub fn lists_of(alloc: Global, seed: u64, options: &Options) -> Result<Vec<Vec<Action>>, Memory>
    requires { AreWithin options.now }
{
    let mut lists = Vec::new(alloc);
    for worker in 1..=options.clients {
        lists.push(generate(alloc, seed, u64::from(worker), options)?)?;
    }
    Ok(lists)
}

pub fn memory(_memory: Memory) -> io::Error {
    io::Error::from(io::ErrorKind::OutOfMemory)
}

pub fn no_such_sessions() -> io::Error {
    io::Error::other("there are no such sessions")
}
