//! One Mutex round four hash tables of std: what is written first where there are no transactions.

use peers::{act, drive, Args, Counts, Final, Item, Logged, Options, Peer, Plain, Sessions};
use std::collections::hash_map::RandomState;
use std::sync::Mutex;

/// The tables, and how many sessions they have served.
struct Global(Mutex<(Plain<RandomState>, u64)>);

impl Peer for Global {
    fn open(opening: &[(usize, u64, Item)]) -> Self {
        Global(Mutex::new((Plain::open(opening), 0)))
    }
    fn work(&self, sessions: &Sessions, audit: bool) -> Counts {
        let mut c = Counts { tries: 1, ..Counts::default() };
        for session in 0..sessions.count() {
            let action = sessions.get(session);
            let mut tables = self.0.lock().unwrap();
            let Ok(reply) = act(&mut tables.0, action);
            if audit {
                tables.1 += 1;
                c.log.push(Logged { number: tables.1, reader: false, reply, session });
            }
            drop(tables);
            c.replies = c.replies.wrapping_add(reply);
        }
        c
    }
    fn last(self) -> Final {
        self.0.into_inner().unwrap().0.last()
    }
}

fn main() {
    drive::<Global>("mutex", &Options::read(&Args::parse(), &[]));
}
