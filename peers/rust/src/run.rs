//! Drawn sessions in threads: the time of the run alone, the checks of what it leaves, and one line about both.

use crate::actions::{act, mix, Store};
use crate::options::Options;
use crate::sessions::{opening, Item, Sessions};
use crate::tables::{Final, Fx, Plain};
use crate::tl2::{wait, Abort};
use std::sync::Barrier;
use std::time::Instant;

/// What one thread counts.
#[derive(Default)]
pub struct Counts {
    pub replies: u64,
    /// By `Abort`.
    pub aborts: [u64; 5],
    /// The most attempts of one session.
    pub tries: u64,
    /// Sessions with more than 1,000 attempts, which `bench` would count as missed.
    pub over: u64,
    pub log: Vec<Logged>,
}

/// Of a session, for `--audit`: its place in the serial order, where a reader comes after the writer of the same number.
pub struct Logged {
    pub number: u64,
    pub reader: bool,
    pub reply: u64,
    pub session: usize,
}

pub trait Peer: Sync + Sized {
    fn open(opening: &[(usize, u64, Item)]) -> Self;
    /// Runs all sessions of one thread.
    fn work(&self, sessions: &Sessions, audit: bool) -> Counts;
    fn last(self) -> Final;
}

/// A transaction that is used again and again.
pub trait Transaction: Store<Err = Abort> {
    fn begin(&mut self);
    /// The number of the commit, and whether it only read.
    fn commit(&mut self) -> Result<(u64, bool), Abort>;
}

/// Runs all sessions of one thread, each attempted until it commits.
pub fn attempts<T: Transaction>(tx: &mut T, sessions: &Sessions, audit: bool, waits: bool) -> Counts {
    let mut c = Counts::default();
    for session in 0..sessions.count() {
        let action = sessions.get(session);
        let mut tries = 1;
        let reply = loop {
            tx.begin();
            match act(tx, action).and_then(|reply| Ok((reply, tx.commit()?))) {
                Ok((reply, (number, reader))) => {
                    if audit {
                        c.log.push(Logged { number, reader, reply, session });
                    }
                    break reply;
                }
                Err(abort) => c.aborts[abort as usize] += 1,
            }
            if waits {
                wait(tries);
            }
            tries += 1;
        };
        c.tries = c.tries.max(tries);
        c.over += u64::from(tries > 1000);
        c.replies = c.replies.wrapping_add(reply);
    }
    c
}

/// What of n the thread w of so many makes.
pub fn share(n: u64, clients: u64, w: u64) -> u64 {
    n / clients + u64::from(w < n % clients)
}

/// Nanoseconds that this thread was ready to run and had no core.
fn run_delay() -> u64 {
    let text = std::fs::read_to_string("/proc/thread-self/schedstat").unwrap_or_default();
    text.split(' ').nth(1).and_then(|x| x.parse().ok()).unwrap_or(0)
}

/// Seconds, and seconds that the threads together were kept waiting for a core.
#[derive(Default)]
pub struct Took {
    pub wall: f64,
    delay: f64,
}

impl Took {
    /// The share of the threads' time that other work took from them.
    pub fn waited(&self, clients: u64) -> f64 {
        self.delay / (self.wall * clients as f64)
    }
}

/// Runs `f(w)` in as many threads; their time is from the first start to the last end.
pub fn in_threads<T: Send, F: Fn(u64) -> T + Sync>(clients: u64, f: F) -> (Took, Vec<T>) {
    let gate = &Barrier::new(clients as usize);
    let f = &f;
    let timed = |w| {
        gate.wait();
        let delay = run_delay();
        let start = Instant::now();
        let answer = f(w);
        let end = Instant::now();
        (start, end, run_delay().saturating_sub(delay), answer)
    };
    let timed = &timed;
    let done: Vec<_> = std::thread::scope(|s| {
        let threads: Vec<_> = (0..clients).map(|w| s.spawn(move || timed(w))).collect();
        threads.into_iter().map(|t| t.join().unwrap()).collect()
    });
    let start = done.iter().map(|d| d.0).min().unwrap();
    let end = done.iter().map(|d| d.1).max().unwrap();
    let delay = done.iter().map(|d| d.2).sum::<u64>() as f64 / 1e9;
    let wall = (end - start).as_secs_f64();
    (Took { wall, delay }, done.into_iter().map(|d| d.3).collect())
}

/// Whether the sessions one after another in their serial order have these replies and leave these tables.
fn audited(open: &[(usize, u64, Item)], lists: &[Sessions], counts: &[Counts], last: &Final) -> bool {
    let mut log: Vec<(usize, &Logged)> = Vec::new();
    for (w, c) in counts.iter().enumerate() {
        log.extend(c.log.iter().map(|entry| (w, entry)));
    }
    log.sort_by_key(|(_, entry)| (entry.number, entry.reader));
    let mut plain: Plain<Fx> = Plain::open(open);
    let mut same = log.len() == lists.iter().map(|l| l.count()).sum::<usize>();
    for (w, entry) in log {
        let Ok(reply) = act(&mut plain, lists[w].get(entry.session));
        same &= reply == entry.reply;
    }
    same && plain.last() == *last
}

/// All runs together.
#[derive(Default)]
struct Sum {
    took: Took,
    counts: Counts,
    digest: u64,
    unbalanced: bool,
    fault: bool,
}

impl Sum {
    fn add<P: Peer>(&mut self, seed: u64, o: &Options) {
        let open = opening(seed, o);
        let peer = P::open(&open);
        let lists: Vec<Sessions> = (0..o.clients)
            .map(|w| Sessions::draw(seed, w + 1, share(o.transactions, o.clients, w), o))
            .collect();
        let (took, counts) = in_threads(o.clients, |w| peer.work(&lists[w as usize], o.audit));
        self.took.wall += took.wall;
        self.took.delay += took.delay;
        let all = &mut self.counts;
        for c in &counts {
            all.replies = all.replies.wrapping_add(c.replies);
            for (sum, n) in all.aborts.iter_mut().zip(c.aborts) {
                *sum += n;
            }
            all.tries = all.tries.max(c.tries);
            all.over += c.over;
        }
        let last = peer.last();
        self.unbalanced |= !last.balanced();
        self.digest = mix(self.digest, last.digest());
        self.fault |= o.audit && !audited(&open, &lists, &counts, &last);
    }

    fn print(&self, name: &str, o: &Options) {
        let Sum { took, counts: c, .. } = self;
        let sessions = o.transactions * o.repeat;
        let rate = sessions as f64 / took.wall;
        let [moved, busy, stale, gate_busy, invalid] = c.aborts;
        let balanced = if self.unbalanced { "NO" } else { "yes" };
        let audit = match (o.audit, self.fault) {
            (false, _) => "none",
            (_, true) => "FAULT",
            _ => "ok",
        };
        println!(
            "peer={name} clients={} sessions={sessions} wall={:.6} rate={rate:.0} waited={:.2} aborts={} \
             maxtries={} over1000={} moved={moved} busy={busy} stale={stale} gatebusy={gate_busy} \
             invalid={invalid} balanced={balanced} audit={audit} replies={:016x} digest={:016x}",
            o.clients,
            took.wall,
            took.waited(o.clients),
            c.aborts.iter().sum::<u64>(),
            c.tries,
            c.over,
            c.replies,
            self.digest,
        );
    }
}

/// Runs as often as `--repeat` says, each time on fresh tables and with the next seed. A fault ends with status 3.
pub fn drive<P: Peer>(name: &str, o: &Options) {
    let mut sum = Sum::default();
    for k in 0..o.repeat {
        sum.add::<P>(o.seed.wrapping_add(k), o);
    }
    sum.print(name, o);
    if sum.unbalanced || sum.fault {
        std::process::exit(3);
    }
}
