//! Transactions on words: each draws some places, reads the word at each and adds one to the first few. At the end the sum is known.

use crate::{die, in_threads, share, Args, Generator};

pub struct WordOptions {
    threads: u64,
    words: u64,
    pub reads: u64,
    pub writes: u64,
    transactions: u64,
    seed: u64,
    pub wait: bool,
}

#[derive(Default)]
pub struct WordCounts {
    pub aborts: u64,
    /// The most attempts of one transaction.
    pub tries: u64,
    /// The sum of all that was read.
    pub seen: u64,
}

pub trait Words: Sync + Sized {
    fn new(words: u64) -> Self;
    fn work(&self, o: &WordOptions, g: &mut Generator, count: u64) -> WordCounts;
    fn sum(self) -> u64;
}

impl WordOptions {
    fn read(own: &[&str]) -> WordOptions {
        let a = Args::parse();
        a.only(&[&["threads", "words", "reads", "writes", "transactions", "seed"], own].concat());
        let o = WordOptions {
            threads: a.number("threads", 2),
            words: a.number("words", 65536),
            reads: a.number("reads", 10),
            writes: a.number("writes", 2),
            transactions: a.number("transactions", 1_000_000),
            seed: a.number("seed", 1),
            wait: a.flag("wait"),
        };
        let ok = (1..=64).contains(&o.threads)
            && (1..=1 << 24).contains(&o.words)
            && (1..=4096).contains(&o.reads)
            && o.writes <= o.reads
            && o.transactions >= 1;
        if !ok {
            die("an option is outside its range (writes is at most reads)");
        }
        o
    }
    #[inline(always)]
    pub fn draw(&self, g: &mut Generator, places: &mut [u32]) {
        for place in places {
            *place = g.below(self.words) as u32;
        }
    }
}

pub fn run<T: Words>(name: &str, own: &[&str]) {
    let o = WordOptions::read(own);
    let table = T::new(o.words);
    let (took, counts) = in_threads(o.threads, |w| {
        let mut g = Generator::new(o.seed, w + 1);
        table.work(&o, &mut g, share(o.transactions, o.threads, w))
    });
    let right = table.sum() == o.transactions * o.writes;
    println!(
        "peer={name}{} threads={} words={} reads={} writes={} transactions={} wall={:.6} rate={:.0} \
         waited={:.2} aborts={} maxtries={} sum={} seen={}",
        if o.wait { "-w" } else { "" },
        o.threads,
        o.words,
        o.reads,
        o.writes,
        o.transactions,
        took.wall,
        o.transactions as f64 / took.wall,
        took.waited(o.threads),
        counts.iter().map(|c| c.aborts).sum::<u64>(),
        counts.iter().map(|c| c.tries).max().unwrap_or(0),
        if right { "ok" } else { "WRONG" },
        counts.iter().fold(0u64, |sum, c| sum.wrapping_add(c.seen)),
    );
    if !right {
        std::process::exit(3);
    }
}
