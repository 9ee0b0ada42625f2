//! Transactions on words by TL2; a location in a set isn't loaded again.
//! The next attempt follows at once, or with `--wait` after a pause.

use peers::tl2::*;
use peers::words::{run, WordCounts, WordOptions, Words};
use peers::Generator;
use std::sync::atomic::Ordering::Relaxed;

struct Table(Core<Loc>);

impl Words for Table {
    fn new(words: u64) -> Self {
        Table(Core::new(words as usize))
    }
    fn work(&self, o: &WordOptions, g: &mut Generator, count: u64) -> WordCounts {
        let mut c = WordCounts::default();
        let mut places = vec![0u32; o.reads as usize];
        let mut tx = Sets::default();
        for _ in 0..count {
            o.draw(g, &mut places);
            let mut tries = 1;
            let sum = loop {
                if let Ok(sum) = once(&self.0, &mut tx, &places, o.writes as usize) {
                    break sum;
                }
                c.aborts += 1;
                if o.wait {
                    wait(tries);
                }
                tries += 1;
            };
            c.seen = c.seen.wrapping_add(sum);
            c.tries = c.tries.max(tries);
        }
        c
    }
    fn sum(self) -> u64 {
        assert!(self.0.locs.iter().all(|l| l.lock.load(Relaxed) & 1 == 0));
        self.0.locs.iter().map(|l| l.value.load(Relaxed)).sum()
    }
}

#[inline]
fn once(core: &Core<Loc>, tx: &mut Sets, places: &[u32], writes: usize) -> Result<u64, Abort> {
    tx.begin(core);
    let mut sum = 0u64;
    for (i, place) in places.iter().enumerate() {
        let v = tx.read(core, *place)?;
        sum = sum.wrapping_add(v);
        if i < writes {
            tx.write(*place, v + 1);
        }
    }
    tx.commit(core)?;
    Ok(sum)
}

fn main() {
    run::<Table>("tl2", &["wait"]);
}
