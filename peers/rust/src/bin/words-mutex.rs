//! Transactions on words under one Mutex.

use peers::words::{run, WordCounts, WordOptions, Words};
use peers::Generator;
use std::sync::Mutex;

struct Table(Mutex<Vec<u64>>);

impl Words for Table {
    fn new(words: u64) -> Self {
        Table(Mutex::new(vec![0; words as usize]))
    }
    fn work(&self, o: &WordOptions, g: &mut Generator, count: u64) -> WordCounts {
        let mut c = WordCounts { tries: 1, ..WordCounts::default() };
        let mut places = vec![0u32; o.reads as usize];
        for _ in 0..count {
            o.draw(g, &mut places);
            let mut sum = 0u64;
            let mut words = self.0.lock().unwrap();
            for (i, place) in places.iter().enumerate() {
                let word = &mut words[*place as usize];
                sum = sum.wrapping_add(*word);
                if i < o.writes as usize {
                    *word += 1;
                }
            }
            drop(words);
            c.seen = c.seen.wrapping_add(sum);
        }
        c
    }
    fn sum(self) -> u64 {
        self.0.into_inner().unwrap().iter().sum()
    }
}

fn main() {
    run::<Table>("mutex", &[]);
}
