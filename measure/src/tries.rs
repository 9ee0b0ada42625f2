//! How often workers attempt their sessions.
use seq_model::{Memory, Refusal};
use std::alloc::Global;
use std::sync::atomic::{AtomicU64, Ordering};
use tx_engine::Pause;

/// Those of one worker.
#[derive(Drop)]
struct Count {
    tries: AtomicU64,
    /// So that no two workers write to one line of the cache.
    apart: [u64; 15],
}

/// The attempts of each worker. None is held.
#[derive(Drop)]
pub struct Tries {
    workers: Vec<Count>,
}

impl Tries {
    pub fn new(alloc: Global, count: usize) -> Result<Tries, Memory> {
        let mut workers = Vec::with_capacity(alloc, count)?;
        for _ in 0..count {
            workers.push(Count {
                tries: AtomicU64::new(0),
                apart: [0; 15],
            })?;
        }
        Ok(Tries { workers })
    }

    pub fn all(&self) -> u64 {
        let mut all = 0u64;
        for worker in self.workers.as_slice() {
            all = all.saturating_add(worker.tries.load(Ordering::SeqCst));
        }
        all
    }

    fn note(&self, worker: u64) {
        if let Some(before) = worker.checked_sub(1) {
            if let Some(count) = self.workers.get(before as usize) {
                count.tries.fetch_add(1, Ordering::SeqCst);
            }
        }
    }
}

impl Pause for Tries {
    fn before_commit(&self, _worker: u64) {}

    fn after_receipt(&self, worker: u64, _number: u64) {
        self.note(worker);
    }

    fn after_refusal(&self, worker: u64, _cause: Refusal) {
        self.note(worker);
    }
}
