//! How many transactions had which outcome.
use seq_model::Refusal;

/// How many transactions were committed, and how many were refused, by cause.
#[derive(Clone, Copy)]
pub struct Outcomes {
    pub committed: u32,
    /// A word or a location was changed, or locked, since the transaction began.
    pub moved: u32,
    /// A gate was held at each of its tries.
    pub gates: u32,
    pub others: u32,
}

impl Outcomes {
    pub const NONE: Outcomes = Outcomes {
        committed: 0,
        moved: 0,
        gates: 0,
        others: 0,
    };

    pub fn note(&mut self, outcome: Result<(), Refusal>) {
        let count = match outcome {
            Ok(()) => &mut self.committed,
            Err(Refusal::GateBusy { .. }) => &mut self.gates,
            Err(
                Refusal::Moved { .. }
                | Refusal::Busy { .. }
                | Refusal::Stale { .. }
                | Refusal::Invalid { .. },
            ) => &mut self.moved,
            Err(_) => &mut self.others,
        };
        *count = count.saturating_add(1);
    }

    /// Those of all threads.
    pub fn all(each: &[Outcomes]) -> Outcomes {
        let mut outcomes = Outcomes::NONE;
        for one in each {
            outcomes = outcomes.and(*one);
        }
        outcomes
    }

    /// These and those of another thread.
    pub fn and(self, other: Outcomes) -> Outcomes {
        Outcomes {
            committed: self.committed.saturating_add(other.committed),
            moved: self.moved.saturating_add(other.moved),
            gates: self.gates.saturating_add(other.gates),
            others: self.others.saturating_add(other.others),
        }
    }
}
