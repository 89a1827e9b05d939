//! Counts over all lines.

use twin::store::TRANSACTIONS;

use crate::account::{Account, Change, End, MadeStale};
use crate::refusals::REFUSALS;

#[derive(Clone, Debug, Default, PartialEq, Eq)]
pub struct Summary {
    pub lines: u64,
    /// Transactions by how they ended, and those that are open.
    pub granted: u64,
    pub stale: u64,
    pub aborted: u64,
    /// Ended by a Fresh of a log.
    pub fresh: u64,
    pub open: u64,
    /// By the refusal's number; none has number 0.
    pub refused: [u64; REFUSALS + 1],
    /// How often a transaction made another stale: by who did, then whom.
    pub made_stale: [[u64; TRANSACTIONS]; TRANSACTIONS],
    /// Grants taken back.
    pub undone: u64,
}

impl Summary {
    /// Of an input on a fresh store, or on one with so many open transactions.
    pub fn new(open: u64) -> Summary {
        Summary { open, ..Summary::default() }
    }

    pub fn add(&mut self, account: &Account) {
        self.lines += 1;
        if let Some(refusal) = account.refusal() {
            self.refused[refusal.number()] += 1;
        }
        for change in &account.changes {
            self.change(*change);
        }
        for MadeStale { transaction, .. } in &account.made_stale {
            if let Some(by) = account.transaction() {
                self.made_stale[by][*transaction] += 1;
            }
        }
    }

    fn change(&mut self, change: Change) {
        match change {
            Change::Began { .. } => self.open += 1,
            Change::Undone { .. } => self.undone += 1,
            Change::Ended { how, .. } => {
                self.open -= 1;
                *self.ended(how) += 1;
            }
        }
    }

    fn ended(&mut self, how: End) -> &mut u64 {
        match how {
            End::Granted => &mut self.granted,
            End::Stale => &mut self.stale,
            End::Aborted => &mut self.aborted,
            End::Fresh => &mut self.fresh,
        }
    }

    /// How many lines were refused.
    pub fn refusals(&self) -> u64 {
        self.refused.iter().sum()
    }

    pub fn transactions(&self) -> u64 {
        self.granted + self.stale + self.aborted + self.fresh + self.open
    }
}
