//! The store's best order to commit in (request F-14): each order is really committed, on copies.

use crate::call::{Best, Refusal, ORDERS};
use crate::store::{Buffers, Lent, Place, Store, Transaction, TRANSACTIONS};

impl Store {
    /// Tries the orders of the listed transactions by ascending positions, and answers the earliest with the most grants.
    pub fn best(&self, lent: &Lent, list: &[usize], minute: usize, budget: usize) -> Result<Best, Refusal> {
        self.check_best(lent, list, minute, budget)?;
        let mut positions: Vec<usize> = (0..list.len()).collect();
        let mut order = list.to_vec();
        let mut grants = self.grants_in(lent, &order, minute);
        let mut tried = 1;
        let mut left = next_order(&mut positions);
        while left && tried < budget {
            let next: Vec<usize> = positions.iter().map(|&position| list[position]).collect();
            let count = self.grants_in(lent, &next, minute);
            if count > grants {
                (order, grants) = (next, count);
            }
            tried += 1;
            left = next_order(&mut positions);
        }
        let gap = if left { self.count_open_hours(list, minute) - grants } else { 0 };
        Ok(Best::new(&order, grants, gap, tried))
    }

    fn check_best(&self, lent: &Lent, list: &[usize], minute: usize, budget: usize) -> Result<(), Refusal> {
        self.check_lent(lent)?;
        let repeats = |k: usize| list[..k].contains(&list[k]);
        if list.is_empty() || list.len() > TRANSACTIONS || (0..list.len()).any(repeats) {
            return Err(Refusal::BadList);
        }
        for &t in list {
            self.check_number(lent, t)?;
        }
        for &t in list {
            self.check_open(lent, t)?;
        }
        Store::checked_minute(minute)?;
        if !list.iter().all(|&t| self.transactions[t].is_ready()) {
            return Err(Refusal::NotReady);
        }
        if budget == 0 || budget > ORDERS {
            return Err(Refusal::BadBudget);
        }
        Ok(())
    }

    /// How many of the Commits are granted, made in this order on copies of record and buffers.
    fn grants_in(&self, lent: &Lent, order: &[usize], minute: usize) -> usize {
        let mut store = self.clone();
        let mut buffers = Buffers {
            files: lent.files.to_vec(),
            logs: lent.logs.to_vec(),
            marks: lent.marks.to_vec(),
            undo: lent.undo.to_vec(),
        };
        order.iter().filter(|&&t| store.commit(&mut buffers.lend(), t, minute).is_ok()).count()
    }

    /// How many of the transactions have no byte for a file that is closed at the minute.
    fn count_open_hours(&self, list: &[usize], minute: usize) -> usize {
        list.iter().filter(|&&t| self.check_hours(t, minute as u16).is_ok()).count()
    }
}

impl Transaction {
    /// Is it not stale, with a place for each write?
    fn is_ready(&self) -> bool {
        !self.stale && self.log.records.iter().all(|record| matches!(record.place, Place::At(_)))
    }
}

/// Makes the positions the next order of them, by ascending positions; false where they are the last.
fn next_order(positions: &mut [usize]) -> bool {
    let Some(turn) = (1..positions.len()).rev().find(|&k| positions[k - 1] < positions[k]) else {
        return false;
    };
    let pivot = positions[turn - 1];
    let swapped = (turn..positions.len()).rev().find(|&k| positions[k] > pivot).expect("the one at the turn is above");
    positions.swap(turn - 1, swapped);
    positions[turn..].reverse();
    true
}

#[cfg(test)]
mod tests {
    use super::next_order;

    #[test]
    fn orders_ascend_and_all_are_met() {
        for (k, all) in [(1, 1), (2, 2), (3, 6), (4, 24), (8, 40320)] {
            let mut positions: Vec<usize> = (0..k).collect();
            let mut met = 1;
            let mut before = positions.clone();
            while next_order(&mut positions) {
                assert!(before < positions);
                before.clone_from(&positions);
                met += 1;
            }
            assert_eq!(met, all);
        }
    }
}
