//! The store once more, with every Write made in two parts (request F-12): all but the write records, those
//! held of the last grant among them, must come out the same.

use crate::call::{Action, Answer, Call, Outcome, Refusal, Reply, Step};
use crate::state::State;
use crate::store::{Store, Transaction};

pub struct Split {
    state: State,
    /// Writes made in two parts.
    pub writes: usize,
    /// How often the two parts found no room for two records, and the state was taken over anew.
    pub renewed: usize,
}

impl Split {
    pub fn new(state: &State) -> Split {
        Split { state: state.clone(), writes: 0, renewed: 0 }
    }

    /// Makes a call that the store has accepted, or a Commit refused with 13, and compares; `state` is the store's after it.
    pub fn follow(&mut self, call: &Call, reply: &Reply, state: &State) {
        let outcome = match call {
            Call::Step(t, Step { descriptor, action: Action::Write { data } }) => self.write(*t, *descriptor, data),
            _ => {
                assert_eq!(self.state.apply(call), *reply, "{call:?} after Writes in two parts");
                reply.outcome
            }
        };
        if outcome == Err(Refusal::RecordsFull) {
            self.state = state.clone();
            self.renewed += 1;
        }
        assert!(same_but_records(&self.state, state), "{call:?} after Writes in two parts leaves something else");
    }

    /// A Write in two parts. From one Write to the next the place at which it is split moves on by one.
    fn write(&mut self, t: usize, descriptor: usize, data: &[u8]) -> Outcome {
        let (first, second) = data.split_at(self.writes % (data.len() + 1));
        for part in [first, second] {
            let step = Step { descriptor, action: Action::Write { data: part.to_vec() } };
            let outcome = self.state.apply(&Call::Step(t, step)).outcome;
            assert!(matches!(outcome, Ok(Answer::Done) | Err(Refusal::RecordsFull)), "a part of a Write: {outcome:?}");
            outcome?;
        }
        self.writes += 1;
        Ok(Answer::Done)
    }
}

pub fn same_but_records(one: &State, other: &State) -> bool {
    without_records(&one.store) == without_records(&other.store) && one.buffers == other.buffers
}

fn without_records(store: &Store) -> Store {
    let mut store = store.clone();
    store.transactions.iter_mut().for_each(|Transaction { log, .. }| log.records.clear());
    store.undo.log.records.clear();
    store
}
