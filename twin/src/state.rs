//! The store on buffers of its own, as calls are made on it.

use crate::call::{Action, Answer, Call, Dispatch, Outcome, Reply, Step};
use crate::store::{Buffers, Lent, Store, DESCRIPTORS};

/// The store's record with its buffers.
#[derive(Clone, PartialEq, Eq)]
pub struct State {
    pub store: Store,
    pub buffers: Buffers,
}

impl Default for State {
    fn default() -> Self {
        State::new()
    }
}

impl State {
    /// On buffers that are all 0.
    pub fn new() -> State {
        State { store: Store::new([0; DESCRIPTORS]), buffers: Buffers::zeros() }
    }

    pub fn apply(&mut self, call: &Call) -> Reply {
        apply(&mut self.store, &mut self.buffers.lend(), call)
    }

    /// The call with one of the buffers (1 files, 2 logs, 3 marks, 4 undo, 0 none) lent only in part.
    pub fn apply_short(&mut self, call: &Call, short: u64, length: usize) -> Reply {
        let mut lent = self.buffers.lend();
        match short {
            1 => shorten(&mut lent.files, length),
            2 => shorten(&mut lent.logs, length),
            3 => shorten(&mut lent.marks, length),
            4 => shorten(&mut lent.undo, length),
            _ => {}
        }
        apply(&mut self.store, &mut lent, call)
    }
}

fn shorten(buffer: &mut &mut [u8], length: usize) {
    let whole = std::mem::take(buffer);
    *buffer = &mut whole[..length];
}

/// Makes the call on a store.
fn apply(store: &mut Store, lent: &mut Lent, call: &Call) -> Reply {
    let mut buffer = untouched_buffer(call);
    let outcome = match call {
        Call::Fresh { files } => store.fresh(lent, files).map(|()| Answer::Done),
        Call::Begin(t) => store.begin(lent, *t).map(|()| Answer::Done),
        Call::Step(t, step) => apply_step(store, lent, *t, step, &mut buffer),
        Call::Places { transaction, file, .. } => {
            store.places(lent, *transaction, *file, &mut buffer).map(Answer::Pairs)
        }
        Call::Commit { transaction, minute } => store.commit(lent, *transaction, *minute).map(Answer::Granted),
        Call::Abort(t) => store.abort(lent, *t).map(|()| Answer::Done),
        Call::Window { file, start, end } => store.set_window(lent, *file, *start, *end).map(|()| Answer::Done),
        Call::Undo => store.undo(lent).map(|()| Answer::Done),
        Call::Dispatch(Dispatch { scripts, data, minute, .. }) => {
            store.dispatch(lent, scripts, data, &mut buffer, *minute).map(Answer::Ran)
        }
        Call::Best { list, minute, budget } => store.best(lent, list, *minute, *budget).map(Answer::Best),
    };
    Reply { outcome, buffer }
}

fn apply_step(store: &mut Store, lent: &mut Lent, t: usize, step: &Step, buffer: &mut [u8]) -> Outcome {
    let d = step.descriptor;
    match &step.action {
        Action::Seek { to } => store.seek(lent, t, d, *to).map(|()| Answer::Done),
        Action::Write { data } => store.write(lent, t, d, data).map(|()| Answer::Done),
        Action::GetFilePointer => store.get_file_pointer(lent, t, d).map(Answer::Offset),
        Action::Read { count, .. } => store.read(lent, t, d, *count, buffer).map(Answer::Given),
    }
}

/// The buffer lent for the call's answer, before the call.
pub fn untouched_buffer(call: &Call) -> Vec<u8> {
    match call {
        Call::Step(_, Step { action: Action::Read { buffer, .. }, .. })
        | Call::Places { buffer, .. }
        | Call::Dispatch(Dispatch { buffer, .. }) => buffer.clone(),
        _ => Vec::new(),
    }
}
