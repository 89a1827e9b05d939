//! The call that a request of the generator describes.

use crate::call::{Action, Call, Dispatch, Script, ScriptAction, ScriptStep, Step};
use crate::generator::{self, Request};
use crate::scripts::ScriptCall;

impl Request {
    pub fn call(&self) -> Call {
        let transaction = self.transaction as usize;
        let file = self.file as usize;
        match self.kind {
            generator::FRESH => Call::Fresh { files: self.list[..self.list_length as usize].to_vec() },
            generator::BEGIN => Call::Begin(transaction),
            generator::PLACES => Call::Places { transaction, file, buffer: self.blank() },
            generator::COMMIT => Call::Commit { transaction, minute: self.minute as usize },
            generator::ABORT => Call::Abort(transaction),
            generator::WINDOW => Call::Window { file, start: self.minute as usize, end: self.end as usize },
            generator::UNDO => Call::Undo,
            generator::DISPATCH => Call::Dispatch(self.dispatch()),
            generator::BEST => Call::Best {
                list: self.members[..self.members_length as usize].iter().map(|&t| t as usize).collect(),
                minute: self.minute as usize,
                budget: self.budget as usize,
            },
            _ => Call::Step(transaction, Step { descriptor: self.descriptor as usize, action: self.action() }),
        }
    }

    fn action(&self) -> Action {
        let number = self.number as usize;
        match self.kind {
            generator::SEEK => Action::Seek { to: number },
            generator::WRITE => Action::Write { data: self.data(self.number) },
            generator::READ => Action::Read { count: number, buffer: self.blank() },
            _ => Action::GetFilePointer,
        }
    }

    /// The buffer lent for the answer.
    fn blank(&self) -> Vec<u8> {
        vec![generator::BLANK; self.buffer as usize]
    }

    fn data(&self, length: u64) -> Vec<u8> {
        (0..length).map(|i| ((self.data_first + self.data_step * i) % 256) as u8).collect()
    }

    fn dispatch(&self) -> Dispatch {
        let scripts = &self.scripts;
        let script = |k| -> Script { (0..scripts.calls(k)).map(|j| script_step(scripts.call(k, j))).collect() };
        Dispatch {
            scripts: (0..scripts.count).map(script).collect(),
            data: self.data(scripts.data),
            buffer: self.blank(),
            minute: self.minute as usize,
        }
    }
}

fn script_step(call: ScriptCall) -> ScriptStep {
    let (number, length) = (call.number as usize, call.length as usize);
    let action = match call.kind {
        generator::SEEK => ScriptAction::Seek { to: number },
        generator::WRITE => ScriptAction::Write { start: number, length },
        generator::READ => ScriptAction::Read { count: number },
        _ => ScriptAction::GetFilePointer,
    };
    ScriptStep { descriptor: call.descriptor as usize, action }
}
