//! Records calls as a call log (docs/CALLLOG.md): each call that is made on a store, and its answer.

use std::io::{self, Write};

use crate::call::{Answer, Call, Dispatch, Outcome, Refusal, Reply, SCRIPT_STEPS};
use crate::calllog::{Asked, VERSION};
use crate::replay::printed;
use crate::state::{untouched_buffer, State};

pub struct Recorder<'a, W: Write> {
    pub state: State,
    out: &'a mut W,
}

impl<'a, W: Write> Recorder<'a, W> {
    pub fn new(state: State, out: &'a mut W) -> io::Result<Recorder<'a, W>> {
        writeln!(out, "V{VERSION}")?;
        Ok(Recorder { state, out })
    }

    /// Writes a line that says nothing: a comment, or an empty one.
    pub fn comment(&mut self, text: &str) -> io::Result<()> {
        writeln!(self.out, "{text}")
    }

    /// Makes a call and writes its line and its answer. A dispatcher is made and written as its calls.
    pub fn record(&mut self, call: &Call) -> io::Result<()> {
        match call {
            Call::Dispatch(dispatch) => self.dispatch(dispatch),
            call => self.call(call).map(|_| ()),
        }
    }

    fn call(&mut self, call: &Call) -> io::Result<Reply> {
        let reply = self.state.apply(call);
        let asked = Asked::of(call).expect("a call of its own, and octets in lists");
        self.out.write_all(&[&asked.line(), b"\n= ".as_slice(), &printed(&reply), b"\n"].concat())?;
        Ok(reply)
    }

    /// One that is refused makes no calls.
    fn dispatch(&mut self, dispatch: &Dispatch) -> io::Result<()> {
        if let Err(refusal) = self.state.clone().apply(&Call::Dispatch(dispatch.clone())).outcome {
            return self.comment(&format!("# a dispatcher, refused with {}", refusal.number()));
        }
        self.comment(&format!("# a dispatcher of {} scripts", dispatch.scripts.len()))?;
        let mut reader = untouched_buffer(&Call::Dispatch(dispatch.clone()));
        let mut unfinished: Vec<usize> = (0..dispatch.scripts.len()).collect();
        while !unfinished.is_empty() {
            for &k in &unfinished {
                self.call(&Call::Begin(k))?;
            }
            for turn in 0..SCRIPT_STEPS {
                unfinished = self.turn(dispatch, turn, &mut reader, unfinished)?;
            }
            unfinished = self.commits(dispatch.minute, unfinished)?;
        }
        Ok(())
    }

    /// Gives each script the call of this turn; answers those that go on.
    fn turn(
        &mut self,
        dispatch: &Dispatch,
        turn: usize,
        reader: &mut Vec<u8>,
        scripts: Vec<usize>,
    ) -> io::Result<Vec<usize>> {
        let mut left = Vec::new();
        for k in scripts {
            let Some(step) = dispatch.step(k, turn, reader) else {
                left.push(k);
                continue;
            };
            let reply = self.call(&Call::Step(k, step))?;
            if let Ok(Answer::Given(_)) = reply.outcome {
                *reader = reply.buffer;
            }
            if self.goes_on(k, reply.outcome)? {
                left.push(k);
            }
        }
        Ok(left)
    }

    /// Commits the scripts; answers those that are left for the next round.
    fn commits(&mut self, minute: usize, scripts: Vec<usize>) -> io::Result<Vec<usize>> {
        let mut left = Vec::new();
        for k in scripts {
            let outcome = self.call(&Call::Commit { transaction: k, minute })?.outcome;
            if outcome == Err(Refusal::Stale) {
                left.push(k);
            } else {
                self.goes_on(k, outcome)?;
            }
        }
        Ok(left)
    }

    /// A script whose call was refused is aborted. Does it go on?
    fn goes_on(&mut self, k: usize, outcome: Outcome) -> io::Result<bool> {
        if outcome.is_err() {
            self.call(&Call::Abort(k))?;
        }
        Ok(outcome.is_ok())
    }
}

#[cfg(test)]
mod tests {
    use super::*;
    use crate::generator::Generator;

    /// The calls of a dispatcher leave what the dispatcher leaves.
    #[test]
    fn a_dispatcher_is_its_calls() {
        let mut generator = Generator::new();
        let mut log = Vec::new();
        let mut recorder = Recorder::new(State::new(), &mut log).expect("memory is written");
        let mut ran = 0;
        for _ in 0..20_000 {
            let call = generator.next_call().call();
            let mut other = recorder.state.clone();
            recorder.record(&call).expect("memory is written");
            if let Call::Dispatch(_) = call {
                ran += u64::from(other.apply(&call).outcome.is_ok());
                assert!(other == recorder.state);
            }
        }
        assert!(ran > 100);
    }
}
