//! The store's dispatcher: rounds of scripts until each is done (request F-10).

use crate::call::{Ran, Refusal, Script, ScriptAction, ScriptStep, SCRIPTS, SCRIPT_STEPS};
use crate::store::{Lent, Store};

/// What the scripts are run with.
struct Setting<'a> {
    scripts: &'a [Script],
    /// A Write's bytes are a part of it.
    data: &'a [u8],
    /// Bytes read go to its front.
    reader: &'a mut [u8],
    minute: usize,
}

impl Store {
    /// Runs script k as transaction k, round after round, until each script is granted or has failed.
    pub fn dispatch(
        &mut self,
        lent: &mut Lent,
        scripts: &[Script],
        data: &[u8],
        reader: &mut [u8],
        minute: usize,
    ) -> Result<Ran, Refusal> {
        self.check_lent(lent)?;
        if self.is_any_open() {
            return Err(Refusal::DispatchWhileOpen);
        }
        check_scripts(scripts, data.len())?;
        let mut ran = Ran { scripts: scripts.len(), ended: [None; SCRIPTS], commits: 0 };
        let mut setting = Setting { scripts, data, reader, minute };
        let mut unfinished: Vec<usize> = (0..scripts.len()).collect();
        while !unfinished.is_empty() {
            unfinished = self.round(lent, &mut setting, unfinished, &mut ran);
        }
        Ok(ran)
    }

    /// Begins these scripts, gives each one call in turn, commits them, and answers which are left for the next round.
    fn round(&mut self, lent: &mut Lent, setting: &mut Setting, mut scripts: Vec<usize>, ran: &mut Ran) -> Vec<usize> {
        for &k in &scripts {
            self.begin(lent, k).expect("no transaction is open between rounds");
        }
        for turn in 0..SCRIPT_STEPS {
            scripts.retain(|&k| match setting.scripts[k].get(turn) {
                Some(step) => {
                    let outcome = self.script_step(lent, k, *step, setting);
                    self.goes_on(lent, k, outcome, ran)
                }
                None => true,
            });
        }
        scripts.retain(|&k| {
            ran.commits += 1;
            match self.commit(lent, k, setting.minute) {
                Ok(_) => false,
                Err(Refusal::Stale) => true,
                refused => self.goes_on(lent, k, refused.map(|_| ()), ran),
            }
        });
        scripts
    }

    /// A script whose call was refused has failed, and its transaction is aborted. Does it go on?
    fn goes_on(&mut self, lent: &mut Lent, k: usize, outcome: Result<(), Refusal>, ran: &mut Ran) -> bool {
        let Err(refusal) = outcome else { return true };
        ran.ended[k] = Some(refusal);
        self.abort(lent, k).expect("its transaction is open");
        false
    }

    fn script_step(
        &mut self,
        lent: &mut Lent,
        k: usize,
        step: ScriptStep,
        setting: &mut Setting,
    ) -> Result<(), Refusal> {
        let d = step.descriptor;
        match step.action {
            ScriptAction::Seek { to } => self.seek(lent, k, d, to),
            ScriptAction::Write { start, length } => self.write(lent, k, d, &setting.data[start..start + length]),
            ScriptAction::GetFilePointer => self.get_file_pointer(lent, k, d).map(|_| ()),
            ScriptAction::Read { count } => self.read(lent, k, d, count, setting.reader).map(|_| ()),
        }
    }
}

/// At most 8 scripts of at most 16 calls, and each Write's part inside the data buffer.
fn check_scripts(scripts: &[Script], data: usize) -> Result<(), Refusal> {
    let inside = |step: &ScriptStep| match step.action {
        ScriptAction::Write { start, length } => start <= data && length <= data - start,
        _ => true,
    };
    let good = |script: &Script| script.len() <= SCRIPT_STEPS && script.iter().all(inside);
    if scripts.len() <= SCRIPTS && scripts.iter().all(good) {
        Ok(())
    } else {
        Err(Refusal::BadScripts)
    }
}
