//! The linked store beside the twin, call by call. LUZHANEM_CALLS says how many.

use luzhanem::{Refusal, ScriptCall, State, Store};
use twin::call::{Action, Answer, Call, Dispatch, ScriptAction, Step};
use twin::generator::Generator;
use twin::state;

/// What a call gave: the numbers of its answer (a refusal as its number negated), and the buffer lent for it.
type Given = (Vec<i64>, Vec<u8>);

fn twin_gave(reply: twin::call::Reply) -> Given {
    let numbers = match reply.outcome {
        Err(r) => vec![-(r.number() as i64)],
        Ok(Answer::Done) => vec![0],
        Ok(Answer::Offset(n) | Answer::Given(n) | Answer::Pairs(n)) => vec![n.into()],
        Ok(Answer::Granted(n)) => vec![n.into()],
        Ok(Answer::Ran(r)) => std::iter::once(r.commits.into()).chain(r.results().iter().map(|&x| x as i64)).collect(),
        Ok(Answer::Best(b)) => {
            [b.grants, b.gap, b.tried].iter().map(|&x| x.into()).chain(b.order().iter().map(|&t| t.into())).collect()
        }
    };
    (numbers, reply.buffer)
}

fn number(n: usize) -> Vec<i64> {
    vec![n as i64]
}

fn made(s: &mut Store, call: &Call, buffer: &mut [u8]) -> Result<Vec<i64>, Refusal> {
    let done = |()| vec![0];
    match call {
        Call::Fresh { files } => s.fresh(files[..].try_into().unwrap()).map(done),
        Call::Begin(t) => s.begin(*t).map(done),
        Call::Abort(t) => s.abort(*t).map(done),
        Call::Commit { transaction, minute } => s.commit(*transaction, *minute).map(|o| vec![o.0.into()]),
        Call::Window { file, start, end } => s.set_window(*file, *start, *end).map(done),
        Call::Undo => s.undo().map(done),
        Call::Step(t, Step { descriptor: d, action }) => match action {
            Action::Seek { to } => s.seek(*t, *d, *to).map(done),
            Action::Write { data } => s.write(*t, *d, data).map(done),
            Action::GetFilePointer => s.get_file_pointer(*t, *d).map(number),
            Action::Read { count, .. } if *count > buffer.len() => {
                // 7: a slice has its length, so the library has no such case.
                if *d <= 15 && s.state(*t) == Ok(State::Open) {
                    return Err(Refusal::ReaderTooShort);
                }
                s.read(*t, *d, &mut []).map(|b| number(b.len()))
            }
            Action::Read { count, .. } => s.read(*t, *d, &mut buffer[..*count]).map(|b| number(b.len())),
        },
        Call::Places { transaction, file, .. } => {
            let pairs = s.places(*transaction, *file)?;
            if 4 * pairs.len() > buffer.len() {
                return Err(Refusal::ListTooLong);
            }
            for (i, n) in pairs.iter().flat_map(|&(o, l)| [o, l]).enumerate() {
                buffer[2 * i..2 * i + 2].copy_from_slice(&n.to_be_bytes());
            }
            Ok(number(pairs.len()))
        }
        Call::Dispatch(Dispatch { scripts, data, minute, .. }) => {
            let scripts: Vec<Vec<ScriptCall>> = scripts
                .iter()
                .map(|script| {
                    let call = |step: &twin::call::ScriptStep| {
                        let descriptor = step.descriptor;
                        match step.action {
                            ScriptAction::Seek { to } => ScriptCall::Seek { descriptor, offset: to },
                            ScriptAction::Write { start, length } => {
                                ScriptCall::Write { descriptor, start, count: length }
                            }
                            ScriptAction::GetFilePointer => ScriptCall::GetFilePointer { descriptor },
                            ScriptAction::Read { count } => ScriptCall::Read { descriptor, count },
                        }
                    };
                    script.iter().map(call).collect()
                })
                .collect();
            let scripts: Vec<&[ScriptCall]> = scripts.iter().map(Vec::as_slice).collect();
            let d = s.dispatch(&scripts, data, buffer, *minute)?;
            Ok(std::iter::once(d.commits as i64)
                .chain(d.ended.iter().map(|e| e.map_or(0, |r| r.number().into())))
                .collect())
        }
        Call::Best { list, minute, budget } => {
            let list: Vec<u8> = list.iter().map(|&t| t.min(255) as u8).collect();
            let o = s.best_order(&list, *minute, *budget)?;
            let numbers = [o.grants, o.gap, o.tried].into_iter().map(|n| n as i64);
            Ok(numbers.chain(o.order.iter().map(|&t| t.into())).collect())
        }
    }
}

#[test]
fn the_store_answers_as_the_twin_does() {
    let calls = std::env::var("LUZHANEM_CALLS").map_or(1_000_000, |n| n.parse().unwrap());
    let (mut generator, mut twin, mut s) = (Generator::new(), state::State::new(), Store::new());
    twin.apply(&Call::Fresh { files: (0..16).map(|d| d % 8).collect() });
    let mut met = [0u64; 28];
    for i in 0..calls {
        let request = generator.next_call();
        let call = request.call();
        // Short buffers, forged records and a list of another length have no way in here.
        if request.damage.is_any() || matches!(&call, Call::Fresh { files } if files.len() != 16) {
            continue;
        }
        let want = twin_gave(twin.apply(&call));
        let mut buffer = state::untouched_buffer(&call);
        let have = made(&mut s, &call, &mut buffer).unwrap_or_else(|r| vec![-i64::from(r.number())]);
        met[(-have[0]).max(0) as usize] += 1;
        assert_eq!((have, buffer), want, "call {i}: {call:?}");
        if i % 100 == 0 {
            assert!(s.save().unwrap()[552..33320] == twin.buffers.files[..], "files after call {i}");
            for d in 0..16 {
                assert_eq!(s.offset(d).unwrap(), usize::from(twin.store.offsets[d]), "call {i}");
            }
            for f in 0..8 {
                assert_eq!(s.file(f).unwrap().len(), usize::from(twin.store.lengths[f]), "call {i}");
            }
        }
    }
    println!("{calls} calls; accepted, then by refusal: {met:?}");
    // Every kind of refusal is met but 1 (no buffer has another length), 2 (no record is forged) and 17 (no line).
    if calls >= 1_000_000 {
        let missed: Vec<usize> = (0..28).filter(|&r| met[r] == 0).collect();
        assert_eq!(missed, [1, 2, 17]);
    }
}
