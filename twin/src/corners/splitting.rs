//! One long Write or two short ones (request F-12): generated lists, once with one Write and once with it in two parts, at
//! each place and on each standing.

use crate::call::{Action, Answer, Call, Reply, Step};
use crate::generator;
use crate::pair::Pair;
use crate::plain::{Place, Standing, Transaction};
use crate::split::same_but_records;

fn step(t: usize, descriptor: usize, action: Action) -> Call {
    Call::Step(t, Step { descriptor, action })
}

fn seek(t: usize, d: usize, to: usize) -> Call {
    step(t, d, Action::Seek { to })
}

fn write(t: usize, d: usize, data: &[u8]) -> Call {
    step(t, d, Action::Write { data: data.to_vec() })
}

fn read(t: usize, d: usize, count: usize) -> Call {
    step(t, d, Action::Read { count, buffer: vec![7; 12] })
}

fn commit(transaction: usize) -> Call {
    Call::Commit { transaction, minute: 0 }
}

/// By which calls descriptor 0 comes to stand in each way, and the test of that standing.
fn standings() -> [(Vec<Call>, fn(&Standing) -> bool); 5] {
    [
        (vec![], |standing| matches!(standing, Standing::Untouched)),
        (vec![seek(0, 0, 2)], |standing| matches!(standing, Standing::Placed { .. })),
        (vec![write(0, 0, b"xy")], |standing| matches!(standing, Standing::Deferred { .. })),
        (vec![write(0, 0, b"xy"), seek(0, 0, 3)], |standing| matches!(standing, Standing::Moved { .. })),
        (vec![step(0, 0, Action::GetFilePointer)], |standing| matches!(standing, Standing::Known { .. })),
    ]
}

/// Something committed in file 0, an offset at 3, and transactions 0 to 2 open.
fn start() -> Pair {
    let mut pair = Pair::new();
    let calls = [Call::Begin(0), write(0, 0, b"123456"), seek(0, 0, 3), commit(0)];
    for call in calls.into_iter().chain((0..3).map(Call::Begin)) {
        assert!(pair.call(&call, None).outcome.is_ok());
    }
    pair
}

/// Calls of transactions 0 to 2 on file 0, then the Commit of 0 and Reads that show what came of it.
fn further(seed: u64) -> Vec<Call> {
    let mut x = 1 + seed;
    let mut below = |n: u64| {
        x = generator::step(x);
        (x / 8 % n) as usize
    };
    let mut calls = Vec::new();
    for _ in 0..10 {
        let t = [0, 0, 0, 1, 2][below(5)];
        let d = 8 * below(2);
        calls.push(match below(8) {
            0 => seek(t, d, below(12)),
            1 | 2 => write(t, d, &b"ABCDEFG"[below(3)..][..below(4)]),
            3 => step(t, d, Action::GetFilePointer),
            4 => Call::Places { transaction: t, file: 0, buffer: vec![7; 40] },
            5 if t > 0 => commit(t),
            _ => read(t, d, below(13)),
        });
    }
    calls.extend([commit(0), Call::Begin(3), seek(3, 0, 0), read(3, 0, 12), read(3, 8, 12), commit(1), commit(2)]);
    calls
}

/// Each byte that a transaction would write, with its descriptor and place.
fn bytes(transaction: &Transaction) -> Vec<(usize, Place, u8)> {
    let mut bytes = Vec::new();
    for write in &transaction.course.writes {
        for (i, &byte) in write.data.iter().enumerate() {
            let place = match write.place {
                Place::At(first) => Place::At(first + i),
                Place::After(advance) => Place::After(advance + i),
            };
            bytes.push((write.descriptor, place, byte));
        }
    }
    bytes
}

/// Standings, sightings with their setters, what is committed and all of the store are the same, apart from write records.
fn assert_same(whole: &Pair, split: &Pair) {
    for (one, other) in whole.machine.open.iter().zip(&split.machine.open) {
        assert_eq!(one.is_some(), other.is_some());
        if let (Some(one), Some(other)) = (one, other) {
            assert_eq!(one.course.standings, other.course.standings);
            assert_eq!(one.course.acted, other.course.acted);
            assert_eq!(one.course.sightings, other.course.sightings);
            assert_eq!(bytes(one), bytes(other));
        }
    }
    assert!(whole.machine.committed == split.machine.committed && whole.machine.grants == split.machine.grants);
    assert!(same_but_records(&whole.state, &split.state));
}

/// Makes the calls, and the Write in the parts given.
fn run(before: &[Call], parts: &[&[u8]], is_standing: fn(&Standing) -> bool) -> Pair {
    let mut pair = start();
    for call in before {
        assert!(pair.call(call, None).outcome.is_ok());
    }
    let transaction = pair.machine.open[0].as_ref().expect("it is open");
    assert!(is_standing(&transaction.course.standings[0]));
    for part in parts {
        assert_eq!(pair.call(&write(0, 0, part), None).outcome, Ok(Answer::Done));
    }
    pair
}

#[test]
fn only_the_write_records_differ() {
    let mut given = 0;
    let mut granted = 0;
    for (before, is_standing) in standings() {
        for data in [b"abcde".as_slice(), b"a", b""] {
            for at in 0..=data.len() {
                let (first, second) = data.split_at(at);
                for seed in 0..40 {
                    let mut whole = run(&before, &[data], is_standing);
                    let mut split = run(&before, &[first, second], is_standing);
                    assert_same(&whole, &split);
                    for call in further(seed) {
                        let reply: Reply = whole.call(&call, None);
                        assert_eq!(reply, split.call(&call, None), "{call:?}");
                        assert_same(&whole, &split);
                        given += usize::from(matches!(reply.outcome, Ok(Answer::Given(1..))));
                        granted += usize::from(matches!((call, reply.outcome), (Call::Commit { .. }, Ok(_))));
                    }
                    whole.check_at_rest();
                    split.check_at_rest();
                }
            }
        }
    }
    assert!(given > 4000 && granted > 2000, "{given} Reads gave bytes, {granted} commits were granted");
}
