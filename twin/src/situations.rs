//! The twelve situations of the paper, on store and plain machine together.

use crate::call::{Action, Answer, Call, Refusal, Reply, Step};
use crate::pair::Pair;
use crate::plain::Item;

/// A pair with the first `open` transactions begun.
fn begun(open: usize) -> Pair {
    let mut pair = Pair::new();
    for t in 0..open {
        assert_eq!(make(&mut pair, Call::Begin(t)).outcome, Ok(Answer::Done));
    }
    pair
}

/// The same after a first commit that fills file 0 with zeros.
fn begun_on_filled(open: usize) -> Pair {
    let mut pair = begun(open);
    done(make(&mut pair, Call::Begin(7)));
    write(&mut pair, 7, 0, &[0; 4096]);
    assert_eq!(granted(&mut pair, 7), (0, 0));
    assert_eq!((pair.state.store.offsets[0], pair.state.store.lengths[0]), (4096, 4096));
    pair
}

fn make(pair: &mut Pair, call: Call) -> Reply {
    let reply = pair.call(&call, None);
    pair.check_at_rest();
    reply
}

fn step(pair: &mut Pair, t: usize, descriptor: usize, action: Action) -> Reply {
    make(pair, Call::Step(t, Step { descriptor, action }))
}

fn done(reply: Reply) {
    assert_eq!(reply.outcome, Ok(Answer::Done));
}

fn seek(pair: &mut Pair, t: usize, d: usize, to: usize) {
    done(step(pair, t, d, Action::Seek { to }));
}

fn write(pair: &mut Pair, t: usize, d: usize, data: &[u8]) {
    done(step(pair, t, d, Action::Write { data: data.to_vec() }));
}

fn refused_write(pair: &mut Pair, t: usize, d: usize, data: &[u8]) -> Refusal {
    step(pair, t, d, Action::Write { data: data.to_vec() }).outcome.expect_err("a refusal")
}

fn pointer(pair: &mut Pair, t: usize, d: usize) -> u16 {
    match step(pair, t, d, Action::GetFilePointer).outcome {
        Ok(Answer::Offset(offset)) => offset,
        other => panic!("no offset: {other:?}"),
    }
}

fn read(pair: &mut Pair, t: usize, d: usize, count: usize) -> Vec<u8> {
    let reply = step(pair, t, d, Action::Read { count, buffer: vec![165; count + 3] });
    match reply.outcome {
        Ok(Answer::Given(given)) => reply.buffer[..usize::from(given)].to_vec(),
        other => panic!("no bytes: {other:?}"),
    }
}

/// The octet of a granted Commit, and the number of transactions in it.
fn granted(pair: &mut Pair, t: usize) -> (u8, u32) {
    match make(pair, Call::Commit { transaction: t, minute: 0 }).outcome {
        Ok(Answer::Granted(octet)) => (octet, octet.count_ones()),
        other => panic!("not granted: {other:?}"),
    }
}

fn refused_commit(pair: &mut Pair, t: usize) -> Refusal {
    make(pair, Call::Commit { transaction: t, minute: 0 }).outcome.expect_err("a refusal")
}

#[test]
fn a_appends_land_in_the_order_of_commits() {
    let mut pair = begun(2);
    write(&mut pair, 0, 0, b"AB");
    write(&mut pair, 1, 0, b"CD");
    assert_eq!((granted(&mut pair, 1), granted(&mut pair, 0)), ((0, 0), (0, 0)));
    assert_eq!((&pair.state.buffers.files[..4], pair.state.store.offsets[0]), (&b"CDAB"[..], 4));
}

#[test]
fn b_an_offset_looked_at_makes_stale() {
    let mut pair = begun(2);
    assert_eq!(pointer(&mut pair, 0, 0), 0);
    write(&mut pair, 1, 0, b"A");
    assert_eq!(granted(&mut pair, 1), (1, 1));
    assert_eq!(refused_commit(&mut pair, 0), Refusal::Stale);
}

#[test]
fn c_an_own_write_shields() {
    let mut pair = begun(2);
    seek(&mut pair, 0, 0, 0);
    write(&mut pair, 0, 0, b"AB");
    seek(&mut pair, 0, 0, 0);
    assert_eq!(read(&mut pair, 0, 0, 2), b"AB");
    seek(&mut pair, 1, 8, 0);
    write(&mut pair, 1, 8, b"XY");
    assert_eq!((granted(&mut pair, 1), granted(&mut pair, 0)), ((0, 0), (0, 0)));
    assert_eq!(&pair.state.buffers.files[..2], b"AB");
}

#[test]
fn d_byte_by_byte() {
    for (place, turned) in [(2, 1), (3, 0)] {
        let mut pair = begun_on_filled(2);
        seek(&mut pair, 0, 0, 0);
        write(&mut pair, 0, 0, b"AB");
        seek(&mut pair, 0, 0, 0);
        assert_eq!(read(&mut pair, 0, 0, 3), b"AB\0");
        seek(&mut pair, 1, 8, place);
        write(&mut pair, 1, 8, b"Z");
        assert_eq!(granted(&mut pair, 1), (turned, turned.into()));
        if turned == 1 {
            assert_eq!(refused_commit(&mut pair, 0), Refusal::Stale);
        } else {
            assert_eq!(granted(&mut pair, 0), (0, 0));
        }
    }
}

#[test]
fn e_setting_to_the_same_value_counts() {
    let mut pair = begun_on_filled(2);
    seek(&mut pair, 0, 0, 0);
    assert_eq!(read(&mut pair, 0, 0, 1), [0]);
    seek(&mut pair, 1, 8, 0);
    write(&mut pair, 1, 8, &[0]);
    assert_eq!(granted(&mut pair, 1), (1, 1));
    assert_eq!(refused_commit(&mut pair, 0), Refusal::Stale);
}

#[test]
fn f_a_moved_descriptor_is_settled_by_a_read() {
    let mut pair = begun(2);
    write(&mut pair, 0, 0, b"A");
    seek(&mut pair, 0, 0, 0);
    assert_eq!(read(&mut pair, 0, 0, 1), b"A");
    seek(&mut pair, 1, 0, 5);
    assert_eq!(granted(&mut pair, 1), (1, 1));
    assert_eq!(refused_commit(&mut pair, 0), Refusal::Stale);
}

#[test]
fn g_a_read_settles_the_other_descriptors_of_its_file() {
    let mut pair = begun(1);
    write(&mut pair, 0, 8, b"Q");
    seek(&mut pair, 0, 0, 0);
    assert_eq!(read(&mut pair, 0, 0, 1), b"Q");
    let sightings = &pair.machine.open[0].as_ref().expect("it is open").course.sightings;
    assert_eq!(sightings.iter().map(|sighting| sighting.item).collect::<Vec<_>>(), [Item::Offset { descriptor: 8 }]);
}

#[test]
fn h_a_commit_without_room_stays_open() {
    let mut pair = begun(3);
    seek(&mut pair, 0, 0, 4096);
    assert_eq!(granted(&mut pair, 0), (0, 0));
    write(&mut pair, 1, 0, b"A");
    assert_eq!(refused_commit(&mut pair, 1), Refusal::AppendPastEnd);
    seek(&mut pair, 2, 0, 0);
    assert_eq!((granted(&mut pair, 2), granted(&mut pair, 1)), ((0, 0), (0, 0)));
    assert_eq!((pair.state.buffers.files[0], pair.state.store.offsets[0]), (b'A', 1));
}

#[test]
fn i_a_moved_descriptor_answers_without_settling() {
    let mut pair = begun(2);
    write(&mut pair, 0, 0, b"A");
    seek(&mut pair, 0, 0, 9);
    assert_eq!(pointer(&mut pair, 0, 0), 9);
    seek(&mut pair, 1, 0, 4);
    assert_eq!((granted(&mut pair, 1), granted(&mut pair, 0)), ((0, 0), (0, 0)));
    assert_eq!((pair.state.buffers.files[4], pair.state.store.offsets[0]), (b'A', 9));
}

#[test]
fn j_looking_moves_nothing() {
    let mut pair = begun(2);
    assert_eq!((pointer(&mut pair, 0, 0), pointer(&mut pair, 1, 0)), (0, 0));
    assert_eq!((granted(&mut pair, 0), granted(&mut pair, 1)), ((0, 0), (0, 0)));
}

#[test]
fn k_the_end_of_a_file() {
    let mut pair = begun_on_filled(1);
    seek(&mut pair, 0, 0, 4096);
    assert_eq!(step(&mut pair, 0, 0, Action::Seek { to: 4097 }).outcome, Err(Refusal::SeekPastEnd));
    assert_eq!(refused_write(&mut pair, 0, 0, b"A"), Refusal::WritePastEnd);
    write(&mut pair, 0, 0, b"");
    seek(&mut pair, 0, 0, 4095);
    assert_eq!(read(&mut pair, 0, 0, 2), [0]);
}

#[test]
fn l_the_sixty_fifth_record() {
    let mut pair = begun(1);
    for _ in 0..64 {
        write(&mut pair, 0, 0, b"");
    }
    assert_eq!(refused_write(&mut pair, 0, 0, b""), Refusal::RecordsFull);
    assert_eq!(refused_write(&mut pair, 0, 0, &[0; 4097]), Refusal::WritePastEnd);
}
