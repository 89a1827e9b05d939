//! Taking back the last grant (request F-13).

use super::agrees;
use crate::call::{Call, Refusal};
use crate::forge::{forge, garbage_in_undo};
use crate::generator::Damage;
use crate::state::State;
use crate::store::{Buffers, Log, Place, Store, Undo, WriteRecord, DESCRIPTORS, FILES, SPAN};

#[test]
fn old_bytes_lie_in_the_order_of_landing_and_go_back_from_the_last() {
    agrees(
        "\
seek 0 0 0 -> done
write 0 0 4142 -> done
seek 0 0 1 -> done
write 0 0 43 -> done
commit 0 0 -> granted 0
  files 4143 00*32766
  undo 000042 00*4093
undo -> done
  files 00*32768
  offsets 0 0 0 0 0 0 0 0 0 0 0 0 0 0 0 0
  lengths 0 0 0 0 0 0 0 0
  undo 000042 00*4093
",
    );
}

#[test]
fn own_writes_that_overlap_through_two_descriptors() {
    agrees(
        "\
write 0 0 616263646566 -> done
commit 0 0 -> granted 0
begin 0 -> done
seek 0 0 1 -> done
write 0 0 41424344 -> done
seek 0 8 0 -> done
write 0 8 787879 -> done
seek 0 0 2 -> done
write 0 0 31 -> done
seek 0 8 2 -> done
write 0 8 3233 -> done
commit 0 0 -> granted 0
  files 78783233 4466 00*32762
  undo 62636465.61414279.3143 00*4086
undo -> done
  files 616263646566 00*32762
  offsets 6 0 0 0 0 0 0 0 0 0 0 0 0 0 0 0
  lengths 6 0 0 0 0 0 0 0
",
    );
}

#[test]
fn an_append_taken_back_and_another_after_it() {
    agrees(
        "\
write 0 0 4142 -> done
commit 0 0 -> granted 0
begin 0 -> done
write 0 0 434445 -> done
commit 0 0 -> granted 0
  undo 000000 00*4093
undo -> done
  offsets 2 0 0 0 0 0 0 0 0 0 0 0 0 0 0 0
begin 0 -> done
write 0 0 58 -> done
pointer 0 0 -> offset 3
commit 0 0 -> granted 0
  files 414258 00*32765
  lengths 3 0 0 0 0 0 0 0
undo -> done
undo -> refused 24
  files 4142 00*32766
  lengths 2 0 0 0 0 0 0 0
",
    );
}

#[test]
fn nothing_to_take_back_after_a_fresh_or_a_taking_back() {
    agrees(
        "\
undo -> refused 23
abort 0 -> done
undo -> refused 24
begin 0 -> done
write 0 0 41 -> done
commit 0 0 -> granted 0
undo -> done
undo -> refused 24
begin 0 -> done
write 0 0 42 -> done
commit 0 0 -> granted 0
fresh 0 1 2 3 4 5 6 7 0 1 2 3 4 5 6 7 -> done
undo -> refused 24
begin 0 -> done
commit 0 0 -> granted 0
begin 1 -> done
undo -> refused 23
abort 1 -> done
undo -> done
undo -> refused 24
",
    );
}

#[test]
fn fresh_leaves_the_undo_buffer() {
    agrees(
        "\
write 0 0 414243 -> done
commit 0 0 -> granted 0
begin 0 -> done
seek 0 0 0 -> done
write 0 0 5859 -> done
commit 0 0 -> granted 0
fresh 0 1 2 3 4 5 6 7 0 1 2 3 4 5 6 7 -> done
  undo 414200 00*4093
begin 0 -> done
seek 0 0 9 -> done
write 0 0 41 -> done
commit 0 0 -> granted 0
  undo 004200 00*4093
",
    );
}

#[test]
fn refused_commits_and_aborts_leave_what_is_held() {
    agrees(
        "\
write 0 0 4142 -> done
seek 0 1 4096 -> done
commit 0 0 -> granted 0
begin 0 -> done
begin 1 -> done
window 0 600 720 -> done
write 0 0 43 -> done
commit 0 0 -> refused 21
commit 0 1440 -> refused 22
write 1 1 44 -> done
commit 1 0 -> refused 12
abort 0 -> done
undo -> refused 23
abort 1 -> done
  undo 0000 00*4094
undo -> done
  files 00*32768
  offsets 0 0 0 0 0 0 0 0 0 0 0 0 0 0 0 0
",
    );
}

/// The grant that makes another stale is the last one, whatever becomes of the other.
#[test]
fn a_stale_commit_leaves_what_is_held() {
    agrees(
        "\
begin 1 -> done
pointer 1 0 -> offset 0
write 1 0 43 -> done
write 0 0 4142 -> done
commit 0 0 -> granted 2
commit 1 0 -> refused 13
undo -> done
  files 00*32768
  lengths 0 0 0 0 0 0 0 0
",
    );
}

#[test]
fn a_grant_that_sets_nothing_is_taken_back_too() {
    agrees(
        "\
write 0 0 4142 -> done
commit 0 0 -> granted 0
begin 0 -> done
commit 0 0 -> granted 0
undo -> done
undo -> refused 24
begin 0 -> done
write 0 0 - -> done
seek 0 0 7 -> done
commit 0 0 -> granted 0
  offsets 7 0 0 0 0 0 0 0 0 0 0 0 0 0 0 0
undo -> done
  offsets 2 0 0 0 0 0 0 0 0 0 0 0 0 0 0 0
  files 4142 00*32766
",
    );
}

#[test]
fn lengths_and_offsets_go_back_also_in_a_closed_file() {
    agrees(
        "\
seek 0 0 4 -> done
write 0 0 41 -> done
write 0 9 42 -> done
commit 0 0 -> granted 0
  lengths 5 1 0 0 0 0 0 0
window 0 600 720 -> done
undo -> done
  files 00*32768
  lengths 0 0 0 0 0 0 0 0
  offsets 0 0 0 0 0 0 0 0 0 0 0 0 0 0 0 0
begin 0 -> done
write 0 0 43 -> done
commit 0 599 -> refused 21
commit 0 600 -> granted 0
",
    );
}

/// Grant numbers are used again after a taking back, and no transaction is open then that could have seen one.
#[test]
fn what_is_begun_after_a_taking_back_sights_the_old_setters() {
    agrees(
        "\
write 0 0 41 -> done
commit 0 0 -> granted 0
undo -> done
begin 0 -> done
begin 1 -> done
pointer 1 0 -> offset 0
read 1 0 1 07 -> given 0 07
write 0 0 42 -> done
commit 0 0 -> granted 2
commit 1 0 -> refused 13
  files 42 00*32767
",
    );
}

#[test]
fn a_whole_log_is_held() {
    agrees(
        "\
seek 0 0 0 -> done
write 0 0 61*4096 -> done
commit 0 0 -> granted 0
begin 0 -> done
seek 0 8 0 -> done
write 0 8 62*4096 -> done
commit 0 0 -> granted 0
  undo 61*4096
undo -> done
  files 61*4096 00*28672
",
    );
}

/// A state that holds a grant of two writes, AB at 0 and C at 1.
fn holding() -> State {
    let mut state = State::new();
    let store = &mut state.store;
    let mut lent = state.buffers.lend();
    store.begin(&mut lent, 0).expect("it is closed");
    for (to, data) in [(0, b"AB".as_slice()), (1, b"C")] {
        store.seek(&mut lent, 0, 0, to).expect("a place");
        store.write(&mut lent, 0, 0, data).expect("room");
    }
    store.commit(&mut lent, 0, 0).expect("nothing in the way");
    state
}

/// Some of the calls, with good numbers.
fn calls() -> [Call; 5] {
    let files = (0..16).map(|d| d % 8).collect();
    let window = Call::Window { file: 0, start: 0, end: 0 };
    [Call::Fresh { files }, Call::Begin(0), Call::Commit { transaction: 0, minute: 0 }, window, Call::Undo]
}

#[test]
fn a_fourth_buffer_of_another_length_is_1() {
    for length in [0, SPAN - 1, SPAN + 1, 32768] {
        for call in calls() {
            let mut state = holding();
            state.buffers.undo.resize(length, 0);
            let before = state.clone();
            assert_eq!(state.apply(&call).outcome, Err(Refusal::BufferLength), "{call:?} with {length}");
            assert!(state == before);
        }
    }
}

fn refused_2(state: &State) {
    for call in calls().into_iter().skip(1) {
        let mut tried = state.clone();
        assert_eq!(tried.apply(&call).outcome, Err(Refusal::RecordRange), "{call:?} on {:?}", state.store.undo);
        assert!(tried == *state);
    }
}

#[test]
fn each_range_of_what_is_held_is_looked_at() {
    let clean = Damage { short: 0, short_length: 0, forgery: 0, forged_transaction: 0, forged_index: 0, excess: 0 };
    for forgery in 19..=27 {
        for forged_index in 0..16 {
            let mut state = holding();
            forge(&mut state.store, &Damage { forgery, forged_index, ..clean });
            refused_2(&state);
            // The same is free where nothing is held.
            state.store.undo.valid = false;
            assert!(state.apply(&Call::Begin(0)).outcome.is_ok(), "forgery {forgery}");
        }
    }
}

#[test]
fn the_ends_of_the_ranges_pass() {
    let record = |place, length| WriteRecord { descriptor: 15, place: Place::At(place), length };
    let logs = [
        Log { records: vec![record(4096, 0); 64], bytes: 0 },
        Log { records: vec![record(0, 4096)], bytes: 4096 },
        Log { records: vec![record(4095, 1), record(0, 4095)], bytes: 4096 },
    ];
    for log in logs {
        let mut state = holding();
        state.store.undo = Undo { valid: true, log, offsets: [4096; DESCRIPTORS], lengths: [4096; FILES] };
        state.buffers.undo.fill(9);
        let Log { records, bytes } = state.store.undo.log.clone();
        assert!(state.apply(&Call::Undo).outcome.is_ok());
        assert_eq!((state.store.offsets, state.store.lengths), ([4096; DESCRIPTORS], [4096; FILES]));
        let nines = state.buffers.files.iter().filter(|&&byte| byte == 9).count();
        assert_eq!(nines, usize::from(bytes), "{} records", records.len());
    }
}

#[test]
fn a_record_too_many_a_byte_too_many_and_a_place_too_far() {
    let record = |place, length| WriteRecord { descriptor: 0, place: Place::At(place), length };
    let logs = [
        Log { records: vec![record(0, 0); 65], bytes: 0 },
        Log { records: vec![record(0, 4096), record(0, 1)], bytes: 4097 },
        Log { records: vec![record(0, 4096), record(0, 1)], bytes: 4096 },
        Log { records: vec![record(4096, 1)], bytes: 1 },
        Log { records: vec![record(65535, 2)], bytes: 2 },
        Log { records: vec![record(0, 2)], bytes: 1 },
        Log { records: vec![WriteRecord { descriptor: 16, ..record(0, 1) }], bytes: 1 },
        Log { records: vec![WriteRecord { place: Place::After(0), ..record(0, 0) }], bytes: 0 },
    ];
    for log in logs {
        let mut state = holding();
        state.store.undo.log = log;
        refused_2(&state);
    }
}

#[test]
fn garbage_passes_while_nothing_is_held() {
    let mut store = Store::new([0; DESCRIPTORS]);
    let mut buffers = Buffers::zeros();
    let mut lent = buffers.lend();
    garbage_in_undo(&mut store);
    let garbage = store.undo.clone();
    assert_eq!(store.undo(&mut lent), Err(Refusal::NothingToUndo));
    assert_eq!(store.begin(&mut lent, 0), Ok(()));
    assert_eq!(store.undo(&mut lent), Err(Refusal::UndoWhileOpen));
    assert_eq!(store.undo, garbage);
    assert_eq!(store.write(&mut lent, 0, 0, b"A"), Ok(()));
    assert_eq!(store.commit(&mut lent, 0, 0), Ok(0));
    let record = WriteRecord { descriptor: 0, place: Place::At(0), length: 1 };
    let log = Log { records: vec![record], bytes: 1 };
    assert_eq!(store.undo, Undo { valid: true, log, offsets: [0; DESCRIPTORS], lengths: [0; FILES] });
    assert_eq!(store.undo(&mut lent), Ok(()));
    assert_eq!(store, Store::new([0; DESCRIPTORS]));
}
