//! Hours in which a file may change (request F-11).

use super::agrees;
use crate::call::{Action, Answer, Call, Refusal, Step};
use crate::pair::Pair;
use crate::plain;
use crate::store::{Buffers, Store, Window, DESCRIPTORS, FILES, MINUTES};

/// Transaction 0 writes a byte at place 0 of file 0, and at each of these minutes the Commit is refused with 21.
fn closed_at(window: &str, minutes: &[usize]) -> String {
    let refused: String = minutes.iter().map(|minute| format!("commit 0 {minute} -> refused 21\n")).collect();
    format!("window 0 {window} -> done\nseek 0 0 0 -> done\nwrite 0 0 41 -> done\n{refused}")
}

fn closed_then_granted(window: &str, closed: &[usize], open: &[usize]) {
    for minute in open {
        agrees(&format!("{}commit 0 {minute} -> granted 0\n", closed_at(window, closed)));
    }
}

#[test]
fn start_is_in_and_end_is_out() {
    closed_then_granted("600 720", &[0, 599, 720, 721, 1439], &[600, 601, 719]);
    closed_then_granted("600 601", &[599, 601], &[600]);
    closed_then_granted("0 1439", &[1439], &[0, 1, 1438]);
}

#[test]
fn over_midnight_on_both_sides_and_at_both_ends() {
    closed_then_granted("1200 60", &[60, 61, 720, 1199], &[1200, 1201, 1439, 0, 1, 59]);
    closed_then_granted("1439 0", &[0, 1, 1438], &[1439]);
    closed_then_granted("1439 1", &[1, 1438], &[1439, 0]);
    closed_then_granted("1 0", &[0], &[1, 720, 1439]);
}

#[test]
fn equal_start_and_end_are_always_open() {
    for window in ["0 0", "720 720", "1439 1439"] {
        closed_then_granted(window, &[], &[0, 719, 720, 721, 1438, 1439]);
    }
}

#[test]
fn store_and_machine_have_the_same_hours() {
    let borders = [0, 1, 2, 599, 600, 601, 1437, 1438, 1439];
    for start in borders {
        for end in borders {
            let window = Window { start, end };
            let plain = plain::Window { start: start.into(), end: end.into() };
            for minute in 0..MINUTES {
                assert_eq!(window.is_open(minute as u16), plain.is_open(minute), "{window:?} at {minute}");
            }
        }
    }
}

#[test]
fn a_commit_looks_at_22_then_13_then_21_then_12() {
    agrees(
        "\
begin 1 -> done
begin 2 -> done
window 0 600 720 -> done
pointer 0 1 -> offset 0
write 0 0 41 -> done
write 2 0 41 -> done
seek 1 1 0 -> done
seek 1 0 4096 -> done
commit 1 599 -> granted 1
commit 8 1440 -> refused 3
commit 1 1440 -> refused 4
commit 0 1440 -> refused 22
commit 0 18446744073709551615 -> refused 22
pointer 0 1 -> refused 18
commit 0 599 -> refused 13
commit 0 1440 -> refused 4
commit 2 1440 -> refused 22
commit 2 599 -> refused 21
commit 2 720 -> refused 21
commit 2 600 -> refused 12
begin 1 -> done
seek 1 0 7 -> done
commit 1 0 -> granted 0
commit 2 599 -> refused 21
commit 2 600 -> granted 0
  files 00*7 41 00*32760
",
    );
}

#[test]
fn a_write_without_a_place_counts_and_one_of_no_bytes_does_not() {
    agrees(
        "\
begin 1 -> done
window 0 600 720 -> done
write 0 0 - -> done
write 0 1 42 -> done
commit 0 0 -> granted 0
write 1 8 - -> done
write 1 8 43 -> done
commit 1 0 -> refused 21
seek 1 8 5 -> done
commit 1 0 -> refused 21
read 1 8 0 - -> given 0 -
commit 1 0 -> refused 21
window 0 0 0 -> done
commit 1 0 -> granted 0
  files 43 00*4095 42 00*28671
",
    );
}

#[test]
fn offsets_of_a_closed_file_are_set() {
    agrees(
        "\
begin 1 -> done
window 0 600 720 -> done
pointer 1 8 -> offset 0
seek 0 0 77 -> done
seek 0 8 78 -> done
commit 0 0 -> granted 2
  offsets 77 0 0 0 0 0 0 0 78 0 0 0 0 0 0 0
",
    );
}

#[test]
fn a_window_is_set_with_a_file_number_then_both_minutes() {
    agrees(
        "\
window 8 1440 0 -> refused 6
window 18446744073709551615 0 0 -> refused 6
window 7 1440 0 -> refused 22
window 7 0 1440 -> refused 22
window 7 1440 1440 -> refused 22
window 7 18446744073709551615 0 -> refused 22
write 0 7 41 -> done
commit 0 0 -> granted 0
window 7 1439 1438 -> done
begin 0 -> done
write 0 7 42 -> done
commit 0 1438 -> refused 21
window 7 1440 1440 -> refused 22
commit 0 1438 -> refused 21
fresh 0 1 2 3 4 5 6 7 0 1 2 3 4 5 6 7 -> done
begin 0 -> done
write 0 7 43 -> done
commit 0 1438 -> granted 0
",
    );
}

#[test]
fn a_window_set_while_a_transaction_is_open_counts_at_its_commit() {
    agrees(
        "\
write 0 0 41 -> done
window 0 10 20 -> done
write 0 0 42 -> done
commit 0 0 -> refused 21
window 0 20 10 -> done
commit 0 15 -> refused 21
write 0 0 43 -> done
commit 0 0 -> granted 0
  files 414243 00*32765
",
    );
}

/// The second run of a grant is at its minute, with Fresh's windows, though the file was opened for it and is closed again.
#[test]
fn the_serial_order_runs_with_freshs_windows() {
    let mut pair = Pair::new();
    let hours = [(0, 10), (10, 20), (20, 30)];
    for (start, end) in hours {
        let write = Step { descriptor: 0, action: Action::Write { data: vec![65] } };
        for call in [Call::Window { file: 0, start, end }, Call::Begin(0), Call::Step(0, write)] {
            assert_eq!(pair.call(&call, None).outcome, Ok(Answer::Done));
        }
        let commit = |minute| Call::Commit { transaction: 0, minute };
        assert_eq!(pair.call(&commit(end), None).outcome, Err(Refusal::FileClosed));
        assert_eq!(pair.call(&commit(start), None).outcome, Ok(Answer::Granted(0)));
        pair.check_at_rest();
    }
    assert!(hours[..2].iter().all(|&(start, _)| !pair.machine.windows[0].is_open(start)));
}

#[test]
fn a_minute_above_1439_in_the_record_is_refused_by_all_but_fresh() {
    let mut buffers = Buffers::zeros();
    let mut lent = buffers.lend();
    for file in 0..FILES {
        for window in [Window { start: 1440, end: 0 }, Window { start: 0, end: 1440 }] {
            let mut store = Store::new([0; DESCRIPTORS]);
            store.windows[file] = Window { start: 1439, end: 1439 };
            assert_eq!(store.begin(&mut lent, 0), Ok(()));
            store.windows[file] = window;
            let forged = store.clone();
            assert_eq!(store.seek(&mut lent, 0, 0, 0), Err(Refusal::RecordRange));
            assert_eq!(store.commit(&mut lent, 0, 1440), Err(Refusal::RecordRange));
            assert_eq!(store.set_window(&lent, file, 0, 0), Err(Refusal::RecordRange));
            assert_eq!(store, forged);
            assert_eq!(store.fresh(&mut lent, &[0; DESCRIPTORS]), Ok(()));
            assert_eq!(store, Store::new([0; DESCRIPTORS]));
        }
    }
}
