//! Corners of Places, of looking, of stale readers and of lengths (requests F-1, F-2, F-6 and F-8), as lists of calls
//! on store and plain machine together, and on forged records. Those of later requests have modules of their own.

mod best;
mod dispatch;
mod splitting;
mod undo;
mod windows;

use crate::call::{Action, Answer, Call, Refusal, Step};
use crate::pair::Pair;
use crate::plain::Item;
use crate::store::{Buffers, Standing, Store, DESCRIPTORS, FILES};
use crate::vectors::run;

const FRESH: &str = "fresh 0 1 2 3 4 5 6 7 0 1 2 3 4 5 6 7 -> done\n";

/// Do the calls after a Fresh get the replies that stand beside them?
fn agrees_at_rest(calls: &str) {
    let report = run(&format!("{FRESH}{calls}"));
    assert!(report.disagreements.is_empty(), "{report:?}");
}

/// The same with transaction 0 begun.
fn agrees(calls: &str) {
    agrees_at_rest(&format!("begin 0 -> done\n{calls}"));
}

#[test]
fn numbers_are_looked_at_in_the_order_of_the_table() {
    agrees(
        "\
write 0 0 41 -> done
places 8 8 - -> refused 3
places 1 8 - -> refused 4
places 0 8 - -> refused 6
places 0 18446744073709551615 - -> refused 6
places 0 0 - -> refused 15
places 0 7 - -> pairs 0 -
abort 0 -> done
places 0 0 - -> refused 4
",
    );
}

#[test]
fn a_write_without_a_place_is_15_whatever_its_length_and_the_buffers() {
    agrees(
        "\
seek 0 8 5 -> done
write 0 8 4142 -> done
places 0 0 - -> refused 16
write 0 0 - -> done
places 0 0 - -> refused 15
places 0 0 07*4 -> refused 15
seek 0 0 9 -> done
places 0 0 07*4 -> refused 15
write 0 0 43 -> done
places 0 0 07*9 -> refused 15
read 0 8 0 - -> given 0 -
places 0 0 07*9 -> pairs 2 00050002.00090001.07
places 0 1 07*4 -> pairs 0 07*4
",
    );
}

#[test]
fn a_settled_write_lies_from_the_committed_offset() {
    agrees(
        "\
seek 0 0 1000 -> done
commit 0 -> granted 0
begin 0 -> done
write 0 0 414243 -> done
write 0 0 44 -> done
pointer 0 0 -> offset 1004
places 0 0 07*4 -> pairs 1 03e80004
",
    );
}

#[test]
fn stretches_that_touch_or_overlap_are_one() {
    agrees(
        "\
seek 0 0 10 -> done
write 0 0 41*4 -> done
seek 0 8 14 -> done
write 0 8 42*2 -> done
places 0 0 07*5 -> pairs 1 000a0006.07
seek 0 8 5 -> done
write 0 8 43*5 -> done
places 0 0 07*4 -> pairs 1 0005000b
seek 0 8 7 -> done
write 0 8 44*2 -> done
places 0 0 07*4 -> pairs 1 0005000b
seek 0 8 0 -> done
write 0 8 45*4 -> done
places 0 0 07*4 -> refused 16
places 0 0 07*7 -> refused 16
places 0 0 07*8 -> pairs 2 00000004.0005000b
seek 0 8 17 -> done
write 0 8 46 -> done
places 0 0 07*13 -> pairs 3 00000004.0005000b.00110001.07
seek 0 8 3 -> done
write 0 8 47*14 -> done
places 0 0 07*13 -> pairs 1 00000012.07*9
",
    );
}

#[test]
fn a_write_of_no_bytes_covers_and_joins_nothing() {
    agrees(
        "\
seek 0 0 4096 -> done
write 0 0 - -> done
places 0 0 - -> pairs 0 -
seek 0 0 3 -> done
write 0 0 41 -> done
write 0 0 - -> done
seek 0 0 5 -> done
write 0 0 - -> done
write 0 0 42 -> done
places 0 0 07*8 -> pairs 2 00030001.00050001
",
    );
}

#[test]
fn the_ends_of_a_file_and_the_whole_of_it() {
    agrees(
        "\
seek 0 7 4095 -> done
write 0 7 41 -> done
seek 0 7 0 -> done
write 0 7 42 -> done
places 0 7 07*8 -> pairs 2 00000001.0fff0001
abort 0 -> done
begin 0 -> done
seek 0 7 0 -> done
write 0 7 43*4096 -> done
places 0 7 07*4 -> pairs 1 00001000
",
    );
}

#[test]
fn own_writes_alone_and_also_when_stale() {
    agrees(
        "\
pointer 0 0 -> offset 0
write 0 0 41 -> done
begin 1 -> done
seek 1 0 2 -> done
write 1 0 42 -> done
places 0 0 07*4 -> pairs 1 00000001
places 1 0 07*4 -> pairs 1 00020001
commit 1 -> granted 1
places 0 0 07*4 -> pairs 1 00000001
commit 0 -> refused 13
places 0 0 07*4 -> refused 4
",
    );
}

#[test]
fn the_longest_list_has_a_pair_for_each_of_64_records() {
    let writes: String = (0..64).rev().map(|k| format!("seek 0 0 {}\nwrite 0 0 41\n", 64 * k)).collect();
    let writes = writes.replace('\n', " -> done\n");
    let pairs: String = (0..64).map(|k| format!(".{:04x}0001", 64 * k)).collect();
    let list = &pairs[1..];
    agrees(&format!("{writes}places 0 0 07*255 -> refused 16\nplaces 0 0 07*256 -> pairs 64 {list}\n"));
}

#[test]
fn a_read_of_0_bytes_counts_and_a_look_does_not() {
    agrees(
        "\
begin 1 -> done
begin 2 -> done
pointer 0 3 -> offset 0
pointer 2 3 -> offset 0
commit 2 -> granted 0
pointer 1 3 -> offset 0
read 1 3 0 - -> given 0 -
commit 1 -> granted 1
commit 0 -> refused 13
",
    );
}

#[test]
fn what_was_refused_or_made_before_an_end_counts_for_nothing() {
    agrees(
        "\
begin 1 -> done
pointer 0 3 -> offset 0
seek 1 3 9 -> done
abort 1 -> done
begin 1 -> done
pointer 1 3 -> offset 0
seek 1 3 4097 -> refused 8
write 1 3 41*4097 -> refused 9
read 1 3 1 - -> refused 7
commit 1 -> granted 0
commit 0 -> granted 0
",
    );
}

#[test]
fn a_stale_transaction_is_turned_back_after_6_and_before_7_and_12() {
    agrees(
        "\
begin 1 -> done
pointer 0 1 -> offset 0
write 0 0 41 -> done
write 0 2 41 -> done
seek 0 2 9 -> done
seek 0 3 5 -> done
seek 1 0 4096 -> done
seek 1 1 0 -> done
commit 1 -> granted 1
read 0 16 2 07 -> refused 6
pointer 0 16 -> refused 6
read 0 0 2 07 -> refused 18
read 0 0 1 07 -> refused 18
read 0 15 0 - -> refused 18
pointer 0 0 -> refused 18
pointer 0 1 -> refused 18
pointer 0 2 -> refused 18
pointer 0 3 -> refused 18
pointer 0 15 -> refused 18
seek 0 3 7 -> done
write 0 3 42 -> done
begin 0 -> refused 5
commit 0 -> refused 13
pointer 0 0 -> refused 4
",
    );
}

/// What a Commit of transaction 0 leaves in offset 3, on a record in which descriptor 3 stands so, was acted on or not, and
/// has the committed offset 7.
fn committed_from(standing: Standing, acted: u16) -> Result<u16, Refusal> {
    let mut buffers = Buffers::zeros();
    let mut lent = buffers.lend();
    let mut store = Store::new([0; DESCRIPTORS]);
    store.begin(&mut lent, 0)?;
    store.offsets[3] = 7;
    store.transactions[0].standings[3] = standing;
    store.transactions[0].acted = acted;
    store.commit(&mut lent, 0, 0).map(|_| store.offsets[3])
}

#[test]
fn a_forged_record_may_hold_any_mixture() {
    assert_eq!(committed_from(Standing::Deferred(2), 8), Ok(9));
    assert_eq!(committed_from(Standing::Deferred(2), 65527), Ok(7));
    assert_eq!(committed_from(Standing::Deferred(4090), 0), Err(Refusal::AppendPastEnd));
    assert_eq!(committed_from(Standing::Untouched, 8), Ok(7));
    assert_eq!(committed_from(Standing::Placed(1), 0), Ok(7));
    assert_eq!(committed_from(Standing::Known(1), 8), Ok(1));
}

// Lengths.

#[test]
fn a_length_is_an_entry_of_its_own_kind() {
    agrees(
        "\
begin 1 -> done
seek 0 0 0 -> done
read 0 0 1 07 -> given 0 07
seek 1 8 1 -> done
write 1 8 58 -> done
commit 1 -> granted 1
  lengths 2 0 0 0 0 0 0 0
commit 0 -> refused 13
begin 0 -> done
seek 0 0 0 -> done
read 0 0 3 07*3 -> given 2 0058.07
",
    );
}

#[test]
fn a_short_read_that_ends_at_an_own_write_sights_the_length() {
    agrees(
        "\
begin 1 -> done
seek 0 0 0 -> done
write 0 0 4142 -> done
seek 0 0 0 -> done
read 0 0 9 07*9 -> given 2 4142.07*7
seek 1 8 5 -> done
write 1 8 58 -> done
commit 1 -> granted 1
commit 0 -> refused 13
  lengths 6 0 0 0 0 0 0 0
",
    );
}

#[test]
fn a_read_cut_at_4096_sights_the_length_too() {
    agrees(
        "\
begin 1 -> done
seek 0 0 4095 -> done
write 0 0 41 -> done
seek 0 0 4095 -> done
read 0 0 2 07*2 -> given 1 4107
read 0 0 2 07*2 -> given 0 07*2
seek 1 8 0 -> done
write 1 8 58 -> done
commit 1 -> granted 1
commit 0 -> refused 13
",
    );
}

#[test]
fn a_read_of_all_that_is_wanted_sights_no_length() {
    agrees(
        "\
begin 1 -> done
seek 0 0 0 -> done
write 0 0 4142 -> done
seek 0 0 0 -> done
read 0 0 2 07*2 -> given 2 4142
read 0 0 0 - -> given 0 -
seek 1 8 2 -> done
write 1 8 58 -> done
commit 1 -> granted 0
commit 0 -> granted 0
  files 414258 00*32765
  lengths 3 0 0 0 0 0 0 0
",
    );
}

#[test]
fn a_read_from_beyond_the_length_gives_nothing_and_stays() {
    agrees(
        "\
begin 1 -> done
begin 2 -> done
write 2 0 414243 -> done
commit 2 -> granted 0
seek 0 8 10 -> done
read 0 8 0 - -> given 0 -
seek 1 8 10 -> done
read 1 8 3 07*3 -> given 0 07*3
pointer 1 8 -> offset 10
begin 2 -> done
write 2 0 44 -> done
commit 2 -> granted 2
commit 0 -> granted 0
commit 1 -> refused 13
  lengths 4 0 0 0 0 0 0 0
  offsets 4 0 0 0 0 0 0 0 10 0 0 0 0 0 0 0
",
    );
}

#[test]
fn the_bytes_before_an_own_write_come_from_the_file() {
    for (place, octet, ended) in [(2, 1, "refused 13"), (5, 0, "granted 0")] {
        agrees(&format!(
            "\
begin 1 -> done
seek 0 0 5 -> done
write 0 0 58 -> done
seek 0 0 0 -> done
read 0 0 6 07*6 -> given 6 00*5.58
seek 1 8 {place} -> done
write 1 8 59 -> done
commit 1 -> granted {octet}
commit 0 -> {ended}
"
        ));
    }
}

#[test]
fn only_a_higher_length_is_set() {
    agrees(
        "\
begin 1 -> done
begin 2 -> done
write 2 0 41*5 -> done
commit 2 -> granted 0
seek 0 8 5 -> done
read 0 8 1 07 -> given 0 07
seek 1 8 4 -> done
write 1 8 42 -> done
commit 1 -> granted 0
begin 1 -> done
seek 1 0 0 -> done
write 1 0 43 -> done
commit 1 -> granted 0
  lengths 5 0 0 0 0 0 0 0
read 0 8 1 07 -> given 0 07
begin 1 -> done
write 1 9 44*7 -> done
commit 1 -> granted 0
  lengths 5 7 0 0 0 0 0 0
commit 0 -> granted 0
",
    );
}

#[test]
fn a_write_of_no_bytes_raises_nothing() {
    agrees(
        "\
begin 1 -> done
seek 0 0 9 -> done
read 0 0 1 07 -> given 0 07
seek 1 8 100 -> done
write 1 8 - -> done
seek 1 8 0 -> done
read 1 8 5 07*5 -> given 0 07*5
seek 1 8 4096 -> done
write 1 8 - -> done
commit 1 -> granted 0
  lengths 0 0 0 0 0 0 0 0
commit 0 -> granted 0
",
    );
}

#[test]
fn what_is_not_granted_raises_nothing_and_what_is_refused_sights_nothing() {
    agrees(
        "\
begin 1 -> done
read 0 0 2 07 -> refused 7
read 0 16 1 07 -> refused 6
write 1 8 41 -> done
read 1 8 2 07*2 -> given 0 07*2
abort 1 -> done
  lengths 0 0 0 0 0 0 0 0
begin 1 -> done
begin 2 -> done
seek 2 1 4096 -> done
commit 2 -> granted 0
write 0 1 42 -> done
read 0 9 1 07 -> refused 12
write 1 9 43 -> done
commit 1 -> granted 0
  lengths 0 1 0 0 0 0 0 0
seek 0 1 0 -> done
begin 2 -> done
seek 2 1 0 -> done
commit 2 -> granted 0
commit 0 -> granted 0
  lengths 0 1 0 0 0 0 0 0
",
    );
}

/// Makes a call of transaction 0 that has to be accepted.
fn step(pair: &mut Pair, descriptor: usize, action: Action) -> Answer {
    pair.call(&Call::Step(0, Step { descriptor, action }), None).outcome.expect("an answer")
}

#[test]
fn a_write_without_a_place_counts_when_it_is_placed() {
    let mut pair = Pair::new();
    for commit in [true, false] {
        assert_eq!(pair.call(&Call::Begin(0), None).outcome, Ok(Answer::Done));
        if commit {
            step(&mut pair, 0, Action::Seek { to: 10 });
            assert_eq!(pair.call(&Call::Commit { transaction: 0, minute: 0 }, None).outcome, Ok(Answer::Granted(0)));
        }
    }
    step(&mut pair, 0, Action::Write { data: b"AB".to_vec() });
    assert_eq!((pair.state.store.length(0, 0), pair.state.store.lengths[0]), (0, 0));
    let read = Action::Read { count: 20, buffer: vec![7; 20] };
    assert_eq!(step(&mut pair, 8, read), Answer::Given(12));
    assert_eq!((pair.state.store.length(0, 0), pair.state.store.lengths[0]), (12, 0));
    let sightings = &pair.machine.open[0].as_ref().expect("it is open").course.sightings;
    let offsets = [0, 8].map(|descriptor| Item::Offset { descriptor });
    let bytes = (0..10).map(|place| Item::Byte { file: 0, place });
    let listed = offsets.into_iter().chain(bytes).chain([Item::Length { file: 0 }]);
    assert!(sightings.iter().map(|sighting| sighting.item).eq(listed), "{sightings:?}");
    pair.check_at_rest();
}

#[test]
fn a_length_above_4096_is_refused_by_all_but_fresh() {
    let mut buffers = Buffers::zeros();
    let mut lent = buffers.lend();
    for file in 0..FILES {
        let mut store = Store::new([0; DESCRIPTORS]);
        store.lengths[file] = 4096;
        assert_eq!(store.begin(&mut lent, 0), Ok(()));
        store.lengths[file] = 4097;
        let forged = store.clone();
        let refused = Err(Refusal::RecordRange);
        assert_eq!(store.begin(&mut lent, 8), refused);
        assert_eq!(store.seek(&mut lent, 0, 0, 0), refused);
        assert_eq!(store.write(&mut lent, 0, 0, b"A"), refused);
        assert_eq!(store.get_file_pointer(&mut lent, 0, 0), Err(Refusal::RecordRange));
        assert_eq!(store.read(&mut lent, 0, 0, 1, &mut [7]), Err(Refusal::RecordRange));
        assert_eq!(store.places(&lent, 0, 0, &mut []), Err(Refusal::RecordRange));
        assert_eq!(store.commit(&mut lent, 0, 0), Err(Refusal::RecordRange));
        assert_eq!(store.abort(&mut lent, 0), refused);
        assert_eq!(store, forged);
        assert_eq!(store.fresh(&mut lent, &[0; DESCRIPTORS]), Ok(()));
        assert_eq!(store, Store::new([0; DESCRIPTORS]));
    }
}

#[test]
fn sighted_lengths_of_a_closed_number_are_passed_over_and_cleared() {
    let mut buffers = Buffers::zeros();
    let mut lent = buffers.lend();
    let mut store = Store::new([0; DESCRIPTORS]);
    assert_eq!(store.begin(&mut lent, 0), Ok(()));
    store.transactions[1].sighted_lengths = 255;
    assert_eq!(store.write(&mut lent, 0, 0, b"A"), Ok(()));
    assert_eq!(store.commit(&mut lent, 0, 0), Ok(0));
    assert_eq!((store.transactions[1].sighted_lengths, store.transactions[1].stale), (255, false));
    assert_eq!(store.begin(&mut lent, 1), Ok(()));
    assert_eq!(store.transactions[1].sighted_lengths, 0);
}

#[test]
fn bytes_beyond_a_forged_length_are_shown_up_to_an_own_write() {
    let mut buffers = Buffers::zeros();
    buffers.files.fill(5);
    let mut lent = buffers.lend();
    let mut store = Store::new([0; DESCRIPTORS]);
    store.lengths[0] = 2;
    assert_eq!(store.begin(&mut lent, 0), Ok(()));
    let mut reader = [7; 6];
    assert_eq!(store.read(&mut lent, 0, 0, 6, &mut reader), Ok(2));
    assert_eq!(reader, [5, 5, 7, 7, 7, 7]);
    assert_eq!(store.seek(&mut lent, 0, 0, 4), Ok(()));
    assert_eq!(store.write(&mut lent, 0, 0, b"A"), Ok(()));
    assert_eq!(store.seek(&mut lent, 0, 0, 0), Ok(()));
    assert_eq!(store.read(&mut lent, 0, 0, 6, &mut reader), Ok(5));
    assert_eq!(reader, [5, 5, 5, 5, b'A', 7]);
}
