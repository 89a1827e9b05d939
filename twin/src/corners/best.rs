//! Best order to commit in (request F-14).

use super::{agrees, agrees_at_rest};
use crate::call::Refusal;
use crate::store::{Buffers, Standing, Store, DESCRIPTORS};

/// Transactions 0 to n - 1 on file 0, which is filled: each reads its place, and writes to the place of the next. Commits in
/// the given order turn every second one stale; only the opposite order has them all granted.
fn chain(n: usize) -> String {
    let mut calls = String::from("begin 0\nwrite 0 0 41*20\ncommit 0 0\n");
    for t in 0..n {
        calls += &format!("begin {t}\nseek {t} 8 {t}\nread {t} 8 1 07\nwrite {t} 8 42\n");
    }
    calls
        .lines()
        .map(|call| {
            let reply = match call.split(' ').next() {
                Some("commit") => "granted 0",
                Some("read") => "given 1 41",
                _ => "done",
            };
            format!("{call} -> {reply}\n")
        })
        .collect()
}

fn numbers(numbers: impl Iterator<Item = usize>) -> String {
    numbers.map(|number| number.to_string()).collect::<Vec<_>>().join(",")
}

#[test]
fn a_chain_whose_given_order_is_the_worst() {
    for n in 1..=6 {
        let all: usize = (1..=n).product();
        let (list, opposite) = (numbers(0..n), numbers((0..n).rev()));
        let worst = n.div_ceil(2);
        agrees_at_rest(&format!(
            "\
{}best {list} 0 40320 -> order {opposite} grants {n} gap 0 tried {all}
best {list} 0 {all} -> order {opposite} grants {n} gap 0 tried {all}
best {list} 0 1 -> order {list} grants {worst} gap {} tried 1
best {opposite} 0 1 -> order {opposite} grants {n} gap 0 tried 1
",
            chain(n),
            if all > 1 { n - worst } else { 0 },
        ));
    }
}

#[test]
fn the_last_of_all_orders_is_the_best() {
    agrees_at_rest(&format!(
        "{}best 0,1,2,3,4,5,6,7 0 40320 -> order 7,6,5,4,3,2,1,0 grants 8 gap 0 tried 40320\n",
        chain(8)
    ));
    agrees_at_rest(&format!(
        "\
{}best 0,1,2,3,4,5 0 719 -> order 0,1,5,4,3,2 grants 5 gap 1 tried 719
best 0,1,2,3,4,5 0 720 -> order 5,4,3,2,1,0 grants 6 gap 0 tried 720
",
        chain(6)
    ));
}

/// A byte that one sets and two have read: tried in the order of positions, whatever the numbers.
#[test]
fn the_earliest_of_those_tried_with_the_most_grants() {
    agrees_at_rest(
        "\
begin 5 -> done
write 5 0 4142 -> done
commit 5 0 -> granted 0
begin 5 -> done
begin 2 -> done
begin 7 -> done
seek 5 0 0 -> done
write 5 0 43 -> done
seek 2 8 0 -> done
read 2 8 1 07 -> given 1 41
seek 7 8 0 -> done
read 7 8 2 07*2 -> given 2 4142
best 5,2,7 0 1 -> order 5,2,7 grants 1 gap 2 tried 1
best 5,2,7 0 2 -> order 5,2,7 grants 1 gap 2 tried 2
best 5,2,7 0 3 -> order 2,5,7 grants 2 gap 1 tried 3
best 5,2,7 0 4 -> order 2,7,5 grants 3 gap 0 tried 4
best 5,2,7 0 5 -> order 2,7,5 grants 3 gap 0 tried 5
best 5,2,7 0 6 -> order 2,7,5 grants 3 gap 0 tried 6
best 5,7,2 0 6 -> order 7,2,5 grants 3 gap 0 tried 6
best 7,2,5 0 6 -> order 7,2,5 grants 3 gap 0 tried 6
best 2,5,7 0 1 -> order 2,5,7 grants 2 gap 1 tried 1
",
    );
}

#[test]
fn two_that_turn_each_other_stale() {
    agrees(
        "\
begin 1 -> done
pointer 0 0 -> offset 0
pointer 1 1 -> offset 0
seek 0 1 5 -> done
seek 1 0 5 -> done
best 0,1 0 2 -> order 0,1 grants 1 gap 0 tried 2
best 1,0 0 40320 -> order 1,0 grants 1 gap 0 tried 2
best 1,0 0 1 -> order 1,0 grants 1 gap 1 tried 1
best 1 0 1 -> order 1 grants 1 gap 0 tried 1
commit 0 0 -> granted 2
commit 1 0 -> refused 13
",
    );
}

#[test]
fn a_length_sighted_by_one_and_raised_by_two() {
    agrees(
        "\
begin 1 -> done
begin 2 -> done
begin 3 -> done
seek 0 0 3 -> done
read 0 0 1 07 -> given 0 07
seek 1 8 9 -> done
write 1 8 41 -> done
seek 2 8 4 -> done
write 2 8 42 -> done
seek 3 8 100 -> done
write 3 8 - -> done
best 1,2,0 0 6 -> order 0,1,2 grants 3 gap 0 tried 6
best 1,2,0 0 4 -> order 1,2,0 grants 2 gap 1 tried 4
best 3,0 0 1 -> order 3,0 grants 2 gap 0 tried 1
best 2,0 0 1 -> order 2,0 grants 1 gap 1 tried 1
commit 3 0 -> granted 0
commit 1 0 -> granted 1
best 2 0 1 -> order 2 grants 1 gap 0 tried 1
commit 2 0 -> granted 0
",
    );
}

#[test]
fn one_with_a_byte_for_a_closed_file_is_not_granted_and_blocks_nobody() {
    agrees(
        "\
begin 1 -> done
begin 2 -> done
window 0 600 720 -> done
seek 0 0 0 -> done
write 0 0 41 -> done
seek 1 8 0 -> done
read 1 8 1 07 -> given 0 07
seek 2 9 0 -> done
write 2 9 42 -> done
best 0,1,2 0 6 -> order 0,1,2 grants 2 gap 0 tried 6
best 0,1,2 0 1 -> order 0,1,2 grants 2 gap 0 tried 1
best 0 0 1 -> order 0 grants 0 gap 0 tried 1
best 0,1 600 1 -> order 0,1 grants 1 gap 1 tried 1
best 0,1 600 2 -> order 1,0 grants 2 gap 0 tried 2
best 0,1 720 1 -> order 0,1 grants 1 gap 0 tried 1
",
    );
}

#[test]
fn open_ones_outside_the_list_play_no_part() {
    agrees(
        "\
begin 1 -> done
begin 2 -> done
pointer 1 0 -> offset 0
write 2 5 41 -> done
seek 0 0 5 -> done
best 0 0 40320 -> order 0 grants 1 gap 0 tried 1
begin 3 -> done
pointer 3 0 -> offset 0
best 0,3 0 1 -> order 0,3 grants 1 gap 1 tried 1
commit 0 0 -> granted 10
best 1 0 1 -> refused 25
best 2 0 1 -> refused 25
",
    );
}

#[test]
fn a_list_is_looked_at_first() {
    agrees(
        "\
write 0 0 41 -> done
best - 0 1 -> refused 26
best - 1440 0 -> refused 26
best 8,8 0 1 -> refused 26
best 0,0 0 1 -> refused 26
best 0,1,0 1440 0 -> refused 26
best 18446744073709551615,18446744073709551615 0 1 -> refused 26
best 0,1,2,3,4,5,6,7,8 0 1 -> refused 26
best 0,1,2,3,4,5,6,8 1440 0 -> refused 3
best 1,8 1440 0 -> refused 3
best 18446744073709551615 0 1 -> refused 3
best 8 0 1 -> refused 3
best 1 1440 0 -> refused 4
best 0,1 1440 0 -> refused 4
best 0 1440 0 -> refused 22
best 0 18446744073709551615 1 -> refused 22
best 0 1439 0 -> refused 25
best 0 0 1 -> refused 25
abort 0 -> done
begin 0 -> done
best 0 0 0 -> refused 27
best 0 0 40321 -> refused 27
best 0 0 18446744073709551615 -> refused 27
best 0 1439 40320 -> order 0 grants 1 gap 0 tried 1
",
    );
}

#[test]
fn a_write_without_a_place_also_of_no_bytes_is_25() {
    agrees(
        "\
write 0 0 - -> done
best 0 0 1 -> refused 25
seek 0 0 9 -> done
best 0 0 1 -> refused 25
begin 1 -> done
best 1,0 0 1 -> refused 25
best 1 0 1 -> order 1 grants 1 gap 0 tried 1
read 0 8 0 - -> given 0 -
best 1,0 0 1 -> order 1,0 grants 2 gap 0 tried 1
",
    );
}

/// On a record that no call leaves, a Commit of the list may be refused with 12.
#[test]
fn without_room_on_a_forged_record() {
    let mut buffers = Buffers::zeros();
    let mut store = Store::new([0; DESCRIPTORS]);
    for t in 0..2 {
        assert_eq!(store.begin(&mut buffers.lend(), t), Ok(()));
    }
    store.offsets[3] = 4000;
    store.transactions[0].standings[3] = Standing::Deferred(97);
    assert_eq!(store.clone().commit(&mut buffers.lend(), 0, 0), Err(Refusal::AppendPastEnd));
    let best = store.best(&buffers.lend(), &[0, 1], 0, 1).expect("it is ready");
    assert_eq!((best.order(), best.grants, best.gap, best.tried), ([0, 1].as_slice(), 1, 1, 1));
    // One that moves the offset makes room for it.
    store.transactions[1].standings[3] = Standing::Placed(3999);
    store.transactions[1].acted = 8;
    let best = store.best(&buffers.lend(), &[0, 1], 0, 2).expect("it is ready");
    assert_eq!((best.order(), best.grants, best.gap, best.tried), ([1, 0].as_slice(), 2, 0, 2));
}
