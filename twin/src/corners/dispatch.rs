//! Rounds until each script is done (request F-10).

use super::{agrees, agrees_at_rest};
use crate::call::{Call, Dispatch, Refusal, ScriptAction, ScriptStep};
use crate::state::State;

#[test]
fn looking_and_appending_takes_as_many_rounds_as_scripts() {
    for n in 1..=8 {
        let scripts: Vec<String> = (0..n).map(|k| format!("pointer:0,write:0:{k}:1")).collect();
        let granted = vec!["0"; n].join(",");
        let commits = n * (n + 1) / 2;
        let written: String = "4142434445464748".chars().take(2 * n).collect();
        agrees_at_rest(&format!(
            "\
dispatch {} 4142434445464748 - 0 -> ran {granted} commits {commits} reader -
  files {written} 00*{}
  offsets {n} 0 0 0 0 0 0 0 0 0 0 0 0 0 0 0
  lengths {n} 0 0 0 0 0 0 0
",
            scripts.join("|"),
            32768 - n
        ));
    }
}

#[test]
fn appends_alone_take_one_round_and_land_in_script_order() {
    agrees_at_rest(
        "\
dispatch write:0:2:2|write:0:0:2|-|write:8:1:1 41424344 - 0 -> ran 0,0,0,0 commits 4 reader -
  files 42444142 00*32764
  offsets 4 0 0 0 0 0 0 0 1 0 0 0 0 0 0 0
",
    );
}

#[test]
fn no_script_and_scripts_without_calls() {
    agrees_at_rest(
        "\
dispatch none - - 0 -> ran - commits 0 reader -
undo -> refused 24
dispatch none - 07*3 1440 -> ran - commits 0 reader 07*3
dispatch - - - 0 -> ran 0 commits 1 reader -
undo -> done
dispatch -|-|- - - 0 -> ran 0,0,0 commits 3 reader -
dispatch - - - 1440 -> ran 22 commits 1 reader -
",
    );
}

#[test]
fn bytes_read_go_to_the_front_later_ones_over_earlier_ones() {
    agrees_at_rest(
        "\
dispatch write:0:0:6|write:1:3:2 414243444546 07*4 0 -> ran 0,0 commits 2 reader 07*4
dispatch seek:0:0,read:0:3|read:9:1,seek:8:4,read:8:9,read:9:1 - 07*8 0 -> ran 0,7 commits 1 reader 414243.07*5
dispatch seek:0:0,read:0:3|read:9:1,seek:8:4,read:8:8 - 07*8 0 -> ran 0,0 commits 2 reader 454643.07*5
dispatch read:9:1|seek:8:4,read:8:3 - 07*3 0 -> ran 0,0 commits 2 reader 454607
dispatch seek:0:0,read:0:3,read:0:0|seek:1:0,read:1:1 - 07*3 0 -> ran 0,0 commits 2 reader 444243
",
    );
}

#[test]
fn a_script_fails_at_a_call_and_the_others_go_on() {
    let calls = [("seek:16:0", 6), ("read:0:3", 7), ("seek:0:4097", 8), ("seek:0:4096,write:0:0:1", 9)];
    for (call, refusal) in calls {
        agrees_at_rest(&format!(
            "\
dispatch write:0:0:1,{call},write:0:1:1|write:0:2:1|{call} 414243 07*2 0 -> ran {refusal},0,{refusal} commits 1 reader 07*2
  files 43 00*32767
begin 0 -> done
begin 1 -> done
begin 2 -> done
"
        ));
    }
}

#[test]
fn settling_and_placing_without_room() {
    agrees_at_rest(
        "\
dispatch seek:0:4096 41 07 0 -> ran 0 commits 1 reader 07
dispatch write:0:0:1,pointer:0|write:0:0:1|write:0:0:1,read:8:0 41 07 0 -> ran 12,12,12 commits 1 reader 07
  files 00*32768
begin 0 -> done
begin 1 -> done
begin 2 -> done
",
    );
}

#[test]
fn a_commit_refused_with_12_21_or_22_ends_a_script() {
    agrees_at_rest(
        "\
dispatch seek:0:4096 41 - 0 -> ran 0 commits 1 reader -
window 1 600 720 -> done
dispatch write:0:0:1|write:1:0:1|write:2:0:1 41 - 0 -> ran 12,21,0 commits 3 reader -
begin 0 -> done
abort 0 -> done
dispatch write:1:0:1|seek:1:7 41 - 720 -> ran 21,0 commits 2 reader -
dispatch write:1:0:1|seek:2:7 41 - 1440 -> ran 22,22 commits 2 reader -
dispatch write:1:0:1,seek:1:4097|seek:2:7 41 - 18446744073709551615 -> ran 8,22 commits 1 reader -
  offsets 4096 7 1 0 0 0 0 0 0 0 0 0 0 0 0 0
dispatch write:1:0:1|seek:1:7 41 - 719 -> ran 0,0 commits 2 reader -
",
    );
}

#[test]
fn a_script_fails_in_the_second_round() {
    // At a call: the offset that it looks at has moved to the end.
    agrees_at_rest(
        "\
dispatch seek:0:4096|pointer:0,write:0:0:1 41 - 0 -> ran 0,9 commits 2 reader -
  files 00*32768
begin 1 -> done
",
    );
    // At its Commit: stale by offset 1 first, then without room after offset 0.
    agrees_at_rest(
        "\
dispatch seek:1:5,seek:0:4096|pointer:1,write:0:0:1|write:8:0:1 41 - 0 -> ran 0,12,0 commits 4 reader -
  files 41 00*32767
begin 1 -> done
",
    );
}

/// The second script reads what the first has committed, and moves the offset from which the third reads on.
#[test]
fn a_later_round_sees_what_an_earlier_one_committed() {
    agrees_at_rest(
        "\
dispatch write:0:0:2|read:8:4|read:8:4,write:8:2:1 414243 07*4 0 -> ran 0,0,0 commits 6 reader 4142.07*2
  files 414243 00*32765
  offsets 2 0 0 0 0 0 0 0 3 0 0 0 0 0 0 0
",
    );
}

#[test]
fn too_many_scripts_or_calls_and_parts_past_the_data() {
    let eight = ["seek:0:1"; 8].join("|");
    let sixteen = ["seek:0:1"; 16].join(",");
    let most = [sixteen.as_str(); 8].join("|");
    agrees_at_rest(&format!(
        "\
dispatch {eight} - - 0 -> ran 0,0,0,0,0,0,0,0 commits 8 reader -
dispatch {eight}|- - - 0 -> refused 20
dispatch {eight}|- - - 1440 -> refused 20
dispatch {sixteen} - - 0 -> ran 0 commits 1 reader -
dispatch {sixteen},seek:0:1 - - 0 -> refused 20
dispatch -|-|{sixteen},seek:0:1 - - 0 -> refused 20
dispatch {most} - - 0 -> ran 0,0,0,0,0,0,0,0 commits 8 reader -
dispatch write:0:0:3,write:0:3:0,write:0:2:1 414243 - 0 -> ran 0 commits 1 reader -
dispatch write:0:0:4 414243 - 0 -> refused 20
dispatch write:0:1:3 414243 - 0 -> refused 20
dispatch write:0:3:1 414243 - 0 -> refused 20
dispatch write:0:4:0 414243 - 0 -> refused 20
dispatch write:0:0:0 - - 0 -> ran 0 commits 1 reader -
dispatch write:0:1:0 - - 0 -> refused 20
dispatch write:0:18446744073709551615:1 414243 - 0 -> refused 20
dispatch write:0:1:18446744073709551615 414243 - 0 -> refused 20
dispatch -|seek:16:0,write:16:4:0 414243 - 1440 -> refused 20
  offsets 5 0 0 0 0 0 0 0 0 0 0 0 0 0 0 0
"
    ));
}

#[test]
fn an_open_transaction_is_19_before_20() {
    agrees(
        "\
dispatch none - - 0 -> refused 19
dispatch write:0:1:0 - 07 0 -> refused 19
abort 0 -> done
dispatch write:0:1:0 - 07 0 -> refused 20
begin 7 -> done
dispatch - - - 0 -> refused 19
",
    );
}

#[test]
fn the_dispatchers_last_grant_is_taken_back() {
    agrees_at_rest(
        "\
dispatch write:0:0:2|pointer:0,write:0:2:1|write:1:0:1 414243 - 0 -> ran 0,0,0 commits 4 reader -
  files 414243 00*4093 41 00*28671
undo -> done
  files 4142 00*4094 41 00*28671
  offsets 2 1 0 0 0 0 0 0 0 0 0 0 0 0 0 0
undo -> refused 24
",
    );
}

#[test]
fn lengths_of_buffers_and_ranges_come_first() {
    let step = ScriptStep { descriptor: 0, action: ScriptAction::Write { start: 9, length: 9 } };
    let call =
        Call::Dispatch(Dispatch { scripts: vec![vec![step; 17]; 9], data: vec![], buffer: vec![7; 3], minute: 1440 });
    let mut state = State::new();
    state.store.begin(&mut state.buffers.lend(), 3).expect("it is closed");
    for refusal in [Refusal::DispatchWhileOpen, Refusal::RecordRange, Refusal::BufferLength] {
        match refusal {
            Refusal::RecordRange => state.store.lengths[7] = 4097,
            Refusal::BufferLength => state.buffers.undo.truncate(9),
            _ => {}
        }
        let before = state.clone();
        let reply = state.apply(&call);
        assert_eq!((reply.outcome, reply.buffer), (Err(refusal), vec![7; 3]));
        assert!(state == before);
    }
}
