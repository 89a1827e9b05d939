//! Stored outputs.

use std::fs;

use crate::run::{explain, tree, word};

#[test]
fn the_sample_is_explained() {
    let explained = fs::read_to_string(tree("samples/afternoon.explained")).expect("a stored output");
    assert_eq!(explain(&[word(&tree("samples/afternoon.trace"))], b"").good(), explained);
    let trace = fs::read(tree("samples/afternoon.trace")).expect("the sample");
    assert_eq!(explain(&[], &trace).good(), explained);
    assert_eq!(explain(&["-"], &trace).good(), explained);
}

#[test]
fn the_input_of_trace_agrees_with_its_stored_output() {
    let (input, output) = (tree("crates/trace/stdin"), tree("crates/trace/stdout"));
    let printed = explain(&["--quiet", "--answers", word(&output), word(&input)], b"");
    assert_eq!((printed.text(), printed.status), ("", Some(0)));
    assert!(!printed.said.contains("differs"), "{}", printed.said);
}

#[test]
fn the_input_of_replay_agrees_with_its_stored_output() {
    let (input, output) = (tree("crates/replay/stdin"), tree("crates/replay/stdout"));
    let printed = explain(&["--log", "--quiet", "--answers", word(&output), word(&input)], b"");
    assert_eq!((printed.text(), printed.status), ("", Some(0)));
}
