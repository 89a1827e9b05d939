# The tests of the Rust crate: the sample trace, the twin, forged records, bad input, recording, the example on its first page.
. "$(dirname "$0")/lib.sh"
needs cargo
export LUZHANEM_LIB_DIR=$BUILD CARGO_TARGET_DIR=$BUILD/cargo
cargo test --offline --locked --release --quiet --manifest-path "$SOURCE/rust/Cargo.toml" || fail "cargo test"
LUZHANEM_LIB_DIR=$work cargo build --offline --manifest-path "$SOURCE/rust/Cargo.toml" >"$work/log" 2>&1 && fail "built without the archive"
grep -q 'libluzhanem.a is not there' "$work/log" || fail "$(cat "$work/log")"
