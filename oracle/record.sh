#!/usr/bin/env bash
# Makes the lists that the gate replays: crates/replay_calls and crates/recorded_numbers. The folder of the crate's sources
# comes as the argument. The lists are the same on each run, and nothing in them comes from the proved code.
set -eu
export QUINN_PROTO_SRC=$(cd "$1" && pwd)
cd "$(dirname "$0")/.."
export CARGO_TARGET_DIR=$PWD/target/oracle
cargo build --release --offline --quiet --manifest-path oracle/Cargo.toml
lists=$CARGO_TARGET_DIR/lists
for file in stdin stdout; do : > "crates/replay_calls/$file"; done
for module in rtt min_max bw pacer new_reno cubic bbr bbr_modes bbr_edges bbr_connections; do
  "$CARGO_TARGET_DIR/release/oracle" record "$module" "$lists/$module"
  for file in stdin stdout; do
    { echo "module $module"; cat "$lists/$module/$file"; } >> "crates/replay_calls/$file"
  done
done
rustc -O oracle/numbers.rs -o "$CARGO_TARGET_DIR/numbers"
"$CARGO_TARGET_DIR/numbers" crates/recorded_numbers
