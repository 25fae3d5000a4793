#!/usr/bin/env bash
# The reference in Rust, written from the specification, the readings of its open places and the header (of states that no call left, from the
# definition): by itself, and then beside the engine over the C interface.
#   tests/differential.sh [COUNT [SEED..]]     COUNT cases in each of thirteen groups, in pieces and forged more, for each seed
# A longer run: tests/differential.sh 200000 11 12 13. The archive is that of
# `tests/archive.sh`, which tests/interface.sh calls; nothing is fetched.
set -eu
cd "$(dirname "$0")/.."
count=${1:-10000}
[ $# -gt 1 ] && shift && seeds=$* || seeds="1 2 3"
export CARGO_HOME="$PWD/target/cargo" CARGO_TARGET_DIR="$PWD/target/reference" PEWTERSLUG_LIB="$PWD/crates/pewterslug/out" CARGO_NET_OFFLINE=true
mkdir -p "$CARGO_TARGET_DIR"
cd tests/reference
cargo test --quiet > "$CARGO_TARGET_DIR.log" 2>&1 || { cat "$CARGO_TARGET_DIR.log"; exit 1; }
grep "^test result" "$CARGO_TARGET_DIR.log"
cargo build --quiet --release --features engine
for seed in $seeds; do
  "$CARGO_TARGET_DIR/release/differential" "$seed" "$count"
done
