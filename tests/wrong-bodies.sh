#!/usr/bin/env bash
# The wrong bodies that are not in the gate: tests/wrong-bodies.sh CRATE [LABEL] replays those of a crate, or one of them. They are the files
# tests/wrong-bodies/CRATE/LABEL.edit and the rows of docs/WRONG-BODIES.md without a name (the k-th row of a function is FUNCTION-k, and of the
# definitions definition-k). Each is put into a copy of the tree by itself, and the prover must refuse it for a fact, not for the shape of the
# proof; two run side by side. `tests/wrong-bodies.sh --dry [CRATE]` only places them, of every crate if none is named. `--gate [CRATE]` asks the same
# of the gate's own edits, by what the prover said of each when the gate last ran.
set -eu
cd "$(dirname "$0")/.."
if [ -d "crates/${1:-.}/src" ]; then
  mkdir -p target
  (cd "crates/$1" && rt check) > target/wrong-bodies.log 2>&1 || { tail -n 40 target/wrong-bodies.log; exit 1; }
fi
exec python3 tests/wrong_bodies.py "$@"
