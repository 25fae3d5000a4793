#!/usr/bin/env bash
# Frames over the C interface: stored cases of both calls, their answers and every byte of the buffers. Another file of cases can be named.
set -eu
cd "$(dirname "$0")/.."
mkdir -p target
tests/archive.sh
${CC:-cc} -shared -o target/libframes.so -Wl,--whole-archive crates/pewterslug/out/libpewterslug.a -Wl,--no-whole-archive -lm
python3 tests/frames/frames.py target/libframes.so "${1:-tests/frames/cases.txt}"
