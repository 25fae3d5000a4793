#!/usr/bin/env bash
# Questions about the joint states of plans, over the C interface, with guard bytes around all that is lent; tests/stuck.sh and tests/counts.sh
# run it. Stored examples (tests/WORD/cases.txt) and, where python3 is there, plans at the limits (tests/WORD/extremes.py) and random ones; the
# reference must give the same answers.
#   tests/joint.sh WORD [FILE]     WORD is stuck or counts; with FILE its lines only
# The archive is that of `tests/archive.sh`, which tests/interface.sh calls.
set -eu
word=$1
file=${2:+$(realpath "$2")}
cd "$(dirname "$0")/.."
room=target/joint/$word
mkdir -p "$room"
python=$(command -v python3 || true)
${CC:-gcc} -std=c11 -Wall -Wextra -Werror -pedantic -O1 -g -fsanitize=address,undefined -fno-sanitize-recover=all -Iinclude \
  tests/joint/driver.c crates/pewterslug/out/libpewterslug.a -lm -o "$room/driver"
count=0

# Each line of a file must be answered as it says.
by_engine() { # FILE
  "$room/driver" < "$1" > "$room/given"
  diff "$1" "$room/given" > "$room/differences" || { cut -c1-2000 "$room/differences" | head -n 4; echo "$word: $1 is answered otherwise"; exit 1; }
  count=$((count + $(grep -vc '^#' "$1")))
}

by_reference() { # FILE
  [ -n "$python" ] || return 0
  python3 tests/reference/joint.py < "$1" > "$room/expected"
  cmp "$room/expected" "$1" || { echo "$word: $1: the reference answers otherwise"; exit 1; }
}

if [ -n "$file" ]; then
  by_engine "$file"
  by_reference "$file"
else
  by_engine "tests/$word/cases.txt"
  by_reference "tests/$word/cases.txt"
  if [ -n "$python" ]; then
    python3 "tests/$word/extremes.py" > "$room/extremes.txt"
    by_engine "$room/extremes.txt"
    by_reference "$room/extremes.txt"
    for seed in 1 2 3; do
      python3 tests/reference/joint.py --random "$word" "$seed" 200 > "$room/random-$seed.txt"
      by_engine "$room/random-$seed.txt"
    done
  fi
fi
[ "$count" -gt 0 ] || { echo "$word: no lines"; exit 1; }
echo "$word: $count lines answered as they must be${python:+, and by the reference}"
