#!/usr/bin/env bash
# Plans on paper, over the C interface: stored examples (tests/pages/cases.txt) and, where python3 is there, plans that fill their pages, the largest
# ones (tests/pages/extremes.py) and random ones; the reference must give the same answers, and read every text that the engine wrote back by its
# columns to the image. That reader must take no spoilt text but one that is the text of what it reads (tests/pages/misprints.py).
#   tests/pages.sh [FILE]     the lines of FILE only
# The archive is that of `tests/archive.sh`, which tests/interface.sh calls.
set -eu
file=${1:+$(realpath "$1")}
cd "$(dirname "$0")/.."
room=target/pages
mkdir -p "$room"
python=$(command -v python3 || true)
${CC:-gcc} -std=c11 -Wall -Wextra -Werror -pedantic -O1 -g -fsanitize=address,undefined -fno-sanitize-recover=all -Iinclude \
  tests/pages/driver.c crates/pewterslug/out/libpewterslug.a -lm -o "$room/driver"
count=0
read=0

# Long lines without their middle.
short() { sed 's/\(.\{300\}\).*\(.\{300\}\)/\1 .. \2/'; }

# Each line of a file must be answered as it says, and each text read back.
by_engine() { # FILE
  "$room/driver" < "$1" > "$room/given" || { tail -n 1 "$room/given" | short; printf '\npages: %s: the driver stops there\n' "$1"; exit 1; }
  diff "$1" "$room/given" > "$room/differences" || {
    grep -m 2 '^<' "$room/differences" | short
    grep -m 2 '^>' "$room/differences" | short
    echo "pages: $1 is answered otherwise"
    exit 1
  }
  count=$((count + $(grep -vc '^#' "$1" || true)))
  [ -n "$python" ] || return 0
  python3 tests/reference/pages.py --back < "$room/given" > "$room/back" || { echo "pages: $1: a text is not read back"; exit 1; }
  read=$((read + $(cat "$room/back")))
}

by_reference() { # FILE
  [ -n "$python" ] || return 0
  python3 tests/reference/pages.py < "$1" > "$room/expected"
  cmp "$room/expected" "$1" || { echo "pages: $1: the reference answers otherwise"; exit 1; }
}

if [ -n "$file" ]; then
  by_engine "$file"
  by_reference "$file"
else
  by_engine tests/pages/cases.txt
  by_reference tests/pages/cases.txt
  if [ -n "$python" ]; then
    python3 tests/pages/misprints.py > "$room/misprints"
    python3 tests/pages/extremes.py > "$room/extremes.txt"
    by_engine "$room/extremes.txt"
    by_reference "$room/extremes.txt"
    for seed in 1 2 3; do
      python3 tests/reference/pages.py --random "$seed" 100 > "$room/random-$seed.txt"
      by_engine "$room/random-$seed.txt"
    done
  fi
fi
[ "$count" -gt 0 ] || { echo "pages: no lines"; exit 1; }
echo "pages: $count lines answered as they must be${python:+, and by the reference; $read texts read back}"
