#!/usr/bin/env bash
# The check of images in pieces, over the C interface: stored examples (tests/pieces/cases.txt) and, where python3 is there, images cut at every
# place and at the limit (tests/pieces/extremes.py) and random ones; the reference must give the same answers. Every image is also handed over in
# one piece and byte by byte.
#   tests/pieces.sh [FILE]     the lines of FILE only
# The archive is that of `tests/archive.sh`, which tests/interface.sh calls.
set -eu
file=${1:+$(realpath "$1")}
cd "$(dirname "$0")/.."
room=target/pieces
mkdir -p "$room"
python=$(command -v python3 || true)
${CC:-gcc} -std=c11 -Wall -Wextra -Werror -pedantic -O1 -g -fsanitize=address,undefined -fno-sanitize-recover=all -Iinclude \
  tests/pieces/driver.c crates/pewterslug/out/libpewterslug.a -lm -o "$room/driver"
count=0

# Long lines without their middle.
short() { sed 's/\(.\{300\}\).*\(.\{300\}\)/\1 .. \2/'; }

# Each line of a file must be answered as it says.
by_engine() { # FILE
  "$room/driver" < "$1" > "$room/given" || { tail -n 1 "$room/given" | short; printf '\npieces: %s: the driver stops there\n' "$1"; exit 1; }
  diff "$1" "$room/given" > "$room/differences" || {
    grep -m 2 '^<' "$room/differences" | short
    grep -m 2 '^>' "$room/differences" | short
    echo "pieces: $1 is answered otherwise"
    exit 1
  }
  count=$((count + $(grep -vc '^#' "$1" || true)))
}

by_reference() { # FILE
  [ -n "$python" ] || return 0
  python3 tests/reference/pieces.py < "$1" > "$room/expected"
  cmp "$room/expected" "$1" || { echo "pieces: $1: the reference answers otherwise"; exit 1; }
}

if [ -n "$file" ]; then
  by_engine "$file"
  by_reference "$file"
else
  by_engine tests/pieces/cases.txt
  by_reference tests/pieces/cases.txt
  if [ -n "$python" ]; then
    python3 tests/pieces/extremes.py > "$room/extremes.txt"
    by_engine "$room/extremes.txt"
    by_reference "$room/extremes.txt"
    for seed in 1 2 3; do
      python3 tests/reference/pieces.py --random "$seed" 200 > "$room/random-$seed.txt"
      by_engine "$room/random-$seed.txt"
    done
  fi
fi
[ "$count" -gt 0 ] || { echo "pieces: no lines"; exit 1; }
echo "pieces: $count lines answered as they must be${python:+, and by the reference}"
