#!/usr/bin/env bash
# The distributed controller beside the reference in Python: the stored examples are the reference's, and random lines get its answers too.
set -eu
cd "$(dirname "$0")/.."
reference=tests/reference/many_vectors.py
given=target/many-given.txt
expected=target/many-expected.txt
mkdir -p target
python3 "$reference" < crates/many_vectors/stdin | cmp - crates/many_vectors/stdout

repo=$PWD
# shellcheck source=tests/programs.sh
. tests/programs.sh
prove many_vectors
for seed in 1 2 3; do
  lines=target/many-lines-$seed.txt
  python3 "$reference" --random "$seed" 4000 > "$lines"
  python3 "$reference" < "$lines" > "$expected"
  start many_vectors < "$lines" > "$given"
  cmp "$given" "$expected" || { echo "many: $lines is answered otherwise than by the reference"; exit 1; }
done
echo "many: the stored examples and 3 random runs are answered as by the reference"
