#!/usr/bin/env bash
# The one-device controller beside the reference in Python: the stored examples are the reference's, and random lines get its answers too.
set -eu
cd "$(dirname "$0")/.."
reference=tests/reference/one_device.py
given=target/device-given.txt
expected=target/device-expected.txt
mkdir -p target
python3 "$reference" < crates/device_vectors/stdin | cmp - crates/device_vectors/stdout

repo=$PWD
# shellcheck source=tests/programs.sh
. tests/programs.sh
prove device_vectors
for seed in 1 2 3; do
  lines=target/device-lines-$seed.txt
  python3 "$reference" --random "$seed" 1500 > "$lines"
  python3 "$reference" < "$lines" > "$expected"
  start device_vectors < "$lines" > "$given"
  cmp "$given" "$expected" || { echo "device: $lines is answered otherwise than by the reference"; exit 1; }
done
echo "device: the stored examples and 3 random runs are answered as by the reference"
