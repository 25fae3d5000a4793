#!/usr/bin/env bash
# The simulation on stored plans and scripts, tests/simulate/*.script, with the answers in tests/simulate/*.expected, and on long ones that are
# made here. Where python3 is there, the reference must give the same answers, to random plans and scripts too.
set -eu
cd "$(dirname "$0")/.."
repo=$PWD
# shellcheck source=tests/programs.sh
. tests/programs.sh
prove simulate
room=$(mktemp -d)
trap 'rm -rf "$room"' EXIT
python=$(command -v python3 || true)
count=0

# Runs the program in the room on its plan.bin, if there is one, and its script, and compares.
compare() { # NAME
  (cd "$room" && start simulate < script > given)
  cmp "$room/given" "$room/expected" || { echo "simulate: $1 is answered otherwise"; exit 1; }
  count=$((count + 1))
}

reference() {
  python3 tests/reference/many_devices.py "$room/plan.bin" < "$room/script"
}

# The plan's digits, or `none` for no plan.bin, and the names of the scripts.
while read -r plan names; do
  rm -f "$room/plan.bin"
  [ "$plan" = none ] || tests/bytes.sh "$plan" > "$room/plan.bin"
  for name in $names; do
    cp "tests/simulate/$name.script" "$room/script"
    cp "tests/simulate/$name.expected" "$room/expected"
    compare "$name"
    if [ -n "$python" ]; then
      reference | cmp - "$room/expected" || { echo "simulate: $name: the reference answers otherwise"; exit 1; }
    fi
  done
done < tests/simulate/cases

# A plan of as many bytes as one may have, 49,152, and one byte more, which is number 1 although the plan before it is whole.
tests/limit-plan.sh > "$room/limit.hex"
for name in at_the_limit one_byte_over; do
  tests/bytes.sh "$room/limit.hex" > "$room/plan.bin"
  cp "tests/simulate/$name.script" "$room/script"
  cp "tests/simulate/$name.expected" "$room/expected"
  [ $name = at_the_limit ] || printf '\0' >> "$room/plan.bin"
  compare "$name"
  if [ -n "$python" ]; then
    reference | cmp - "$room/expected" || { echo "simulate: $name: the reference answers otherwise"; exit 1; }
  fi
done

# a row of more than 1024 events, and lines of 100,000 bytes with others behind them
tests/bytes.sh tests/simulate/alone.hex > "$room/plan.bin"
said() { yes "$1" | sed "${2}q"; }
row() { printf '%s' "$1"; said ' 0' "$2" | tr -d '\n'; echo; }
rows() { row record "$1"; row commands "$1"; }
said 'm 0' 2100 > "$room/script"
{
  echo 'plan 1 0 1'
  said 'module 0 event 0' 1025
  rows 1024
  said 'module 0 event 0' 1024
  rows 1024
  said 'module 0 event 0' 51
  rows 52
  echo 'states 0'
  echo 'device 0'
} > "$room/expected"
compare 'long rows'
long=$(printf '%0100000d' 0)
printf 'm %s\nm 0\nk 0 8%s\nm 0\n%s\nk 0 -\nm %s' "$long" "$long" "$long" "$long" > "$room/script"
printf '%s\n' 'plan 1 0 1' 'refused 10' 'module 0 event 0' 'refused 10' 'module 0 event 0' 'refused 10' 'tick 0' 'refused 10' 'record 0 0' 'commands 0 0' 'states 0' 'device 0' > "$room/expected"
compare 'long lines'

if [ -n "$python" ]; then
  for seed in 1 2 3 4 5 6 7 8 9 10 11 12; do
    python3 tests/reference/many_devices.py --random "$seed" 400 "$room/plan.bin" "$room/script"
    reference > "$room/expected"
    compare "random $seed"
  done
fi
echo "simulate: $count runs answered as they must be${python:+, and by the reference}"
