#!/usr/bin/env bash
# The listing program on stored plans and scripts, tests/listing/*.script, with the answers in tests/listing/*.expected, on lines that have a
# plan, a script and the answer each, tests/listing/lines.txt, and on long ones that are made here. Where python3 is there, the reference must
# give the same answers, to random plans and scripts too.
#   tests/listing.sh [FILE]     the lines of FILE only
set -eu
file=${1:+$(realpath "$1")}
cd "$(dirname "$0")/.."
repo=$PWD
# shellcheck source=tests/programs.sh
. tests/programs.sh
prove listing
room=$(mktemp -d)
trap 'rm -rf "$room"' EXIT
python=$(command -v python3 || true)
count=0

# Runs the program in the room on its plan.bin, if there is one, and its script, and compares.
compare() { # NAME
  (cd "$room" && start listing < script > given)
  cmp "$room/given" "$room/expected" || { echo "listing: $1 is answered otherwise"; exit 1; }
  if [ -n "$python" ]; then
    python3 tests/reference/listing.py "$room/plan.bin" < "$room/script" | cmp - "$room/expected" || { echo "listing: $1: the reference answers otherwise"; exit 1; }
  fi
  count=$((count + 1))
}

# The bytes of so many digits, `-` for none.
bytes() { # DIGITS
  [ "$1" = - ] || { printf '%s' "$1" > "$room/digits"; tests/bytes.sh "$room/digits"; }
}

# Each line `listing PLAN SCRIPT > ANSWER` of a file.
lines() { # FILE
  local number=0 word plan script sign answer
  while read -r word plan script sign answer; do
    number=$((number + 1))
    [ "$word" != '#' ] || continue
    [ "$word $sign" = 'listing >' ] || { echo "listing: line $number of $1 is none"; exit 1; }
    bytes "$plan" > "$room/plan.bin"
    bytes "$script" > "$room/script"
    bytes "$answer" > "$room/expected"
    compare "line $number of $1"
  done < "$1"
}

if [ -n "$file" ]; then
  lines "$file"
  [ "$count" -gt 0 ] || { echo "listing: no lines"; exit 1; }
  echo "listing: $count lines answered as they must be${python:+, and by the reference}"
  exit
fi

# The plan's digits, or `none` for no plan.bin, and the names of the scripts.
while read -r plan names; do
  rm -f "$room/plan.bin"
  [ "$plan" = none ] || tests/bytes.sh "$plan" > "$room/plan.bin"
  for name in $names; do
    cp "tests/listing/$name.script" "$room/script"
    cp "tests/listing/$name.expected" "$room/expected"
    compare "$name"
  done
done < tests/listing/cases
lines tests/listing/lines.txt

# a script of 100,000 lines, and lines of 100,000 bytes with others behind them
tests/bytes.sh docs/two-valve.hex > "$room/plan.bin"
many=100000
yes 't 0' | sed "${many}q" > "$room/script"
{ echo 'plan 2 1 4'; yes 'turn 0 none' | sed "${many}q"; echo 'states 0 0 0'; } > "$room/expected"
compare 'a long script'
long=$(printf '%0100000d' 0)
printf 't %s\nt 1\nr 1 3%s\nt 1\n%s\nr 1 3\nt %s' "$long" "$long" "$long" "$long" > "$room/script"
printf '%s\n' 'plan 2 1 4' 'refused 10' 'turn 1 event 2' 'refused 10' 'turn 1 none' 'refused 10' 'response 1 queued 3' 'refused 10' 'states 0 1 1' > "$room/expected"
compare 'long lines'

if [ -n "$python" ]; then
  for seed in 1 2 3 4 5 6 7 8; do
    python3 tests/reference/listing.py --random "$seed" "$room/plan.bin" "$room/script"
    python3 tests/reference/listing.py "$room/plan.bin" < "$room/script" > "$room/expected"
    compare "random $seed"
  done
fi
echo "listing: $count runs answered as they must be${python:+, and by the reference}"
