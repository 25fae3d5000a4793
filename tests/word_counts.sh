#!/usr/bin/env bash
# The program word_counts on stored plans and lines, tests/word_counts/cases, on lines of many bytes, and on plans with 4,096 joint states. Where
# python3 is there, the reference must give the same answers, to random plans and lengths too.
set -eu
cd "$(dirname "$0")/.."
repo=$PWD
# shellcheck source=tests/programs.sh
. tests/programs.sh
prove word_counts
room=$(mktemp -d)
trap 'rm -rf "$room"' EXIT
python=$(command -v python3 || true)
count=0

# A folder for one run, `here`, with its plan.bin; its files `input` and `expected` are written by who asks for it.
run_with() { # DIGITS
  count=$((count + 1))
  here=$room/$(printf '%03d' $count)
  mkdir "$here"
  [ "$1" = none ] || tests/bytes.sh "$1" > "$here/plan.bin"
}

while read -r digits input answer; do
  case $digits in '' | '#'*) continue ;; esac
  run_with "$digits"
  [ "$input" != nothing ] || input=
  printf '%b' "$input" > "$here/input"
  printf '%b' "$answer" > "$here/expected"
done < tests/word_counts/cases

# lines of 5,000 and of 100,000 bytes: digits, digits behind a zero, and digits with another byte or line behind them
long() { # ANSWER
  run_with docs/two-valve.hex
  cat > "$here/input"
  echo "$1" > "$here/expected"
}
for length in 5000 100000; do
  digits=$(printf "%0${length}d" 0)
  long 'refused 17' <<< "${digits//0/1}"
  long 'refused 17' < <(printf '4%s' "$digits")
  long 'refused 10' <<< "${digits}3"
  long 'refused 10' <<< "1${digits}x"
  long 'refused 10' <<< "1${digits}"$'\n3'
  long 'refused 10' < <(yes 3 | sed "${length}q")
done

# 4,096 joint states: of 12 events there are as many words as the modules have orders, and all lead to the last state; of 13 there is none
zeros() { yes 0 | sed "${1}q"; }
run_with tests/word_counts/12-modules.hex
echo 12 > "$here/input"
{ zeros 4095; printf '%s\n' 479001600 479001600; } > "$here/expected"
run_with tests/word_counts/12-modules.hex
echo 13 > "$here/input"
zeros 4097 > "$here/expected"

if [ -n "$python" ]; then
  # a long text: three modules of 16 states with an event to each, and eight that move nothing; most counts have 16 digits
  awk 'BEGIN {
    print "10 03 00 38"
    for (e = 0; e < 56; e++) printf "11 %02X %02X 01\n", e, e < 48 ? int(e / 16) : 2
    for (m = 0; m < 3; m++) printf "12 %02X 10 00\n", m
    for (m = 0; m < 3; m++) for (s = 0; s < 16; s++) for (e = 0; e < 56; e++)
      if ((e < 48 ? int(e / 16) : 2) == m) printf "13 %02X %02X %02X %02X\n", m, s, e, e < 48 ? e % 16 : s
    print "1F"
  }' > "$room/long.hex"
  for length in 11 12; do
    run_with "$room/long.hex"
    echo "$length" > "$here/input"
  done
  python3 tests/reference/joint.py --random counts 4 40 > "$room/lines"
  while read -r _ digits length _; do
    echo "$digits" > "$room/random.hex"
    run_with "$room/random.hex"
    echo "$length" > "$here/input"
  done < "$room/lines"
  python3 tests/reference/joint.py --counts "$room"/*/
fi

for here in "$room"/*/; do
  (cd "$here" && start word_counts < input > given)
  for told in expected reference; do
    if [ -e "$here$told" ] && ! cmp "$here/given" "$here$told"; then
      echo "word_counts: not as $told, of the plan and the input"
      od -An -v -tx1 "$here/plan.bin" | head -n 20
      head -c 200 "$here/input"
      exit 1
    fi
  done
done
echo "word_counts: $count runs answered as they must be${python:+, and by the reference}"
