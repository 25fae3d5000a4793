#!/usr/bin/env bash
# The program print_plan on stored plans and on plans that were cut or changed, tests/print_plan/cases; among them are plans that fill a page, or have
# one record less or more, the longest plan, and the one with the most records. Where python3 is there, the reference must give the same answers, to
# random damaged plans too.
set -eu
cd "$(dirname "$0")/.."
repo=$PWD
# shellcheck source=tests/programs.sh
. tests/programs.sh
prove print_plan
room=$(mktemp -d)
trap 'rm -rf "$room"' EXIT
python=$(command -v python3 || true)
count=0
mkdir "$room/plans" "$room/runs"
tests/limit-plan.sh > "$room/plans/limit.hex"
tests/most-records-plan.sh > "$room/plans/most.hex"

# a plan of 7 to 135 records: four events, and a module of 32 states with the rest of them as moves
for records in 59 60 61 120; do
  awk -v moves=$((records - 7)) 'BEGIN {
    printf "10 01 00 04\n11 00 00 00\n11 01 00 00\n11 02 00 01\n11 03 00 01\n12 00 20 00\n"
    for (i = 0; i < moves; i++) printf "13 00 %02X %02X %02X\n", int(i / 4), i % 4, i % 32
    printf "1F\n"
  }' > "$room/plans/$records.hex"
done

# A folder for one run, `here`.
run_folder() {
  count=$((count + 1))
  here=$room/runs/$(printf '%03d' $count)
  mkdir "$here"
}

# the answer goes to the file `expected`, or to `sum` where the pages are only told by their number and their SHA-256
while read -r digits offset put answer; do
  case $digits in '' | '#'*) continue ;; esac
  run_folder
  if [ "$digits" != none ]; then
    [ -e "$digits" ] || digits=$room/plans/$digits.hex
    tests/bytes.sh "$digits" > "$room/plan"
    head -c "$offset" "$room/plan" > "$here/plan.bin"
    if [ "$put" != cut ]; then
      tests/bytes.sh <(echo "$put") >> "$here/plan.bin"
      length=$(wc -c < "$here/plan.bin")
      tail -c "+$((length + 1))" "$room/plan" >> "$here/plan.bin"
    fi
  fi
  case $answer in
    *.pages) cp "$answer" "$here/expected" ;;
    *' pages '*) echo "$answer" > "$here/sum" ;;
    *) echo "$answer" > "$here/expected" ;;
  esac
done < tests/print_plan/cases

if [ -n "$python" ]; then
  for digits in examples/plans/*.hex tests/print_plan/*.hex; do
    tests/bytes.sh "$digits" > "$room/$(basename "$digits" .hex).plan"
  done
  mkdir "$room/damaged"
  python3 tests/check_plan/damaged.py 2 40 "$room/damaged" "$room"/*.plan
  for image in "$room"/*.plan "$room"/damaged/*.bin; do
    run_folder
    mv "$image" "$here/plan.bin"
  done
  python3 tests/print_plan/printed.py "$room"/runs/*/
fi

# Of a text the number of pages, each of 60 lines of 73 bytes, and the SHA-256.
sum_of() { # FILE
  local sum
  sum=$(sha256sum < "$1")
  echo "$(($(wc -c < "$1") / 4380)) pages ${sum%% *}"
}

# The plan of a run that is answered otherwise.
fail() { # FILE
  echo "print_plan: not as $1, of the plan"
  [ ! -e "$here/plan.bin" ] || od -An -v -tx1 "$here/plan.bin" | head -n 20
  exit 1
}

for here in "$room"/runs/*; do
  (cd "$here" && start print_plan > given)
  for told in expected reference; do
    if [ -e "$here/$told" ]; then cmp "$here/given" "$here/$told" || fail $told; fi
  done
  if [ -e "$here/sum" ]; then sum_of "$here/given" | cmp - "$here/sum" || fail sum; fi
done

# the page of the sheet is what the crate has as the program's output
cmp docs/two-valve.pages crates/print_plan/stdout
echo "print_plan: $count runs answered as they must be${python:+, and by the reference}"
