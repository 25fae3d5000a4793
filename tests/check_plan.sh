#!/usr/bin/env bash
# The program check_plan on stored plans that were cut or changed, tests/check_plan/cases. Each image comes from a file, and then through a pipe of
# which a read brings a few bytes and no more. Where python3 is there, the reference must give the same answers, to random damaged plans too.
set -eu
cd "$(dirname "$0")/.."
repo=$PWD
# shellcheck source=tests/programs.sh
. tests/programs.sh
prove check_plan
room=$(mktemp -d)
trap 'rm -rf "$room"' EXIT
python=$(command -v python3 || true)
count=0
mkdir "$room/images"
tests/limit-plan.sh > "$room/limit.hex"

# an image is NNN.bin, with its answer in NNN.expected
while read -r digits offset put answer; do
  case $digits in '' | '#'*) continue ;; esac
  [ "$digits" != limit ] || digits=$room/limit.hex
  tests/bytes.sh "$digits" > "$room/plan"
  head -c "$offset" "$room/plan" > "$room/image"
  if [ "$put" != cut ]; then
    tests/bytes.sh <(echo "$put") >> "$room/image"
    length=$(wc -c < "$room/image")
    tail -c "+$((length + 1))" "$room/plan" >> "$room/image"
  fi
  count=$((count + 1))
  name=$room/images/$(printf '%03d' $count)
  mv "$room/image" "$name.bin"
  echo "$answer" > "$name.expected"
done < tests/check_plan/cases

if [ -n "$python" ]; then
  for digits in examples/plans/*.hex; do
    tests/bytes.sh "$digits" > "$room/$(basename "$digits" .hex).plan"
  done
  python3 tests/check_plan/damaged.py 1 40 "$room/images" "$room"/*.plan
fi

# Compares what the program printed of an image.
compare() { # IMAGE HOW
  for told in expected reference; do
    if [ -e "${1%.bin}.$told" ] && ! cmp "$room/given" "${1%.bin}.$told"; then
      echo "check_plan: $2, not as $told, of the image"
      od -An -v -tx1 "$1" | head -n 20
      exit 1
    fi
  done
}

# Writes a file into a pipe that keeps each write apart, so that no read brings more than one of them. Of a last block that is short dd says that a pipe
# cannot be synced.
portions() { # FILE BYTES
  dd if="$1" bs="$2" oflag=direct status=none 2> /dev/null
}

count=0
for image in "$room"/images/*.bin; do
  few=$((2 + count % 12))
  [ "$(wc -c < "$image")" -gt 5000 ] && sizes=$few || sizes="1 $few"
  start check_plan < "$image" > "$room/given"
  compare "$image" 'from a file'
  for size in $sizes; do
    portions "$image" "$size" | start check_plan > "$room/given"
    compare "$image" "in portions of $size"
  done
  count=$((count + 1))
done

# of what cannot be read nothing is told
[ "$(start check_plan < "$room")" = 'not read' ] || { echo 'check_plan: a folder is answered otherwise'; exit 1; }
echo "check_plan: $count images answered as they must be, from a file and in portions${python:+, and by the reference}"
