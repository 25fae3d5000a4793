#!/usr/bin/env bash
# Edits of definitions whose own crates hold no theorem about them. Each file of tests/edits is applied to a copy of what it needs; the edited crate
# must still hold, and every crate named in its last line, the marked table or the theorem of demand 3, must fail. `rt ci` in the copy proves the edited
# crate and those above it: what the gate has passed on this machine is not proved again. Two run side by side.
set -eu
cd "$(dirname "$0")/.."
repo=$PWD
# shellcheck source=tests/programs.sh
. tests/programs.sh
field() { sed -n "s/^$1: //p" "$2"; }
# Of what `rt ci` said, the part about a crate.
said_of() { sed -n "/^== $1\$/,/^rt: $1 \(NOT \)\?PROVED\$/Ip" "$2"; }

# One edit, in a copy of its own.
refused() { # EDIT
  local edit=$1 name crate file old new text copy log by part all
  name=$(basename "$edit" .edit)
  crate=$(field crate "$edit")
  file=crates/$crate/$(field file "$edit")
  old=$(field old "$edit")
  new=$(field new "$edit")
  text=$(cat "$file")
  case "$text" in
    *"$old"*) ;;
    *) echo "edit $name: its old line is not in $file"; return 1 ;;
  esac
  copy=$(mktemp -d)
  # shellcheck disable=SC2064
  trap "rm -rf '$copy'" EXIT
  all=$(for by in $(field 'refused by' "$edit"); do needs "$by"; done | sort -u)
  for by in $all; do
    mkdir -p "$copy/crates/$by"
    for part in src specs proofs; do
      [ ! -d "crates/$by/$part" ] || cp -r "crates/$by/$part" "$copy/crates/$by"
    done
    grep -E "^$by *:" crates.txt >> "$copy/crates.txt"
  done
  [ ! -e HANDLES ] || cp HANDLES "$copy"
  printf '%s\n' "${text/"$old"/"$new"}" > "$copy/$file"
  (cd "$copy/crates/$crate" && rt fmt) > /dev/null
  log=target/edits-$name.log
  (cd "$copy" && rt ci) > "$log" 2>&1 && { echo "edit $name: NOT refused"; return 1; }
  grep -qE "^rt: $crate (proved|is kept: .*)\$" "$log" || { echo "edit $name: $crate itself does not hold ($log)"; return 1; }
  for by in $(field 'refused by' "$edit"); do
    said_of "$by" "$log" | grep -q '^logic=not-proved' || { echo "edit $name: NOT refused by $by ($log)"; return 1; }
  done
  echo "edit $name: refused by $(field 'refused by' "$edit"), as it must be"
}

if [ $# -gt 0 ]; then
  refused "$1"
  exit
fi
mkdir -p target
printf '%s\n' tests/edits/*.edit | RT_JOBS=$((($(nproc) + 1) / 2)) xargs -P 2 -n 1 tests/edits.sh
echo "$(printf '%s\n' tests/edits/*.edit | wc -l) edits of definitions refused"
