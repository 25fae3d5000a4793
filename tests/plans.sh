#!/usr/bin/env bash
# Plans as text. Each examples/plans/NAME.plan must build the stored image NAME.hex and be accepted by the proved check; where there is a
# NAME.script, the simulation must print NAME.expected, and where there is a NAME.stuck, the program stuck must print that. The orchard must be
# that of examples/wire. Then tests/plans.py: these plans shown and built again, texts with faults or notes (tests/plans/*.plan, told as in
# *.expected), random and damaged images and texts, drawings.
set -eu
cd "$(dirname "$0")/.."
repo=$PWD
# shellcheck source=tests/programs.sh
. tests/programs.sh
for program in listing simulate stuck; do prove $program; done
room=$(mktemp -d)
trap 'rm -rf "$room"' EXIT
count=0

fail() { echo "plans: $*"; exit 1; }

for plan in examples/plans/*.plan; do
  name=${plan%.plan}
  tools/plan build "$plan" -o "$room/plan.bin" || fail "$plan is not built"
  tests/bytes.sh "$name.hex" | cmp - "$room/plan.bin" || fail "$plan is not $name.hex"
  read -r modules supervisors events < <(od -An -tu1 -j1 -N3 "$room/plan.bin")
  [ "$(cd "$room" && start listing < /dev/null | head -n 1)" = "plan $modules $supervisors $events" ] || fail "$plan is not accepted"
  if [ -e "$name.script" ]; then
    (cd "$room" && start simulate < "$repo/$name.script") | cmp - "$name.expected" || fail "$name.script is answered otherwise"
  fi
  if [ -e "$name.stuck" ]; then
    (cd "$room" && start stuck) | cmp - "$name.stuck" || fail "whether $plan gets stuck is answered otherwise"
  fi
  count=$((count + 1))
done
cmp <(tests/bytes.sh docs/two-valve.hex) <(tests/bytes.sh examples/plans/two-valve.hex) || fail "the two-valve plan is not that of docs"
${CC:-cc} -std=c11 -Wall -Wextra -Werror -Iinclude -Iexamples/wire tests/orchard.c examples/wire/orchard.c -o "$room/orchard"
"$room/orchard" | cmp - <(tests/bytes.sh examples/plans/orchard.hex) || fail "the orchard plan is not that of examples/wire"

# the program stuck without a plan, with an image that is refused, and with an initial state that is stuck, to which the empty word leads
mkdir "$room/alone"
stuck() { # EXPECTED
  [ "$(cd "$room/alone" && start stuck)" = "$1" ] || fail "stuck does not print: $1"
}
stuck 'plan refused 3 at 0'
printf '\037' > "$room/alone/plan.bin"
stuck 'plan refused 4 at 0'
printf '%s\n' 'module m' 'states here there' 'marked there' 'response stays' 'here stays here' > "$room/alone/stays.plan"
tools/plan build "$room/alone/stays.plan" -o "$room/alone/plan.bin" 2> /dev/null || fail "a plan that is stuck from the start is not built"
stuck $'plan 1 0 1\nword\nstates 0'

# the command line itself: a plan shown and built again beside its text, no file, a text with a fault, an image that cannot be shown
tools/plan show "$room/plan.bin" "$room/plan.names" > "$room/again.plan" || fail "$plan is not shown"
tools/plan build "$room/again.plan" || fail "$plan is shown, but what is shown is not built"
cmp "$room/plan.bin" "$room/again.bin" || fail "$plan is shown and built otherwise"
cmp "$room/plan.names" "$room/again.names" || fail "$plan is shown with other names"
tools/plan build "$room/none.plan" 2> "$room/told" && fail "a text that is not there is built"
[ "$(cat "$room/told")" = "plan: $room/none.plan: No such file or directory" ] || fail "a text that is not there is told otherwise"
tools/plan build tests/plans/unknown-word.plan -o "$room/none.bin" 2> "$room/told" && fail "a text with a fault is built"
cmp "$room/told" tests/plans/unknown-word.expected
if [ -e "$room/none.bin" ] || [ -e "$room/none.names" ]; then fail "a text with a fault leaves an image"; fi
tools/plan build tests/plans/note-event.plan -o "$room/noted.bin" 2> "$room/told" || fail "a note is taken for a fault"
cmp "$room/told" tests/plans/note-event.expected
if [ ! -e "$room/noted.bin" ] || [ ! -e "$room/noted.names" ]; then fail "a text with a note is not built"; fi
mkdir "$room/half.names"
tools/plan build examples/plans/two-valve.plan -o "$room/half.bin" 2> "$room/told" && fail "a table that cannot be written is no failure"
[ "$(cat "$room/told")" = "plan: $room/half.names: Is a directory" ] || fail "a table that cannot be written is told otherwise"
[ ! -e "$room/half.bin" ] || fail "an image is left without its table"
tools/plan build examples/plans/two-valve.plan -o /dev/full 2> "$room/told" && fail "an image is written to a full device"
[ "$(cat "$room/told")" = "plan: /dev/full: No space left on device" ] || fail "a full device is told otherwise"
for link in -s ''; do # a symbolic and a hard link
  for ending in bin names; do
    rm -f "$room"/linked.*
    cp examples/plans/two-valve.plan "$room/linked.plan"
    # shellcheck disable=SC2086
    (cd "$room" && ln $link linked.plan "linked.$ending")
    tools/plan build "$room/linked.plan" 2> /dev/null && fail "a text is written over by way of a link"
    cmp examples/plans/two-valve.plan "$room/linked.plan" || fail "a text is lost by way of a link"
  done
done
ln -s /dev/null "$room/only.bin"
tools/plan build examples/plans/two-valve.plan -o "$room/only.bin" || fail "a text is not checked alone"
[ ! -e "$room/only.names" ] || fail "a text that is only checked leaves a table"
tools/plan build tests/plans/unknown-word.plan -o /dev/null 2> "$room/told" && fail "a text with a fault is found good"
cmp "$room/told" tests/plans/unknown-word.expected
printf '\037' > "$room/end.bin"
tools/plan show "$room/end.bin" 2> "$room/told" && fail "an image without a head is shown"
[ "$(cat "$room/told")" = "$room/end.bin: byte 0: the first record is not the head but: end (number 4)" ] || fail "an image without a head is told otherwise"
(ulimit -v 1000000 && tools/plan show /dev/zero 2> "$room/told") && fail "an image without end is shown"
[ "$(cat "$room/told")" = "/dev/zero: byte 0: the image has more than 49152 bytes (number 1)" ] || fail "an image without end is told otherwise"
tools/plan show "$room/plan.bin" 2> "$room/told" >&- && fail "an image is shown to nobody"
[ "$(cat "$room/told")" = "plan: standard output is closed" ] || fail "a closed standard output is told otherwise"
tools/plan show "$room/plan.bin" 2> "$room/told" > /dev/full && fail "an image is shown on a full device"
[ "$(cat "$room/told")" = "plan: standard output: No space left on device" ] || fail "a full standard output is told otherwise"

# a `dot` that draws, one that fails, and none
mkdir "$room/bin"
cat > "$room/bin/dot" <<'END'
#!/bin/sh
[ "$1 $2" = "-Tsvg -o" ] && cp "$4" "$3"
END
chmod +x "$room/bin/dot"
PATH=$room/bin:$PATH tools/plan draw examples/plans/two-valve.plan -o "$room/drawn" || fail "the two-valve plan is not drawn"
[ "$(cd "$room/drawn" && echo *)" = "module-pump.dot module-pump.svg module-valve.dot module-valve.svg supervisor-open_path.dot supervisor-open_path.svg" ] ||
  fail "the drawings of the two-valve plan are not there"
printf '%s\n' '#!/bin/sh' 'exit 3' > "$room/bin/dot"
PATH=$room/bin:$PATH tools/plan draw examples/plans/two-valve.plan -o "$room/drawn" 2> /dev/null || fail "a dot that fails makes a drawing fail"
rm "$room/bin/dot"
python=$(python3 -c 'import sys; print(sys.executable)')
PATH=$room/bin "$python" tools/plan draw examples/plans/two-valve.plan -o "$room/plain" || fail "without dot nothing is drawn"
[ "$(cd "$room/plain" && echo *)" = "module-pump.dot module-valve.dot supervisor-open_path.dot" ] || fail "the drawings without dot are not there"

cp examples/plans/two-valve.plan "$room/text"
tools/plan draw "$room/text" 2> "$room/told" && fail "drawings have the name of the text"
[ "$(cat "$room/told")" = "plan: $room/text does not end in .plan: name the folder of the drawings by -o" ] || fail "no folder is told otherwise"

tools/plan --help | grep -q 'THE TEXT' || fail "there is no help"
tools/plan build 2>&1 | grep -q '^usage: plan build ' || fail "the usage is told otherwise"

found=$(python3 tests/plans.py "$repo/crates/listing/out/listing") || exit 1
echo "plans: $count plans built and accepted; $found"
