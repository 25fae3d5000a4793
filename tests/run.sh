#!/usr/bin/env bash
# ./run: a program from another folder, with that folder's plan and the caller's standard input; what is no program is refused with status 2.
# Then with a kit that stands in for the real one, which says what it was asked: the arguments arrive as they are, the crates that had to be
# proved are named, and nothing starts where a proof fails.
set -eu
cd "$(dirname "$0")/.."
repo=$PWD
room=$(mktemp -d)
trap 'rm -rf "$room"' EXIT
fail() { echo "run: $1"; exit 1; }

# Runs ./run in the room, and compares its status, its standard output and its standard error.
compare() { # NAME STATUS [ARGUMENTS]
  local name=$1 status=$2 got=0
  shift 2
  (cd "$room" && "$repo/run" "$@" < script > given 2> said) || got=$?
  [ "$got" = "$status" ] || fail "$name: status $got and not $status: $(cat "$room/said")"
  cmp "$room/given" "$room/expected" || fail "$name is answered otherwise"
  if [ -f "$room/notes" ]; then cmp "$room/said" "$room/notes" || fail "$name says otherwise"; fi
}

# the real kit: listing is proved first, so that nothing is left to say
(cd "$room" && "$repo/run" listing < /dev/null > /dev/null 2>&1) || fail 'listing does not run'
tests/bytes.sh docs/two-valve.hex > "$room/plan.bin"
cp docs/two-valve.script "$room/script"
cp crates/listing/stdout "$room/expected"
: > "$room/notes"
compare 'from another folder' 0 listing
compare 'with arguments' 0 listing one 'two words'
programs="the programs: $(cd crates && printf '%s\n' */src/main.rt | sed 's|/src/main.rt||' | tr '\n' ' ')"
: > "$room/expected"
printf '%s\n' 'run: there is no program lister' "$programs" > "$room/notes"
compare 'an unknown name' 2 lister
printf '%s\n' 'run: bits is a library and not a program' "$programs" > "$room/notes"
compare 'a library' 2 bits
printf '%s\n' 'run: ../listing is no name of a program' "$programs" > "$room/notes"
compare 'a path' 2 ../listing
printf '%s\n' 'run: usage: ./run PROGRAM [ARGUMENTS]' "$programs" > "$room/notes"
compare 'no name' 2

# a repository of two crates, and a kit whose rt says what is in a file and, where that is well, makes a program that prints its folder, its name, the
# words behind it, and its standard input
mkdir -p "$room/repo/tests" "$room/repo/crates/below/src" "$room/repo/crates/above/src" "$room/bin"
cp run "$room/repo"
cp tests/programs.sh "$room/repo/tests"
printf 'above: below\nbelow:\n' > "$room/repo/crates.txt"
touch "$room/repo/crates/below/src/lib.rt" "$room/repo/crates/above/src/main.rt"
cat > "$room/program" <<'END'
#!/usr/bin/env bash
echo "$(basename "$PWD") $(basename "$0")"
printf '<%s>\n' "$@"
cat
END
cat > "$room/bin/rt" <<'END'
#!/usr/bin/env bash
room=$(cd "$(dirname "$0")/.." && pwd)
[ "$*" = run ] || exit 2
cat "$room/log" >&2
[ "$(cat "$room/status")" = 0 ] || exit 1
mkdir -p out
cp "$room/program" "out/$(basename "$PWD")"
"out/$(basename "$PWD")"
END
chmod +x "$room/program" "$room/bin/rt"
repo=$room/repo
PATH=$room/bin:$PATH
says() { printf '%s\n' "$@" > "$room/log"; }
prints() { printf '%s\n' "$(basename "$room") above" "$@" | cat - "$room/script" > "$room/expected"; }
prints '<one>' '<two  words>' '<>'
echo 0 > "$room/status"
says 'rt: chose --jobs 2 for below' 'logic=proved functions=1' 'rt: chose --jobs 2 for above' 'logic=proved functions=2'
printf '%s\n' '1 of 2 crates proved: below' '2 of 2 crates proved: above' > "$room/notes"
compare 'two crates to prove' 0 above one 'two  words' ''
echo 1 > "$room/status"
: > "$room/notes"
compare 'nothing to prove' 0 above one 'two  words' ''
touch -d '1 minute' "$repo/crates/below/src/lib.rt"
: > "$room/expected"
says 'rt: chose --jobs 2 for below' 'logic=proved functions=1' 'rt: chose --jobs 2 for above' 'logic=not-proved'
{ echo '1 of 2 crates proved: below'; cat "$room/log"; } > "$room/notes"
compare 'a proof that fails' 1 above
prints '<>'
echo 0 > "$room/status"
says 'rt: chose --jobs 2 for above' 'logic=proved functions=2'
echo '2 of 2 crates proved: above' > "$room/notes"
compare 'one crate to prove' 0 above
echo 'run: programs start where they are called, and what is none is refused'
