#!/usr/bin/env bash
# ./install into a temporary folder: its files, a program that is compiled with the flags of pewterslug.pc, linked and run, examples/wire built
# against the folder and run, and the same built against a header of another version, which must refuse to run. Then DESTDIR, and calls that
# must be refused. The archive is that of `tests/archive.sh`; without one, or with an old one, ./install makes it.
set -eu
cd "$(dirname "$0")/.."
folder=$(mktemp -d)
trap 'rm -rf "$folder"' EXIT
prefix=$folder/usr
pc=$prefix/lib/pkgconfig/pewterslug.pc
fail() { echo "install: $1"; exit 1; }

# A field of pewterslug.pc, with its variables put in.
field() { # NAME
  sed -n "s/^$1: //p" "$pc" | sed "s|\${includedir}|$prefix/include|g; s|\${libdir}|$prefix/lib|g"
}

# What a build asks: by pkg-config where it is there, else from the file itself.
asked() { # OPTION FIELD
  if command -v pkg-config > /dev/null; then
    PKG_CONFIG_PATH=$prefix/lib/pkgconfig pkg-config "$1" pewterslug
  else
    field "$2"
  fi
}

DESTDIR='' ./install "$prefix" > "$folder/log" || { cat "$folder/log"; exit 1; }
cmp include/pewterslug.h "$prefix/include/pewterslug.h"
cmp crates/pewterslug/out/libpewterslug.a "$prefix/lib/libpewterslug.a"
[ "$(find "$prefix" -type f | wc -l)" -eq 3 ] || fail "other files than the three were installed"

version=$(sed -n 's/^#define PEWTERSLUG_VERSION //p' include/pewterslug.h)
[ "$(asked --modversion Version)" = "$version" ] || fail "pewterslug.pc has another version than the header"
cat > "$folder/program.c" <<'END'
#include <pewterslug.h>
#include <stdio.h>

int main(void)
{
    static const uint8_t end[] = {PEWTERSLUG_RECORD_END};
    uint8_t number = pewterslug_number(pewterslug_check(end, sizeof end));
    printf("version %u of %u, %u: %s\n", (unsigned)pewterslug_version(), PEWTERSLUG_VERSION, number, pewterslug_refusal_text(number));
    return 0;
}
END
cflags=$(asked --cflags Cflags)
libs=$(asked --libs Libs)
# shellcheck disable=SC2086
${CC:-gcc} -std=c11 -Wall -Wextra -Werror -pedantic $cflags "$folder/program.c" $libs -o "$folder/program"
given=$("$folder/program")
[ "$given" = "version $version of $version, 4: head not first, records or step indices out of order, or bytes after the end" ] ||
  fail "the program printed: $given"

wire() { # PREFIX BUILD
  make --silent -C examples/wire PREFIX="$1" BUILD="$2" CFLAGS=-O0 "$2/wire"
}
wire "$prefix" "$folder/wire"
"$folder/wire/wire" two-valve 1 200 > "$folder/log" || { cat "$folder/log"; fail "the wire example differs"; }

cp -R "$prefix" "$folder/other"
sed -i "s/^#define PEWTERSLUG_VERSION .*/#define PEWTERSLUG_VERSION $((version + 1))/" "$folder/other/include/pewterslug.h"
wire "$folder/other" "$folder/other/wire"
if "$folder/other/wire/wire" two-valve 1 200 > "$folder/log" 2>&1; then fail "the wire example runs with a header of another version"; fi
grep -q "the archive has version $version, the header $((version + 1))" "$folder/log" || { cat "$folder/log"; fail "refused otherwise"; }

staged=$folder/stage$folder/opt
DESTDIR=$folder/stage ./install "$folder/opt" > "$folder/log" || { cat "$folder/log"; exit 1; }
cmp include/pewterslug.h "$staged/include/pewterslug.h"
cmp crates/pewterslug/out/libpewterslug.a "$staged/lib/libpewterslug.a"
[ "$(sed -n 's/^prefix=//p' "$staged/lib/pkgconfig/pewterslug.pc")" = "$folder/opt" ] || fail "DESTDIR stands in pewterslug.pc"

if ./install > "$folder/log" 2>&1; then fail "no PREFIX was accepted"; fi
if ./install "$folder/a b" > "$folder/log" 2>&1; then fail "a PREFIX with a space was accepted"; fi
mkdir "$folder/c d"
here=$PWD
if (cd "$folder/c d" && "$here/install" out > "$folder/log" 2>&1); then fail "a PREFIX in a folder with a space was accepted"; fi
grep -q "break at the space in '$folder/c d/out'" "$folder/log" || { cat "$folder/log"; fail "a space is refused otherwise"; }

# a tree without an archive, and a build that fails: what it says is on standard error
mkdir -p "$folder/tree/crates/pewterslug" "$folder/tree/tests" "$folder/bin"
cp install crates.txt "$folder/tree"
cp tests/programs.sh "$folder/tree/tests"
printf '%s\n' '#!/bin/sh' 'echo "crate a is not proved"' 'exit 1' > "$folder/bin/rt"
chmod +x "$folder/bin/rt"
if PATH=$folder/bin:$PATH "$folder/tree/install" "$folder/none" > "$folder/log" 2> "$folder/told"; then fail "a failed build was installed"; fi
[ "$(cat "$folder/told")" = "crate a is not proved" ] || fail "the log of a failed build is not on standard error"
[ ! -e "$folder/none" ] || fail "a failed build leaves files"
echo "install: header, archive and pewterslug.pc are put in place; a program and the wire example build against them"
