#!/usr/bin/env bash
# The C interface from C and from C++: builds the static library, compiles tests/interface.c against include/pewterslug.h, runs it and compares
# what it prints with tests/interface.expected. As C it runs under the address and undefined-behaviour sanitizers, so that what the header
# reads stays in the bytes that it is given; as C++ only where there is a C++ compiler. The archive asks nothing of the mathematics library; -lm does no harm. The names
# of the numbers must be those of docs/EMBEDDING.md.
set -eu
cd "$(dirname "$0")/.."
strict=(-Wall -Wextra -Werror -pedantic -Iinclude)
archive=crates/pewterslug/out/libpewterslug.a

same() { # PROGRAM
  "$1" > "$1.given"
  cmp "$1.given" tests/interface.expected || { diff "$1.given" tests/interface.expected | head -n 20; exit 1; }
}

mkdir -p target
tests/archive.sh
${CC:-gcc} -std=c99 "${strict[@]}" -fsyntax-only tests/interface.c
${CC:-gcc} -std=c11 "${strict[@]}" -g -fsanitize=address,undefined -fno-sanitize-recover=all tests/interface.c "$archive" -lm -o target/interface
same target/interface
from=C
if command -v "${CXX:-g++}" > /dev/null; then
  "${CXX:-g++}" -std=c++17 "${strict[@]}" -x c++ tests/interface.c -x none "$archive" -lm -o target/interface-cpp
  same target/interface-cpp
  from="C and C++"
fi
# The table of numbers in docs/EMBEDDING.md has the header's names.
# shellcheck disable=SC2016
sed -n 's/^    PEWTERSLUG_REFUSAL_\([A-Z_]*\) = \([0-9]*\).*/| \2 | `\1` |/p' include/pewterslug.h > target/interface.names
[ "$(wc -l < target/interface.names)" -eq 17 ] || { echo "interface: the header has not 17 numbers"; exit 1; }
while read -r row; do
  grep -qF "$row" docs/EMBEDDING.md || { echo "interface: docs/EMBEDDING.md has no row '$row'"; exit 1; }
done < target/interface.names
echo "interface: the two-valve plan, every refusal and what the header reads are over $from as they must be"
