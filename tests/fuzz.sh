#!/usr/bin/env bash
# Random bytes through the C interface: the C side under the address and undefined-behaviour sanitizers, each lent slice against a guard page.
#   tests/fuzz.sh [SEED [COUNT]]     COUNT calls; docs/BENCHMARK.md records a long run
# The archive is that of `tests/archive.sh`, which tests/interface.sh calls.
set -eu
cd "$(dirname "$0")/.."
mkdir -p target/fuzz
wire=examples/wire
${CC:-gcc} -std=c11 -Wall -Wextra -Werror -pedantic -O1 -g -fsanitize=address,undefined -fno-sanitize-recover=all -Iinclude -I$wire \
  tests/fuzz.c $wire/plan.c $wire/orchard.c $wire/full.c $wire/chance.c crates/pewterslug/out/libpewterslug.a -lm -o target/fuzz/fuzz
target/fuzz/fuzz "${1:-1}" "${2:-20000}"
