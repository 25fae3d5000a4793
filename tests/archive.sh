#!/usr/bin/env bash
# Builds the archive of the C interface, crates/pewterslug/out/libpewterslug.a, and proves first what of its crates is not proved.
#   tests/archive.sh           by `rt lib`, which takes what `rt check` and `rt lib` proved, and nothing from `rt ci`
#   tests/archive.sh --gate    over the libraries that `rt ci` has just proved and left in a clone in which nothing had been built; the compiler proves the
#                              crate itself again. Where it takes them no more, by `rt lib`
set -eu
cd "$(dirname "$0")/.."
repo=$PWD
# shellcheck source=tests/programs.sh
. tests/programs.sh

over_gate() {
  local kit name libraries=()
  kit=$(dirname "$(rt doc)")
  for name in $(needs pewterslug | sed '$d'); do
    libraries+=(--extern "$name=$repo/crates/$name/out/rlib/$name.rlib")
  done
  mkdir -p target crates/pewterslug/out
  (cd crates/pewterslug && "$kit/bin/rattle" build --crate-name pewterslug --crate-type staticlib src/lib.rt --extern "std=$kit/rlibs/std.rlib" \
    -L "dependency=$kit/rlibs" "${libraries[@]}" --antt-project "$kit/rattle/logic/antt-project.json" --logic-built "$kit/logic_built" \
    --jobs "$(nproc)" --links pewterslug= --toolchain "$kit/toolchain" --backend llvm -o out/libpewterslug.a) > target/pewterslug.log 2>&1
}

if [ "${1:-}" = --gate ] && is_old pewterslug crates/pewterslug/out/libpewterslug.a; then
  over_gate || tail -n 5 target/pewterslug.log
fi
archive
