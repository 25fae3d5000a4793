# shellcheck shell=bash disable=SC2154
# For scripts that start a program of the repository or link the archive of its C interface; `repo` is its folder. Sourced by ./run, ./demo, ./install,
# ./bench and the tests.

# The crates of the repository that a crate takes, each behind those that it takes, itself last: in this order rt proves them.
needs() { # CRATE
  NAME=$1 awk '
    { sub(/#.*/, ""); i = index($0, ":"); if (!i) next
      split(substr($0, 1, i - 1), words, " "); needs[words[1]] = substr($0, i + 1) }
    function reach(n,   a, k, m) {
      if (!(n in needs) || (n in seen)) return
      seen[n]
      m = split(needs[n], a, " ")
      for (k = 1; k <= m; k++) reach(a[k])
      print n
    }
    END { reach(ENVIRON["NAME"]) }' "$repo/crates.txt"
}

# Whether what was built of a crate is not there, or something that it was built from is newer.
is_old() { # CRATE FILE
  local name part parts=("$repo/crates.txt")
  [ -e "$2" ] || return 0
  for name in $(needs "$1"); do
    for part in "$repo/crates/$name"/{src,specs,proofs}; do
      [ ! -d "$part" ] || parts+=("$part")
    done
  done
  [ -n "$(find "${parts[@]}" -newer "$2" -print -quit)" ]
}

# Proves and builds a crate by a command in its folder, if what the last one or `rt ci` built is old. Each crate that had to be proved is a line on
# standard error: one that has not changed since is counted and not named.
built() { # CRATE FILE COMMAND..
  local crate=$1 file=$2 log=$repo/target/$1.log
  shift 2
  is_old "$crate" "$file" || return 0
  mkdir -p "$repo/target"
  (
    set -o pipefail
    cd "$repo/crates/$crate"
    "$@" < /dev/null 2>&1 | tee "$log" | ORDER=$(needs "$crate") awk '
      BEGIN { all = split(ENVIRON["ORDER"], order, "\n"); for (k = 1; k <= all; k++) place[order[k]] = k }
      /^rt: chose --jobs [0-9]+ for / { name = $NF }
      /^logic=proved / && name != "" { print place[name] " of " all " crates proved: " name; fflush(); name = "" }' >&2
  ) || { tail -n 40 "$log" >&2; return 1; }
  touch "$file" # it is proved as it is, also where a newer file has the old text
}

# Proves and builds what is missing of a program. rt then runs it too, here on nothing.
prove() { # PROGRAM
  built "$1" "$repo/crates/$1/out/$1" rt run
}

# Starts a built program in the folder that the script is in.
start() { # PROGRAM [ARGUMENTS]
  local program=$repo/crates/$1/out/$1
  shift
  "$program" "$@"
}

# Proves and builds what is missing of the archive of the C interface.
archive() {
  built pewterslug "$repo/crates/pewterslug/out/libpewterslug.a" rt lib
}
