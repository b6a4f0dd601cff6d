# shellcheck shell=bash disable=SC2034
# A copy of the script ./moos in a folder of its own, with a program that only says what it is told to and an `rt` that only notes its
# call: for .ci/words and .ci/hints, which begin with it.
set -u
export LC_ALL=C.UTF-8
top=$(cd "$(dirname "$0")/.." && pwd)
built=${1:-$top/crates/moos_top/out/moos_top}
scratch=$(mktemp -d) || exit 1
trap 'rm -rf "$scratch"' EXIT
unset MOOS_HINTS
failed=0

fail() {
  printf '%s: %s\n' "${0##*/}" "$1" >&2
  failed=1
}

mkdir -p "$scratch/moos/bench" "$scratch/moos/crates/moos_top/out" "$scratch/bin" "$scratch/here"
cp -R "$top/moos" "$top/tools" "$top/docs" "$top/crates.txt" "$scratch/moos"
cp "$top/bench/gate.md" "$scratch/moos/bench"
printf '#!/bin/sh\necho "$*" >>"%s"\nexit 1\n' "$scratch/proofs" >"$scratch/bin/rt"
program=$scratch/moos/crates/moos_top/out/moos_top
# What the program would say comes from these files.
cat >"$scratch/program" <<STAND_IN
#!/bin/sh
printf '%s\n' "\$#" "\$@" >"$scratch/taken"
cat "$scratch/said" >&2 2>/dev/null
exit "\$(cat "$scratch/status")"
STAND_IN
chmod +x "$scratch/bin/rt" "$scratch/program"
PATH=$scratch/bin:$PATH
moos=("$scratch/moos/moos")
cd "$scratch/here" || exit 1
: >there.txt

# Runs the script; `status`, and what was said and written, are for the checks.
run() {
  rm -f "$scratch/taken" "$scratch/proofs"
  "${moos[@]}" "$@" >"$scratch/out" 2>"$scratch/err" </dev/null
  status=$?
  err=$(cat "$scratch/err")
}

# The program is there, and would end so.
with_program() {
  cp "$scratch/program" "$program"
  printf '%s' "$1" >"$scratch/status"
  printf '%s' "${2:-}" >"$scratch/said"
}
