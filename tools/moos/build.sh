# shellcheck shell=bash disable=SC2016,SC2034,SC2154
# The proof: whether the program is as its sources are, how it is proved and built, and what is told meanwhile.

times=$crate/out/build.times

is_stale() {
  [ ! -x "$program" ] ||
    [ -n "$(find "$here/crates.txt" "$here/crates" -name out -prune -o -type f -newer "$program" -print -quit)" ]
}

# How long an earlier run took up to each crate, as lines `MINUTES CRATE`: the last whole one here, or else that of bench/gate.md.
earlier_times() {
  if [ -s "$times" ]; then
    cat "$times"
  else
    sed -nE '/^# The first run/,$ { s/^\| `([a-z_]+)`[^|]*\| ([0-9.]+) \|.*/\2 \1/p; s/^\| the program is built \| ([0-9.]+) \|.*/\1 built/p; }' "$here/bench/gate.md"
  fi
}

# How long the whole proof took.
whole_time() {
  local minutes
  minutes=$(earlier_times | run_awk '$2 == "built" { printf "%.0f", ($1 < 1 ? 1 : $1) }')
  if [ -s "$times" ]; then
    echo "$minutes minutes the last time here"
  else
    echo "${minutes:-some 60} minutes on four processors with nothing beside it"
  fi
}

progress() {
  local where='on another machine (bench/gate.md)'
  [ ! -s "$times" ] || where='the last time here'
  earlier_times | run_awk "$@" -v earlier="$where" -f "$here/tools/moos/crates.awk" -f "$here/tools/moos/progress.awk" "$here/crates.txt" - "$log"
}

# Tells on standard error how far the proof has come until it is stopped: on a terminal in one line, and else in a line for each crate.
# It notes when each crate was proved.
tell() {
  local now label said='' name noted=' '
  while sleep 1 && kill -0 $$ 2>/dev/null; do
    for name in $(progress -v list=1); do
      [[ $noted == *" $name "* ]] || run_awk -v s="$SECONDS" -v name="$name" 'BEGIN { printf "%.1f %s\n", s / 60, name }' >>"$times.new"
      noted+="$name "
    done
    now=$(progress)
    [ -n "$now" ] || continue
    label=${now%%;*}
    label=${label% (*}
    if [ -t 2 ]; then
      printf '\r\033[K%s' "$now" >&2
    elif [ "$label" != "$said" ]; then
      said=$label
      printf '%s\n' "${now/ (*functions)/}" >&2
    fi
  done
}

# How many crates are begun beside each other: half as many again as there are processors, since one that waits for a crate below it
# keeps its place among them, where each has 3 GB.
at_once() {
  local crates rooms
  crates=$(($(nproc 2>/dev/null || echo 1) * 3 / 2))
  rooms=$(run_awk '/^MemAvailable:/ { print int($2 / 3000000) }' /proc/meminfo 2>/dev/null)
  [ "${rooms:-1}" -lt "$crates" ] && crates=${rooms:-1}
  echo $((crates > 1 ? crates : 1))
}

# Proves the program's crate and all below it, and builds the program. Where the library right below the program was never built, and so
# few of those below it, the crates are proved beside each other first, since rt run takes one after the other. In the program's folder
# rt leaves out the crates that the program doesn't use, such as those of tests, and so looks through the sources of one crate less often.
prove_and_build() {
  local crates
  crates=$(at_once)
  if [ ! -d "$here/crates/moos_jobs/out/rlib" ] && [ "$crates" -gt 1 ]; then
    (cd "$crate" && rt all check --jobs "$crates")
  fi
  cd "$crate" && rt run
}

has_rt() {
  command -v rt >/dev/null && return 0
  echo 'moos: rt, the command of the Rattle kit, is not on the PATH: add the folder of that command to PATH and try again' >&2
  return 1
}

# Keeps the times of this run for the next one, if it proved all of the program's crates.
keep_times() {
  local crates
  crates=$(all_crates | wc -l)
  if [ -f "$times.new" ] && [ "$(wc -l <"$times.new")" -eq "$crates" ]; then
    run_awk -v s="$SECONDS" 'BEGIN { printf "%.1f built\n", s / 60 }' >>"$times.new"
    mv "$times.new" "$times"
  fi
  rm -f "$times.new"
}

build() {
  has_rt || return 1
  echo "moos: proving and building the program, which took $(whole_time); a start after Ctrl-C goes on" >&2
  mkdir -p "$crate/out"
  # Nothing is built that isn't proved, and then nothing is run: the program of older sources goes first. Run without
  # words the program itself only says how it is used.
  rm -f "$program" "$times.new"
  : >"$log"
  SECONDS=0
  tell &
  local teller=$!
  trap 'kill '"$teller"' 2>/dev/null' EXIT
  (prove_and_build </dev/null >"$log" 2>&1)
  kill "$teller" && wait "$teller" 2>/dev/null
  trap - EXIT
  [ -t 2 ] && printf '\r\033[K' >&2
  [ -x "$program" ] && touch "$program" && ! is_stale && keep_times && return 0
  tail -n 20 "$log" >&2
  echo "moos: the program was not built; the whole of what rt said is in crates/moos_top/out/build.log" >&2
  return 1
}

# The program's crates, the lowest first, each behind its place and before the names of those below it.
read_crates() {
  run_awk -f "$here/tools/moos/crates.awk" -f "$here/tools/moos/all_crates.awk" "$here/crates.txt" | sort -n
}

all_crates() {
  read_crates | cut -d ' ' -f 2
}

# How many of the crates have a library that is no older than their files, over such ones alone: rt builds one of proved code.
proved_crates() {
  local name names lower known proved=' ' count=0
  known=" $(all_crates | tr '\n' ' ')"
  while read -r _ name names; do
    [ -f "$here/crates/$name/out/rlib/stamp" ] || continue
    [ -z "$(find "$here/crates/$name" -name out -prune -o -type f -newer "$here/crates/$name/out/rlib/stamp" -print -quit)" ] || continue
    for lower in $names; do
      [[ $known != *" $lower "* || $proved == *" $lower "* ]] || continue 2
    done
    proved+="$name "
    count=$((count + 1))
  done < <(read_crates)
  echo "$count"
}

# The job that proves and does nothing else, and says what it proved.
prove() {
  local crates functions
  [ $# -eq 0 ] || { refuse_words "'$1' is one word too many: prove takes none"; return; }
  if is_stale; then
    build || return 126
  fi
  crates=$(all_crates | wc -l)
  # Only a log that has all crates says how many functions there are.
  functions=$(run_awk -v crates="$crates" '/^== / { name = $2 } match($0, /^logic=proved functions=[0-9]+/) { of[name] = substr($0, 24, RLENGTH - 23) }
    END { for (name in of) { sum += of[name]; n++ }; if (n >= crates) print sum }' "$log" 2>/dev/null)
  {
    echo "moos: proved and built: each function of moos_top and of the $((crates - 1)) crates below it meets its contract${functions:+ ($functions functions)}"
    echo 'moos: what the contracts promise is in docs/PROOFS.md, and what has to be read to trust it in docs/TRUSTED.md'
    echo "moos: the program is ${program#"$here"/}, and ./moos runs it"
  } >&2
}
