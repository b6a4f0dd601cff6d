# shellcheck shell=bash disable=SC2016,SC2034,SC2154
# The first look: `./moos try JOB ..` plays the words of a job before any proof, by `rt try`, from whatever folder they are typed in.

# Whether rt gives the program a file under this name: it is below the program's folder, and none of rt's own.
is_plain_name() {
  case "/$1/" in
  //* | */../* | */./* | *//* | *=* | /program* | /stdin* | /stdout* | /stderr* | /case/* | /file-*) return 1 ;;
  esac
}

# Copies a file of the words; a pipe or a device is read once, as the program would read it.
copy_file() {
  head -c 16777217 -- "$1" >"$2"
}

# A script up to a stamp alone, and ended there.
end_script() {
  run_awk -v until="$2" '{ stamp = $1 + 0 } $1 ~ /^[-+.0-9]/ && stamp > until + 0 { exit } { print } END { print until " until" }' <"$1" >"$1.cut"
  mv "$1.cut" "$1"
}

# Copies the files that the words name into a folder, and puts a plain name in the place of each; and the behaviour file that the
# mission names. `data` is what rt is told of them.
copy_files() {
  local folder=$1 until=$2 at behaviors
  data=()
  for ((at = 0; at < ${#names[@]}; at++)); do
    copy_file "${names[at]}" "$folder/file-$at"
    words[places[at]]=file-$at
    data+=(--data "file-$at=$folder/file-$at")
  done
  behaviors=$(file_of behaviors)
  if [ -n "$behaviors" ]; then
    copy_file "$behaviors" "$folder/behaviors"
    if ! is_plain_name "$behaviors"; then
      run_awk -v instead=file-behaviors -f "$here/tools/moos/lines.awk" -f "$here/tools/moos/behaviors_in.awk" <"$folder/file-1" >"$folder/file-1.other"
      mv "$folder/file-1.other" "$folder/file-1"
      behaviors=file-behaviors
    fi
    data+=(--data "$behaviors=$folder/behaviors")
  fi
  [ -z "$until" ] || case "$job" in
  play | simulate) end_script "$folder/file-0" "$until" ;;
  share) end_script "$folder/file-0" "$until" && end_script "$folder/file-1" "$until" ;;
  esac
}

# Says on a terminal how long the first look has taken so far.
tell_look() {
  while sleep 1 && kill -0 $$ 2>/dev/null; do
    printf '\r\033[Kmoos: building the program as it stands and playing, %d:%02d' $((SECONDS / 60)) $((SECONDS % 60)) >&2
  done
}

# What is proved so far, and how to have the rest proved.
tell_proof() {
  local all
  all=$(all_crates | wc -l)
  echo "moos: this was a first look: the program isn't proved. Of its $all crates $(proved_crates) are proved here" >&2
  echo "moos: \`./moos prove\` proves the rest and builds it; it took $(whole_time). Then \`./moos $job ..\` runs the proved program at once" >&2
}

# What a first look said: the program's own lines, or why there was no answer.
tell_look_ended() {
  local said=$1 status=$2
  if grep -q '^run=ended status=' "$said"; then
    grep -vE '^(interpreter|checked|races|run|rt)[:=]' "$said" >"$said.own"
    cat "$said.own" >&2
    [ "$hints" = no ] || tell_hints "$status" "$(cat "$said.own")"
    return "$status"
  fi
  # rt shows what was written by then behind a sign of its own.
  grep -vE "^\| |^the end of the program's" "$said" | tail -n 20 >&2
  if grep -q 'wrote more than [0-9]* bytes' "$said"; then
    echo "moos: a first look gives no report of more than 1 MiB: put \`--until SECONDS\` before $job, and it ends there" >&2
  else
    echo 'moos: the first look gave no answer, for the reason that rt says above' >&2
  fi
  return 126
}

# Plays the copies, and says what came of it.
look() {
  local folder=$1 looker='' status
  SECONDS=0
  # Only on a terminal: one that is killed as soon as it begins would still have this script's trap, and remove the copies.
  if [ -t 2 ]; then
    tell_look &
    looker=$!
  fi
  (cd "$crate" && rt try --seconds 600 "${data[@]}" -- "${words[@]}" </dev/null 2>"$folder/said")
  status=$?
  [ -z "$looker" ] || { kill "$looker" 2>/dev/null; wait "$looker" 2>/dev/null; printf '\r\033[K' >&2; }
  tell_look_ended "$folder/said" "$status"
}

try() {
  local until='' status
  local -a words data
  if [ "${1:-}" = --until ]; then
    until=${2:-}
    [[ $until =~ ^[0-9]+([.][0-9]+)?$ ]] || { refuse_words "'$until' behind --until isn't a number of seconds"; return; }
    shift 2
  fi
  [ $# -gt 0 ] || { usage try; return; }
  judge_words "$@"
  [ -z "$asks_help" ] || { usage "$job"; return; }
  [ -z "$fault" ] || { refuse_words "$fault"; return; }
  tell_unread || return
  words=("$@")
  if [ -z "$until" ] && ! is_stale; then
    echo 'moos: the program is proved and built, so this is no first look: it runs' >&2
    run_with_hints "$@"
    return
  fi
  has_rt || return 126
  echo 'moos: a first look before any proof: rt builds the program as it stands, for this run alone, which takes one to four minutes; the report comes at the end' >&2
  scratch=$(mktemp -d) || return 126
  trap 'rm -rf "$scratch"' EXIT
  copy_files "$scratch" "$until"
  look "$scratch"
  status=$?
  tell_proof
  return "$status"
}
