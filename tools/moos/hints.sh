# shellcheck shell=bash disable=SC2016,SC2034,SC2154
# The hints behind the program's own line, if a run ends badly. A hint reads plain files alone, and changes neither what the program
# said nor its status.

# Runs an awk file of this folder behind those that it stands on.
by_lines() {
  local parts=() part
  for part in lines distance "$@"; do parts+=(-f "$here/tools/moos/$part.awk"); done
  run_awk "${settings[@]}" "${parts[@]}" "${inputs[@]}"
}

# The axes of the mission that the words name.
axes_there() {
  local settings=(-v axes=1) inputs=()
  [ ! -f "${names[1]:-}" ] || by_lines refused_mission <"${names[1]}"
}

# What the refused line should have been: one sentence, or nothing.
line_meant() {
  local kind=$1 number=$2 code=$3 file=$4
  local settings=(-v at="$number" -v code="$code") inputs=()
  case "$kind" in
  script | second) by_lines refused_script <"$file" ;;
  mission) by_lines refused_mission <"$file" ;;
  behaviors)
    settings+=(-v axes="$(axes_there)")
    inputs=("$here/docs/BEHAVIORS.md" -)
    by_lines table blocks refused_behaviors <"$file"
    ;;
  vehicle | contacts)
    settings+=(-v kind="$kind")
    inputs=("$here/docs/FORMATS.md" -)
    by_lines refused_settings <"$file"
    ;;
  problem | decision)
    settings+=(-v kind="$kind")
    by_lines refused_problem <"$file"
    ;;
  bridge) by_lines refused_bridge <"$file" ;;
  esac 2>/dev/null
}

# The line that was refused, and what it should have been, or else when its cause is told.
hint_refusal() {
  local kind number cause file meant=''
  read -r kind number cause < <(sed -nE 's/^moos: ([a-z]+) line ([0-9]+): (.*)$/\1 \2 \3/p' <<<"$1")
  file=$(file_of "$kind")
  if [ -f "$file" ]; then
    hint "line $number of '$file' is: $(sed -n "${number}p" <"$file" 2>/dev/null | cut -c 1-200 | LC_ALL=C tr '\001-\010\013-\037\177' '?')"
    meant=$(line_meant "$kind" "$number" "${cause%% *}" "$file")
  fi
  if [ -n "$meant" ]; then
    hint "$meant"
  else
    # A line of a problem alone can't be one of a decision, which shares some causes with it.
    meanings "$cause" | while read -r meaning; do [ "$kind ${meaning%% *}" = 'problem Decision' ] || hint "$meaning"; done
  fi
}

# What lint finds in the files of a run that ended well: what is accepted and hardly meant. It is another tool, and python3 may be absent.
hint_meant() {
  local lint name files=()
  case "$job" in play | simulate | share) ;; *) return 0 ;; esac
  lint=$(tool_of lint) && are_plain || return 0
  for name in "${names[@]}"; do
    case "$name" in -*) files+=("./$name") ;; *) files+=("$name") ;; esac
  done
  timeout 10 "$lint" --quiet "${files[@]}" 2>/dev/null | sed 's/^/moos: hint: /' >&2
}

# What follows the program's own line.
tell_hints() {
  case "$1" in
  0) [ "$hints" != yes ] || hint_meant ;;
  3) hint_unread ;;
  5)
    [ "$hints" = yes ] || return 0
    hint_refusal "$2"
    [ -z "$(tool_of lint)" ] || ! are_plain || hint '`./moos lint` with the names of these files tells every fault at once'
    ;;
  esac
}

# Runs the program, and adds the hints.
run_with_hints() {
  local said status
  { said=$("$program" "$@" 2>&1 >&3); } 3>&1
  status=$?
  [ -z "$said" ] || printf '%s\n' "$said" >&2
  [ "$hints" = no ] || tell_hints "$status" "$said"
  return "$status"
}
