# shellcheck shell=bash disable=SC2016,SC2034,SC2154
# The files that a job's words name, and the behaviour file that a mission names: where they are, and why one can't be loaded.

# The behaviour file that a mission names, if the mission is a file that can be read again.
behaviors_in() {
  [ ! -f "$1" ] || run_awk -f "$here/tools/moos/lines.awk" -f "$here/tools/moos/behaviors_in.awk" <"$1" 2>/dev/null
}

# The file of this kind among those that the words name.
file_of() {
  case "$1" in
  script | problem | decision | first) printf '%s' "${names[0]:-}" ;;
  mission | second) printf '%s' "${names[1]:-}" ;;
  bridge | vehicle) printf '%s' "${names[2]:-}" ;;
  contacts) printf '%s' "${names[3]:-}" ;;
  behaviors)
    case "$job" in
    play | simulate) [ "${#names[@]}" -lt 2 ] || behaviors_in "${names[1]}" ;;
    esac
    ;;
  esac
}

# The files of the job in the order in which they are loaded.
in_order() {
  local behaviors
  behaviors=$(file_of behaviors)
  loaded=("${names[@]:0:2}")
  [ -z "$behaviors" ] || loaded+=("$behaviors")
  loaded+=("${names[@]:2}")
}

# Whether a file is longer than a job takes.
is_too_long() {
  [ -f "$1" ] && [ "$(wc -c <"$1")" -gt 16777216 ]
}

# Why a file can't be loaded; nothing if it can.
why_unread() {
  if [ ! -e "$1" ]; then
    echo "isn't there"
  elif [ -d "$1" ]; then
    echo 'is a folder'
  elif [ ! -r "$1" ]; then
    echo "can't be read by this user"
  elif is_too_long "$1"; then
    echo 'has more than 16,777,216 bytes'
  fi
}

# Whether nothing is wrong with any file of the job, so far as can be seen without reading it.
are_there() {
  local name loaded
  in_order
  for name in "${loaded[@]}"; do
    [ -z "$(why_unread "$name")" ] || return 1
  done
}

# Whether every file of the job is a plain one, which can be read again.
are_plain() {
  local name loaded
  in_order
  for name in "${loaded[@]}"; do
    [ -f "$name" ] || return 1
  done
}

# The file of the same folder whose name is nearest to one that isn't there.
near_file() {
  local folder=. file
  local -a there=()
  [ "${1%/*}" = "$1" ] || folder=${1%/*}
  for file in "$folder"/*; do
    [ -f "$file" ] && there+=("${file##*/}")
    [ "${#there[@]}" -lt 200 ] || break
  done
  [ "${#there[@]}" -eq 0 ] || nearest "${1##*/}" "${there[@]}"
}

# Tells of a file that can't be loaded, and from where it was looked for.
hint_file() {
  local named="the file '$1'" from='' near
  [ "$1" != "$(file_of behaviors)" ] || named="the behaviour file '$1', which the mission '${names[1]}' names,"
  [ "${1#/}" != "$1" ] || [ -e "$1" ] || from="; it is looked for from the folder $PWD"
  near=$(near_file "$1")
  [ -e "$1" ] || [ -z "$near" ] || from+="; is '$near' meant?"
  hint "$named $(why_unread "$1")$from"
}

# Names the first file that can't be loaded; a failure if each can.
hint_unread() {
  local name loaded
  in_order
  for name in "${loaded[@]}"; do
    [ -n "$(why_unread "$name")" ] || continue
    hint_file "$name"
    [ "$job" != check ] || ! is_too_long "$name" ||
      hint "its certificate has $(grep -cE '^(%% )?cut ' "$name") lines: \`solve\` prints decisions of any length, and \`check\` takes none that long"
    return 0
  done
  return 1
}

# Before there is a program: the line and the status of a file that can't be loaded. Files before it aren't read for that.
tell_unread() {
  local said
  said=$(hint_unread 2>&1) || return 0
  echo 'moos: load fault' >&2
  [ "$hints" = no ] || printf '%s\n' "$said" >&2
  return 3
}
