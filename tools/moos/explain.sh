# shellcheck shell=bash disable=SC2016,SC2034,SC2154
# `./moos explain WORD`: what a cause of a refusal means, a word of a report, an exit status, or a parameter of a behaviour, by the tables of
# docs/FORMATS.md and docs/BEHAVIORS.md.

# Each cause of this code, or of this code and word, with the sentences that say when it is told.
meanings() {
  wanted=$* run_awk -f "$here/tools/moos/explain.awk" "$here/docs/FORMATS.md"
}

# The rows of a parameter or of a type of behaviour.
parameters() {
  wanted=$1 run_awk -f "$here/tools/moos/lines.awk" -f "$here/tools/moos/table.awk" -f "$here/tools/moos/parameters.awk" "$here/docs/BEHAVIORS.md"
}

# The names that may be asked for, one a line.
explained() {
  meanings | sed 's/^[^:]*: //' | tr -s ', ' '\n'
  parameters ''
}

explain_one() {
  local near all
  if meanings "$1" || parameters "$1"; then
    return 0
  fi
  mapfile -t all < <(explained)
  near=$(nearest "$1" "${all[@]}")
  [ -z "$near" ] || near=" Is $near meant?"
  echo "moos: nothing is named '$1'; ./moos explain lists what is.$near" >&2
  return 2
}

explain() {
  local word status=0
  if [ $# -eq 0 ]; then
    meanings
    echo "Types and parameters of behaviours: $(parameters '' | paste -sd, | sed 's/,/, /g')"
  elif [ $# -eq 1 ] || ! meanings "$@"; then
    for word in "$@"; do explain_one "$word" || status=$?; done
  fi
  return "$status"
}
