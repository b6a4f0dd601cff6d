# shellcheck shell=bash disable=SC2016,SC2034,SC2154
# How ./moos is used, and the lines by which it tells that words are wrong.

# The words that this script takes itself, and what each does. Any other WORD for which there is a tool tools/moos-WORD is handed on to that.
own_words=(try prove explain help)
own_forms=(
  'try [--until SECONDS] JOB ..|plays the words of a job before any proof: rt builds the program as it stands, for this one run, in one to four minutes; the report comes at the end, up to 1 MiB of it; with --until the scripts end there'
  'prove|proves the program, builds it, and says what was proved; runs nothing'
  'explain [WORD ..]|says what a refusal means, such as B11, a word of a report, such as NoPosition, or an exit status; without a word it lists them'
  'help [WORD]|prints this, or what is said here of one word'
)

# Every awk of this script goes over bytes, whatever the locale.
run_awk() {
  LC_ALL=C awk "$@"
}

# The tool of tools/ that a word names.
tool_of() {
  [[ $1 =~ ^[a-z]+$ ]] && [ -f "$here/tools/moos-$1" ] && [ -x "$here/tools/moos-$1" ] && printf '%s' "$here/tools/moos-$1"
}

# The names of all such tools.
tool_names() {
  local tool
  for tool in "$here"/tools/moos-*; do [ ! -x "$tool" ] || printf '%s\n' "${tool##*/moos-}"; done
}

# The line of this repository's own that follows the program's.
hint() {
  printf 'moos: hint: %s\n' "$1" >&2
}

# Which of the words behind the first is nearest to it; nothing if none is near.
nearest() {
  printf '%s\n' "${@:2}" | wanted=$1 run_awk -f "$here/tools/moos/distance.awk" -f "$here/tools/moos/nearest.awk"
}

# The forms of the jobs, or of one, each with what docs/FORMATS.md says of it.
print_jobs() {
  sed -nE '/^## Command line/,$ s/^\| `('"${1:-[a-z]+}"' [^`]*)` \| (.*) \|$/  .\/moos \1\n      \2/p' "$here/docs/FORMATS.md"
}

print_own() {
  local form
  for form in "${own_forms[@]}"; do
    [ -z "${1:-}" ] || [ "${form%%[ |]*}" = "$1" ] || continue
    printf '  ./moos %s\n      %s\n' "${form%%|*}" "${form#*|}"
  done
}

# What the tools say of themselves, in a line that begins with `# usage: `.
print_tools() {
  local tool
  for tool in "$here"/tools/moos-*; do
    [ -z "${1:-}" ] || [ "$tool" = "$here/tools/moos-$1" ] || continue
    [ ! -x "$tool" ] || sed -nE 's/^# usage: ([^:]*): (.*)/  .\/moos \1\n      \2/p' "$tool"
  done
}

# Lines that fit into a terminal.
wrapped() {
  run_awk 'length($0) <= 110 { print; next }
    {
      line = ""
      count = split($0, words, " ")
      for (i = 1; i <= count; i++) {
        if (length(line) + length(words[i]) > 102) { print "      " line; line = "" }
        line = line (line == "" ? "" : " ") words[i]
      }
      print "      " line
    }'
}

# How the word is used, or all words, on standard error; then the program's line for words of no job, whose status is 2.
usage() {
  {
    if [ -n "${1:-}" ] && form_of "$1" >/dev/null; then
      print_jobs "$1" | wrapped
    elif [ -n "${1:-}" ] && [[ " ${own_words[*]} " == *" $1 "* ]]; then
      print_own "$1" | wrapped
    elif [ -n "${1:-}" ] && tool_of "$1" >/dev/null; then
      print_tools "$1" | wrapped
    else
      echo 'The jobs, by the proved program; if it is missing or older than its sources, it is proved and built first:'
      print_jobs | wrapped
      echo 'Before and beside them, by this script alone:'
      { print_own; print_tools; } | wrapped
      echo 'Before all other words --hints or --no-hints may stand, as MOOS_HINTS=1 or MOOS_HINTS=0 in the environment: whether a'
      echo 'run that ends badly is followed by hints. Without them it is on a terminal; elsewhere one line names the wrong word or file.'
    fi
    echo 'moos: usage'
  } >&2
  return 2
}

# Tells which word is wrong.
refuse_words() {
  echo 'moos: usage' >&2
  [ "$hints" = no ] || hint "$1"
  return 2
}
