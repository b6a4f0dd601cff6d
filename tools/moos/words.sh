# shellcheck shell=bash disable=SC2016,SC2034,SC2154
# What the words of a command line are, judged before there is a program: whether a job takes them, which files they name, and
# otherwise what is wrong with them. The forms are those of docs/FORMATS.md, and the rule is the program's own: .ci/words holds both
# against one table.

# The form of each job, as `play SCRIPT [MISSION] [--workers N] [--race]`.
forms=()
read_forms() {
  mapfile -t forms < <(sed -nE '/^## Command line/,$ s/^\| `([a-z]+ [^`]*)` \|.*/\1/p' "$here/docs/FORMATS.md" 2>/dev/null)
}

# The form of this job; a failure if there is no such job.
form_of() {
  local form
  for form in "${forms[@]}"; do
    [ "${form%% *}" = "$1" ] && printf '%s' "$form" && return 0
  done
  return 1
}

# The names of all jobs, between commas.
all_jobs() {
  local jobs
  jobs=$(printf '%s, ' "${forms[@]%% *}")
  printf '%s' "${jobs%, }"
}

# Finds what a job takes in its form: the kinds of its names, how many of them must be there, and its options, where one that needs a
# number ends in a =.
read_form() {
  local part parts
  kinds=() options=' ' needed=0
  read -ra parts <<<"$1"
  for part in "${parts[@]:1}"; do
    case "$part" in
    '[--'*']') options+="${part//[][]/} " ;;
    '[--'*) options+="${part#[}= " ;;
    'N]') ;;
    '['*) kinds+=("${part//[][]/}") ;;
    *)
      kinds+=("$part")
      needed=$((needed + 1))
      ;;
    esac
  done
}

# Whether a word is a whole number within the bounds: digits, with or without a + before them.
is_number() {
  local LC_ALL=C digits=${3#+}
  [[ $digits =~ ^0*([0-9]+)$ ]] || return 1
  digits=${BASH_REMATCH[1]}
  [ "${#digits}" -le 10 ] && [ "$digits" -ge "$1" ] && [ "$digits" -le "$2" ]
}

# The bytes of a text in UTF-8.
utf_8=$'^([\x01-\x7f]|[\xc2-\xdf][\x80-\xbf]|\xe0[\xa0-\xbf][\x80-\xbf]|[\xe1-\xec\xee\xef][\x80-\xbf]{2}|\xed[\x80-\x9f][\x80-\xbf]|\xf0[\x90-\xbf][\x80-\xbf]{2}|[\xf1-\xf3][\x80-\xbf]{3}|\xf4[\x80-\x8f][\x80-\xbf]{2})*$'

# What is wrong with the name of a file; nothing if it can be one.
why_no_name() {
  local LC_ALL=C
  if [ "${#1}" -gt 4096 ]; then
    echo 'has more than 4,096 bytes'
  elif [[ $1 == *[$'\001'-$'\010'$'\012'-$'\037'$'\177']* ]]; then
    echo 'holds a control byte'
  elif [[ $1 == *[$'\200'-$'\377']* ]] && ! [[ $1 =~ $utf_8 ]]; then
    echo "isn't UTF-8"
  fi
}

# A word as it is shown in one line.
shown() {
  local text=$1
  [[ $text != *[$'\001'-$'\037'$'\177']* ]] || printf -v text '%q' "$text"
  [ "${#text}" -le 60 ] || text="${text:0:60}.."
  printf "'%s'" "$text"
}

# Keeps the first fault alone.
blame() {
  [ -n "$fault" ] || fault=$1
}

# An option as it is written, which may have its number behind a =. Then `waiting` is the option that the next word is the number of.
take_option() {
  local option=${1%%=*}
  if [[ $options == *" $option= "* ]]; then
    [[ $seen != *" $option "* ]] || blame "$option stands twice"
    waiting=$option
    [ "$option" = "$1" ] || take_number "${1#*=}"
  elif [[ $options == *" $option "* ]]; then
    [[ $seen != *" $option "* ]] || blame "$option stands twice"
    [ "$option" = "$1" ] || blame "$option takes no value, and $(shown "$1") gives it one"
  else
    blame "$(shown "$1") is no option of $job"
  fi
  seen+="$option "
}

take_number() {
  is_number 1 16 "$1" || blame "$(shown "$1") behind $waiting isn't a whole number from 1 to 16"
  waiting=''
}

# One word behind the job's.
take_word() {
  if [ -n "$plain" ] || [[ $1 != -?* && -z $waiting ]]; then
    names+=("$1")
    places+=("$at")
  elif [[ $1 != -?* ]]; then
    take_number "$1"
  else
    [ -z "$waiting" ] || blame "$waiting has no number behind it"
    waiting=''
    case "$1" in
    --) plain=yes ;;
    -h | --help) asks_help=yes ;;
    *) take_option "$1" ;;
    esac
  fi
}

# Whether the names are as many as the form has, and can be names.
judge_names() {
  local at why
  [ "${#names[@]}" -ge "$needed" ] || blame "$job needs the name of the ${kinds[${#names[@]}]} too"
  [ "${#names[@]}" -le "${#kinds[@]}" ] || blame "$(shown "${names[${#kinds[@]}]}") is one name too many for $job"
  for ((at = 0; at < ${#names[@]}; at++)); do
    if [ "${kinds[at]:-}" = NUMBER ]; then
      is_number 0 999999999 "${names[at]}" || blame "$(shown "${names[at]}") isn't a whole number from 0 to 999,999,999"
    else
      why=$(why_no_name "${names[at]}")
      [ -z "$why" ] || blame "the name $(shown "${names[at]}") $why"
    fi
  done
}

# What is wrong with a first word that is no job's.
blame_job() {
  local word near
  local -a tools
  word=$(shown "$1")
  mapfile -t tools < <(tool_names)
  near=$(nearest "$1" "${forms[@]%% *}" "${own_words[@]}" "${tools[@]}")
  if [[ $1 == -* ]]; then
    blame "$word stands where a job's name comes first: $(all_jobs)"
  elif [ -f "$1" ]; then
    blame "$word is a file, and a job's name comes before it: $(all_jobs)"
  elif [ -n "$near" ]; then
    blame "$word is no job: is $near meant?"
  else
    blame "$word is no job: $(all_jobs)"
  fi
}

# Judges the words: `job` is their job, `names` are the names of its files, in their order, and `places` which words these are, counted
# from 0; `fault` says what is wrong, and is empty if the job takes the words. With `asks_help` they ask for help.
judge_words() {
  local at form plain='' waiting='' seen=' ' options needed
  local -a kinds words=("$@")
  job=${1:-} names=() places=() fault='' asks_help=''
  # Without that page the words are left to the program.
  [ "${#forms[@]}" -gt 0 ] || return 0
  form=$(form_of "$job") || { blame_job "$job"; return; }
  read_form "$form"
  for ((at = 1; at < $#; at++)); do take_word "${words[at]}"; done
  [ -z "$waiting" ] || blame "$waiting has no number behind it"
  judge_names
  [ "${kinds[0]}" != NUMBER ] || names=() places=()
  [ -z "$fault" ] || fault+="; its words are: ./moos $form"
}
