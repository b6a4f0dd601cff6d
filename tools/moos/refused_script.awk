# What a refused line of a script should have been, in one sentence. Run behind lines.awk and distance.awk on the script; -v at=LINE and
# -v code=CAUSE say what was refused. It prints nothing if no sentence fits.
{ raw = $0; text = said_in($0) }
NR < at { if (text != "") { before = NR; stamp = first_word(text) }; next }
NR == at {
  count = split(text, words, /[ \t]+/)
  operations = "register unregister post fetch"
  tell_cause()
  exit
}

function tell_cause() {
  if (quote_is_open) tell("a quote stays open in this line")
  if (code == "S1") tell_stamp()
  if (code == "S2") tell("line " before " has the stamp " stamp ", and stamps don't go back")
  if (code == "S3") tell_operation()
  if (code == "S4" && count < 2) tell("a line is STAMP CLIENT OPERATION .., and this one has no client")
  if (code == "S4" && !is_name(words[2])) tell(shown(words[2]) " is no name of a client: letters, digits, _, - and ., the first a letter or _")
  if (code == "S4" || code == "S5") tell_post()
  if (code == "S6") tell_pattern()
  if (code == "S7") tell(shown(words[5]) " is no interval: a number of seconds from 0 to 1,000,000, behind the variable's pattern")
}

function tell_stamp() {
  if (raw ~ /^\357\273\277/) tell("the line begins with three bytes that an editor put there (a byte order mark): save the file without them")
  else if (text ~ /^#/) tell("a comment begins with //")
  else if (text ~ /^[A-Za-z]+[ \t]*=/ || tolower(words[1]) ~ /^(initialize|set|behavior)$/) tell("this is no line of a script: STAMP CLIENT OPERATION ..; if it is the mission, it is named behind the script")
  else if (is_name(words[1])) tell("each line begins with its stamp, a time in seconds: 0 " text)
  else tell(shown(words[1]) " is no stamp: a number of seconds from 0 to 1,000,000")
}

function tell_operation() {
  if (words[2] == "until") tell("behind until nothing may follow")
  else if (count < 3) tell("the operation is missing: register, unregister, post or fetch")
  else if (index(" " operations " ", " " words[3] " ")) tell("behind " words[3] forms() " nothing may follow, and " shown(words[words[3] == "fetch" ? 4 : words[3] == "register" ? 7 : 6]) " does")
  else tell(shown(words[3]) " is no operation: they are register, unregister, post and fetch" (is_near() ? ". Is " is_near() " meant?" : ""))
}

# Other words for an operation, as they are used elsewhere, and those that are near.
function is_near() {
  if (tolower(words[3]) == "subscribe") return "register"
  if (tolower(words[3]) ~ /^(notify|publish|poke|set)$/) return "post"
  return nearest(words[3], operations)
}

function forms() {
  if (words[3] == "register") return " VARPATTERN [INTERVAL [SOURCEPATTERN]]"
  return words[3] == "unregister" ? " VARPATTERN [SOURCEPATTERN]" : ""
}

# Which pair of a post is wrong.
function tell_post(    list, at_sign, quoted, part, sign, i) {
  list = text
  for (i = 1; i <= 3; i++) sub(/^[^ \t]+[ \t]*/, "", list)
  for (i = 1; i <= length(list) + 1; i++) {
    sign = substr(list, i, 1)
    if (sign == "\"") quoted = !quoted
    if (i <= length(list) && (sign != "#" || quoted)) { part = part sign; continue }
    part = trimmed(part)
    if (pair_fault(part) != "") {
      tell((part == "" ? "a pair VAR=value is missing" : shown(part) " is no pair VAR=value: " pair_fault(part)) (part == "" ? "" : index(part, ",") ? ". Pairs are parted by #, and not by a comma" : ""))
      return
    }
    part = ""
  }
}

function tell_pattern() {
  if (count < 4) tell("the pattern of a variable is missing: " words[3] forms())
  else if (!is_pattern(words[4])) tell(shown(words[4]) " is no pattern: letters, digits, _, -, ., * and ?" (index(words[4], ",") ? "; each variable has a line of its own" : ""))
  else tell(shown(words[words[3] == "unregister" ? 5 : 6]) " is no pattern of a client's name: letters, digits, _, -, ., * and ?")
}
