# How the lines of the files are read: what a line says, its sides, names, numbers and pairs. For the other awk files of this folder.

# What a line says: without its comment, which begins outside quotes, and without blanks at its ends. `quote_is_open` is whether a
# quote stays open in it.
function said_in(line,    at, sign) {
  sub(/\r$/, "", line)
  quote_is_open = 0
  for (at = 1; at <= length(line); at++) {
    sign = substr(line, at, 1)
    if (sign == "\"") quote_is_open = !quote_is_open
    else if (sign == "/" && !quote_is_open && substr(line, at + 1, 1) == "/") { line = substr(line, 1, at - 1); break }
  }
  return trimmed(line)
}

function trimmed(text) { gsub(/^[ \t]+|[ \t]+$/, "", text); return text }

# What stands before the first =, and what stands behind it.
function left_of(line) { return index(line, "=") ? trimmed(substr(line, 1, index(line, "=") - 1)) : "" }
function right_of(line) { return index(line, "=") ? trimmed(substr(line, index(line, "=") + 1)) : "" }

function first_word(line) { sub(/[ \t].*/, "", line); return line }

# Whether a line opens a block `WORD = NAME {`, where the { may be on the next line; `opened` is the NAME then, and `is_waiting` is
# whether the { is still to come.
function opens(line, word) {
  if (tolower(left_of(line)) != tolower(word)) return 0
  opened = right_of(line)
  is_waiting = opened !~ /[{]$/
  sub(/[ \t]*[{]$/, "", opened)
  return 1
}

function is_name(text) { return length(text) <= 64 && text ~ /^[A-Za-z_][A-Za-z0-9_.-]*$/ }
function is_pattern(text) { return length(text) <= 64 && text ~ /^[A-Za-z0-9_.*?-]+$/ }
function is_number(text) { return text ~ /^[-+]?([0-9]+[.]?[0-9]*|[.][0-9]+)$/ }

# Why an axis NAME:LOW:HIGH:POINTS is none, by its fields; nothing if no sentence fits.
function axis_fault(fields, count,    i) {
  if (count != 4) return "an axis has four fields, NAME:LOW:HIGH:POINTS, as speed:0:4:41, and this one has " count
  if (fields[1] !~ /^[A-Za-z][A-Za-z0-9_]*$/ || length(fields[1]) > 16) return shown(fields[1]) " is no name of an axis: 1 to 16 letters, digits and _, the first a letter"
  for (i = 2; i <= 3; i++) {
    if (!is_number(fields[i])) return "the ends of an axis are numbers, and " shown(fields[i]) " is none"
    if (fields[i] > 1000000000 || fields[i] < -1000000000) return "the ends of an axis are from -1,000,000,000 to 1,000,000,000, and " shown(fields[i]) " isn't"
  }
  if (fields[2] + 0 >= fields[3] + 0) return "the low end " fields[2] " isn't below the high one " fields[3]
  if (fields[4] !~ /^[+]?[0-9]+([.][0-9]*)?$/ || fields[4] + 0 < 2) return "the points of an axis are a whole number of at least 2, and " shown(fields[4]) " isn't"
  return ""
}

# A word of a file as it is shown in a hint.
function shown(text) { return "'" (length(text) > 60 ? substr(text, 1, 60) ".." : text) "'" }

# Why a text is no pair VAR=value; nothing if it is one.
function pair_fault(text,    name, value) {
  if (text == "") return "there is none"
  if (!index(text, "=")) return "it has no ="
  name = left_of(text); value = right_of(text)
  sub(/:$/, "", name); name = trimmed(name)
  if (!is_name(name)) return shown(name) " before the = is no name"
  if (value == "") return "nothing stands behind the ="
  if (value ~ /^"/ && value !~ /^"[^"]*"$/) return "a text that begins with a quote has to end with the next one"
  if (length(value) > 4098) return "its text has more than 4,096 bytes"
  if (value ~ /[\001-\010\012-\037\177]/) return "its value holds a control byte"
  return ""
}

# One hint: a line of what an awk file of this folder prints. The first one that fits counts.
function tell(text) { if (!is_told && text != "") { print text; is_told = 1 } }
