# What a refused line of a behaviour file should have been, in one sentence. Run behind lines.awk, distance.awk, table.awk and blocks.awk
# on docs/BEHAVIORS.md and the behaviour file; -v at=LINE and -v code=CAUSE say what was refused, -v axes=NAMES which axes the
# mission has. It prints nothing if no sentence fits.
FNR == 1 { file++ }
file == 1 { read_table($0); next }
FNR == 1 { NR = 1 }
NR < at { read_line($0); next }
NR == at {
  text = said_in($0)
  before = within
  if (code == "B2") read_line($0)
  tell_cause()
  exit
}

function tell_cause() {
  if (code == "B1") tell_line()
  if (code == "B2") tell(within == "" ? "" : block_named() " isn't closed by a }" (inner ? "; line " inner " begins another inside it: " inner_line : ""))
  if (code == "B3") tell("no type is named " shown(last_type()) "; the types are " meant(last_type(), types))
  if (code == "B4") tell("line " ended[right_of(text)] " has the name " shown(right_of(text)) " already: each behaviour needs its own")
  if (code == "B5") tell_condition()
  if (code == "B6") tell_parameter()
  if (code == "B7") tell("no mode above is named " shown(right_of(text)) "; above are " meant(right_of(text), modes))
  if (code == "B8") tell("several modes above end in " shown(right_of(text)) ": write more of the path, as ACTIVE:" right_of(text))
  if (code == "B10") tell(axes_sentence(type) " (line " block "), and the mission's domain has " (axes == "" ? "none" : axes))
  if (code == "B11") tell_missing()
}

function last_type() { return opens(text, "Behavior") ? opened : type }

# Which form the line should have.
function tell_line(    word) {
  if (quote_is_open) tell("a quote stays open in this line")
  else if (before == "opening") tell("line " block " opens a block (" block_line "), and a line { has to follow it")
  else if (before == "behavior" || before == "mode") tell_inside()
  else if (text ~ /^[{}]/) tell("no block is open at this line" (closed ? ": the one before was closed at line " closed : ""))
  else {
    word = tolower(first_word(text))
    if (word == "initialize") tell("what follows initialize is no pair VAR=value: " pair_fault(trimmed(substr(text, 11))))
    else if (word == "set") tell_set()
    else if (left_of(tolower(text)) == "behavior") tell("a type has to follow Behavior =: " meant("", types))
    else tell("outside blocks a line begins with initialize, set MODE = or Behavior =, and this one with " shown(first_word(text)) near_word(word) (closed && index(text, "=") ? "; the block above was closed at line " closed : ""))
  }
}

function near_word(word,    near) { near = nearest(word, "initialize set Behavior"); return near == "" ? "" : ": is " near " meant?" }

function tell_set() {
  if (!index(text, "=")) tell("a mode is declared by set MODE = NAME {")
  else if (left_of(text) !~ /^[Ss][Ee][Tt][ \t]+MODE$/) tell("the variable behind set has to be MODE, as it is written here, and not " shown(trimmed(substr(left_of(text), 4))))
  else { opens(text, left_of(text)); tell(shown(opened) " is no name of a mode: letters, digits, _, - and ., the first a letter or _") }
}

function tell_inside() {
  if (text ~ /^[}]/) tell(before == "mode" ? "what follows the } of a mode has to be a name, and " shown(trimmed(substr(text, 2))) " is none" : "nothing may follow the } of a behaviour, and " shown(trimmed(substr(text, 2))) " does")
  else if (inner) tell(block_named() " isn't closed before line " inner ": " inner_line)
  else if (!index(text, "=")) tell("a line of a behaviour is PARAMETER = VALUE, and this one has no =; " block_named() " ends at a line }")
  else tell(shown(left_of(text)) " before the = is no name of a parameter")
}

function tell_condition(    condition) {
  condition = before == "mode" ? text : right_of(text)
  if (condition ~ /&&|[|][|]/) tell("conditions are joined by the words and, or; not stands before one: && and || aren't read")
  else if (before == "mode" && (is_opening(text) || inner)) tell(block_named() " isn't closed before this line")
  else if (before == "mode" && toupper(condition) ~ /(^|[^A-Z_])MODE([^A-Z_]|$)/) tell("in a mode MODE may stand only in one line MODE = PARENT, which names the mode above it")
  else if (condition !~ /[=<>]/) tell("a condition compares a variable: NAME = VALUE, or with ==, !=, <, <=, > or >=")
  else if (gsub(/[(]/, "(", condition) != gsub(/[)]/, ")", condition)) tell("a parenthesis stays open in " shown(condition))
}

# What the parameter may be; or at the end of a block what the parameters are to each other.
function tell_parameter(    parameter, row, value) {
  if (text ~ /^[}]/) { tell_relation(); return }
  parameter = left_of(text); value = right_of(text)
  row = row_of(type, parameter)
  if (row == "") return
  if (row ~ /a pair that is posted/) row = row "; " shown(value) " is no pair VAR=value: " pair_fault(value)
  if (row ~ /place|vertices/) row = row "; places are written x,y : x,y, or between pts={ and }, with nothing behind the }"
  if (value ~ /^[-+]?[0-9.]+[ \t]*[A-Za-z\/]+$/ && row ~ /[0-9] (m|s|degrees|m\/s)[ ;,]/) row = row "; the number stands without its unit"
  tell(type ": " row)
}

function tell_relation(    said, parts, count, i, names) {
  said = relations_of(type)
  sub(/[.]$/, "", said)
  if (said == "") return
  for (i = 1; i <= rows_of[type]; i++) {
    split(rows[type, i], names, " ")
    if (index(said, names[1])) parts = parts "; " names[1] " is " (names[1] in value_of ? value_of[names[1]] : default_of(type, i))
  }
  tell(type " (line " block "): " said parts)
}

function default_of(type, i,    row) { row = row_text[type, i]; return sub(/.*; default /, "", row) ? row " by default" : "not given" }

# Which parameters the behaviour lacks, and which of its lines may have been meant for one.
function tell_missing(    i, names, count, near) {
  if (behavior_name == "") lack("name", row_of(type, "name"))
  for (i = 1; i <= rows_of[type]; i++) if (is_needed[type, i] && !has_one_of(rows[type, i])) lack(rows[type, i], row_text[type, i])
  if (type == "BHV_StationKeep" && !has_one_of("station_pt point") && value_of["center_activate"] != "true") lack("station_pt point", row_of(type, "point"))
  if (value_of["templating"] == "spawn" && !has_one_of("updates")) lack("updates", "updates, which a template (templating = spawn) must have: " row_of(type, "updates"))
  count = split(unused, names, " ")
  for (i = 1; i <= count; i++) if (near == "" && nearest(names[i], lacks) != "") near = ". Line " line_of[names[i]] " has " shown(names[i]) ": is " nearest(names[i], lacks) " meant?"
  if (lacking != "") tell(type " (line " block ") lacks " lacking near)
}

function lack(parameters, row) {
  sub(/; (must be given|default none)$/, "", row)
  lacking = lacking (lacking == "" ? "" : "; and ") row
  lacks = trimmed(lacks " " parameters)
}

function has_one_of(parameters,    names, count, i) {
  count = split(parameters, names, " ")
  for (i = 1; i <= count; i++) if (names[i] in value_of) return 1
  return 0
}
