# The blocks of a behaviour file up to the refused line, as its reader goes over them. For refused_behaviors.awk.

# Keeps what the line says in `text`, and where it stands: `within` is "", "mode", "behavior" or "opening" (the line above opened a
# block whose { is still to come). `block` is the line at which the open block begins, `type` a behaviour's type or a mode's name.
function read_line(line,    was) {
  was = within
  text = said_in(line)
  if (text == "") return
  if (was == "opening") { within = text == "{" ? kind : ""; return }
  if (was == "mode" || was == "behavior") { read_inside(was); return }
  if (opens(text, "Behavior")) begin("behavior", opened)
  else if (tolower(first_word(text)) == "set" && index(text, "=")) {
    opens(text, left_of(text))
    begin("mode", opened)
    modes = modes (modes == "" ? "" : " ") opened
  }
}

function begin(what, name) {
  block = NR; kind = what; type = name
  block_line = text
  within = is_waiting ? "opening" : what
  inner = 0; behavior_name = ""; unused = ""
  split("", value_of); split("", line_of)
}

# A line of an open block. `inner` is the first one in it that looks as if it began another block.
function read_inside(was) {
  if (text ~ /^[}]/) {
    within = ""; closed = NR
    if (was == "behavior" && behavior_name != "") { if (!(behavior_name in ended)) ended[behavior_name] = name_line }
    return
  }
  if (!inner && is_opening(text)) { inner = NR; inner_line = text }
  if (was == "behavior") keep(tolower(left_of(text)), right_of(text))
}

function is_opening(line) { return line ~ /^[Bb]ehavior[ \t]*=/ || line ~ /^[Ss]et[ \t]+[A-Za-z]+[ \t]*=/ || line ~ /^[Ii]nitialize[ \t]/ }

function keep(parameter, value) {
  if (parameter == "") return
  value_of[parameter] = value; line_of[parameter] = NR
  if (parameter == "name") { behavior_name = value; name_line = NR }
  if (row_of(type, parameter) == "" && !is_opening(text)) unused = unused " " parameter
}

# What the block is, for a sentence.
function block_named() { return "the block that begins at line " block " (" block_line ")" }
