# What a refused line of a mission should have been, in one sentence. Run behind lines.awk and distance.awk on the mission; -v at=LINE
# and -v code=CAUSE say what was refused. It prints nothing if no sentence fits. With -v axes=1 it prints the names of the axes.
{ text = said_in($0) }
!axes && NR == at && code != "M2" && code != "M5" && code != "M7" && code != "M8" { tell_line(); exit }
text == "" { next }
within == "opening" { within = text == "{" ? app : ""; next }
within != "" && text == "}" { within = ""; closed = NR; if (app == "phelmivp") helm_end = NR; next }
within != "" { if (within == "phelmivp") keep(); if (!inner && left_of(tolower(text)) == "processconfig") { inner = NR; inner_line = text }; next }
opens(text, "ProcessConfig") { begin() }
/^[ \t]*[Bb]ehavior[ \t]*=/ { behaviors_line = NR }
END {
  if (axes) { gsub(/ /, ", ", domain); print domain }
  else if (!is_told) tell_end()
}

function begin() {
  block = NR; block_line = text; inner = 0
  app = tolower(opened)
  apps = apps (apps == "" ? "" : ", ") opened
  if (app == "phelmivp" && !helm) helm = NR
  within = is_waiting ? "opening" : app
}

function keep(    name, fields) {
  name = left_of(tolower(text))
  if (name == "behaviors") behaviors = NR
  if (name == "apptick") tick = right_of(text)
  if (name == "domain") {
    split(right_of(text), fields, /[ \t]*[:,][ \t]*/)
    domain = domain (domain == "" ? "" : " ") tolower(fields[1])
    line_of[tolower(fields[1])] = NR
  }
}

function block_named() { return "the block that begins at line " block " (" block_line ")" }

function tell_line() {
  if (quote_is_open) tell("a quote stays open in this line")
  else if (code == "M1") tell_form()
  else if (code == "M3" || code == "M4") tell_domain()
  else if (code == "M6") tell("AppTick is a number from 0.001 to 1,000: how often the helm iterates in a second; " shown(right_of(text)) " is none")
}

function tell_form() {
  if (within == "opening") tell("line " block " opens a block (" block_line "), and a line { has to follow it")
  else if (within == "phelmivp") tell_helm()
  else if (text ~ /^[{}]$/) {
    if (behaviors_line) tell("line " behaviors_line " is one of a behaviour file: a mission names that file by behaviors = FILE in its block of pHelmIvP")
    else tell("no block is open at this line" (closed ? ": the one before was closed at line " closed : ""))
  }
  else if (opens(text, "ProcessConfig")) tell(opened == "" ? "ProcessConfig = has to name an app" : "line " helm " begins the block of pHelmIvP already, and a mission has one")
}

function tell_helm() {
  if (!index(text, "=")) tell(inner ? block_named() " isn't closed before line " inner ": " inner_line : "a line of the block of pHelmIvP is NAME = VALUE, and this one has no =; the block ends at a line }")
  else if (left_of(tolower(text)) == "behaviors") tell(behaviors ? "line " behaviors " names a behaviour file already, and a mission has one" : "behaviors = has to name a file")
}

function tell_domain(    fields, count, name) {
  count = split(right_of(text), fields, /[ \t]*[:,][ \t]*/)
  name = tolower(fields[1])
  if (code == "M4") tell("the axes have more than 268,435,456 points together with this one: the product of their points is counted")
  else if (count == 4 && name in line_of) tell("line " line_of[name] " has the axis " name " already")
  else if (axis_fault(fields, count) != "") tell(axis_fault(fields, count))
  else if (split(domain, fields, " ") >= 4) tell("a mission has at most four axes")
}

# What is missing at the end.
function tell_end() {
  if (code == "M2" && within != "") tell(block_named() " isn't closed by a line }" (inner ? "; line " inner " begins another inside it: " inner_line : ""))
  if (code == "M8") tell("with AppTick = " (tick == "" ? "4 (none is given)" : tick) " the helm iterates 20,000 times in " int(20000 / (tick == "" ? 4 : tick)) " s, and the script's last stamp is not below that")
  if (code != "M5" && code != "M7") return
  if (helm) tell("the block of pHelmIvP at line " helm " has no line " (code == "M5" ? "domain = NAME:LOW:HIGH:POINTS" : "behaviors = FILE"))
  else tell("there is no block of pHelmIvP; " (apps == "" ? "the file has no block at all" : "there are " apps))
}
