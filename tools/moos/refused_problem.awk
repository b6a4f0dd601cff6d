# What a refused line of a problem or a decision should have been, in one sentence. Run behind lines.awk and distance.awk on the file;
# -v kind=problem or decision, -v at=LINE and -v code=CAUSE say what was refused. It prints nothing if no sentence fits.
{ line = $0; sub(/\r$/, "", line); line = trimmed(line); sub(/^%% /, "", line); line = trimmed(line) }
NR < at {
  if (line == "") next
  word = first_word(line)
  if (word == "domain") { axes++; seen[first_field(line)] = NR }
  if (word == "function") function_line = NR
  after = word
  next
}
NR == at { count = split(line, words, /[ \t]+/); tell_cause(); exit }

function first_field(line, parts) { sub(/^domain[ \t]+/, "", line); split(line, parts, ":"); return parts[1] }

function tell_cause() {
  if (code == "P1") tell_order()
  if (code == "P2") tell_axis()
  if (code == "P3") tell("on one axis of this piece the low end is above the high one, or the high end isn't below the number of the axis's points")
  if (code == "P4") tell("some point of the domain is in no piece of this function or in several")
  if (code == "P5") tell("at some point of the domain a piece of this function has a value outside 0 to 100,000")
  if (code == "P9" && kind == "problem") tell("the file ends before the line `end`")
  if (code == "P9" && kind == "decision") tell("the file ends before the line `done`" (line == "end" ? ": this is a problem, and solve prints its decision" : ""))
}

# Which line may stand here.
function tell_order() {
  if (after == "") tell("the first line of a " kind " is ivp 1")
  else if (after == "ivp") tell("behind ivp 1 a line domain NAME:LOW:HIGH:POINTS has to follow")
  else if (words[1] == "piece" && after != "domain" && after != "end") tell_piece()
  else if (after == "domain") tell("behind the domain lines a line function WEIGHT has to follow, with nothing behind the weight")
  else if (after == "end" && kind == "decision") tell("behind `end` a line decision I1 .. SUM has to follow, with " axes " places and the sum")
  else if (after == "end") tell("nothing may follow the `end` of a problem")
  else if (after == "decision" || after == "cut") tell("behind the decision lines cut P1 .. : SUM INDEX follow, and then done")
  else if (after == "done") tell("nothing may follow `done`")
  else tell("inside a function lines piece .. follow, and then another function WEIGHT or end")
}

function tell_piece(    i, wanted) {
  wanted = 3 * axes + 1
  for (i = 2; i <= count; i++) if (words[i] !~ (i > 2 * axes + 1 ? "^-?[0-9]+$" : "^[0-9]+$")) { tell(shown(words[i]) " is none of the whole numbers of a piece; its ends have no sign"); return }
  if (count - 1 != wanted) tell("a piece has a low and a high end for each axis, the base, and a slope for each axis: " wanted " whole numbers for " axes (axes == 1 ? " axis" : " axes") ", and this one has " count - 1)
  else tell("a number of this piece is too great: an end is at most 4,294,967,295, the base 100,000,000,000,000, and a slope 100,000 either way")
}

function tell_axis(    fields, count) {
  count = split(words[2], fields, ":")
  if (count == 4 && fields[1] in seen) tell("line " seen[fields[1]] " has the axis " fields[1] " already")
  else if (axis_fault(fields, count) != "") tell(axis_fault(fields, count))
  else tell(axes >= 4 ? "there are at most four axes" : "an axis has at least 2 points, a whole number, and all axes together have at most 268,435,456")
}
