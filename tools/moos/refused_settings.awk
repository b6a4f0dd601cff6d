# What a refused line of a vehicle file or a contacts file should have been, in one sentence. Run behind lines.awk and distance.awk on
# docs/FORMATS.md and the file; -v kind=vehicle or contacts, -v at=LINE and -v code=CAUSE say what was refused. It prints nothing if no
# sentence fits.
FNR == 1 { file++ }
file == 1 && /^## / { section = $2 }
file == 1 && section == "Vehicle" && /^[|] `/ && split($0, cells, / *[|] */) == 5 {
  gsub(/`/, "", cells[2])
  count = split(cells[2], parts, /, */)
  for (i = 1; i <= count; i++) { row[parts[i]] = cells[3] "; default " cells[4]; vehicle = vehicle " " parts[i] }
}
file == 1 { next }
FNR == 1 { NR = 1; row["alert_range"] = "0 to 10,000; default 50"; row["clear_range"] = "0 to 10,000; default 60"
  names = kind == "vehicle" ? substr(vehicle, 2) : "alert_range clear_range" }
{ text = said_in($0); name = tolower(left_of(text)) }
NR < at { if (name != "") value[name] = right_of(text); next }
NR == at {
  if (name != "") value[name] = right_of(text)
  if (quote_is_open) tell("a quote stays open in this line")
  if (code == "V1" || code == "C1") tell(index(text, "=") ? shown(left_of(text)) " is no name of a " kind " file; they are " meant(left_of(text), names) : "a line is NAME = VALUE, and this one has no =")
  if ((code == "V2" || code == "C2") && name in row) tell(name " is a number: " row[name] "; " shown(right_of(text)) " is none of these")
  if (code == "C3") tell("clear_range is " range("clear_range", 60) ", and has to be at least alert_range, which is " range("alert_range", 50))
  exit
}

function range(name, otherwise) { return name in value ? value[name] : otherwise " by default" }
