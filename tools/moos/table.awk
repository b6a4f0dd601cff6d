# The tables of docs/BEHAVIORS.md: the types of behaviours with the axes that they need, and the rows of their parameters. Read as the
# first file by the other awk files of this folder.

# `types` are the names of all types, and `sentences` of a type what is said above its table.
function read_table(line,    cells, names, count, i) {
  if (line ~ /^Every type has these/) { of = "every type"; return }
  if (line ~ /^\*\*BHV_/) {
    of = substr(line, 3)
    sub(/\*\*.*/, "", of)
    types = types (types == "" ? "" : " ") of
  }
  if (line ~ /^## The life/) of = ""
  if (of == "") return
  if (line !~ /^[|]/) {
    gsub(/[`*]/, "", line)
    if (!rows_of[of] && line != "") sentences[of] = sentences[of] " " line
    return
  }
  split(line, cells, / *[|] */)
  if (cells[2] !~ /^`/) return
  names = cells[2]
  gsub(/`|,|(^| )or /, " ", names)
  rows[of, ++rows_of[of]] = names
  gsub(/`/, "", line)
  split(line, cells, / *[|] */)
  row_text[of, rows_of[of]] = cells[2] ": " cells[3] (cells[4] == "" ? "; must be given" : cells[4] ~ /^must/ ? "; " cells[4] : "; default " cells[4])
  is_needed[of, rows_of[of]] = cells[4] == ""
}

# The number of the row of this type that has the parameter; 0 if none has.
function row_with(type, parameter,    i, names, count, k) {
  for (i = 1; i <= rows_of[type]; i++) {
    count = split(rows[type, i], names, " ")
    for (k = 1; k <= count; k++) if (names[k] == tolower(parameter)) return i
  }
  return 0
}

# The row of a parameter, of its type's or of those that every type has; nothing if the type hasn't it.
function row_of(type, parameter,    i) {
  if (i = row_with(type, parameter)) return row_text[type, i]
  if (i = row_with("every type", parameter)) return row_text["every type", i]
  return ""
}

# What is said of the axes that a type needs, and the sentences behind that.
function axes_sentence(type,    said) { said = trimmed(sentences[type]); sub(/[.].*/, "", said); return said }
function relations_of(type,    said) { said = trimmed(sentences[type]); return sub(/^[^.]*[.] ?/, "", said) ? trimmed(said) : "" }
