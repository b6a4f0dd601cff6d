# Prints the rows of docs/BEHAVIORS.md of the parameter `wanted` of the environment, or what is said of the type of behaviour of that name
# with all its rows; without a name the names of all of them, one a line. Run behind lines.awk and table.awk. The exit status is 1 if
# nothing has that name.
{ read_table($0) }
END {
  wanted = tolower(ENVIRON["wanted"])
  count = split(types, all, " ")
  all[++count] = "every type"
  for (i = 1; i <= count; i++) print_type(all[i])
  if (wanted == "") list()
  exit !found
}

function print_type(type,    k, is_type) {
  is_type = tolower(type) == wanted
  if (is_type) { print trimmed(sentences[type]); found = 1 }
  for (k = 1; k <= rows_of[type]; k++)
    if (is_type || (wanted != "" && index(" " rows[type, k] " ", " " wanted " "))) { print type ": " row_text[type, k]; found = 1 }
}

function list(    k, names, many, j) {
  found = 1
  for (i = 1; i < count; i++) print all[i]
  for (i = 1; i <= count; i++)
    for (k = 1; k <= rows_of[all[i]]; k++) {
      many = split(rows[all[i], k], names, " ")
      for (j = 1; j <= many; j++) if (!(names[j] in listed)) { print names[j]; listed[names[j]] }
    }
}
