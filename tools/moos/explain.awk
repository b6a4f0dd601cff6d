# What `./moos explain` prints of one word, or without one the list of all: the causes of refusals, the words and lines of a report, and
# the exit statuses, from the tables of docs/FORMATS.md. The word is `wanted` in the environment; letters of either case count the same.
# The exit status is 1 if nothing has that name.
BEGIN { FS = " *[|] *"; wanted = tolower(ENVIRON["wanted"]); listing = wanted == "" }
/^## / { section = substr($0, 4) }

function say(text) { print text; found = 1 }
function listed(list, name) { return index(", " list ",", ", " name ",") ? list : list (list == "" ? "" : ", ") name }

# A cause, by its code, by its name, or by both.
NF == 4 && $2 ~ /^[A-Z][0-9]+ [A-Z][A-Za-z]+$/ && $3 != "as above" {
  split($2, parts, " ")
  if (!(section in causes)) { order[++sections] = section; causes[section] = "" }
  causes[section] = listed(causes[section], $2)
  if (index(" " tolower($2) " " tolower(parts[1]) " " tolower(parts[2]) " ", " " wanted " ") && !listing) say(section ": " $2 ": " $3)
}

# A word of a report, and a line of it.
section == "The report" && NF == 4 && $2 ~ /^`[^`]*`/ && $2 !~ /^`%% / {
  word = $2
  gsub(/`/, "", word)
  words = listed(words, word)
  if (wanted == tolower(word)) say("A word of a report: " $2 ": " $3)
}
section == "The report" && NF == 4 && /`%% / {
  count = split($2 " " $3, parts, "`%% ")
  for (i = 2; i <= count; i++) { sub(/[ `].*/, "", parts[i]); if (parts[i] != "") lines = listed(lines, parts[i]) }
  if (!listing && index($2 " " $3, "`%% " wanted " ") + index($2 " " $3, "`%% " wanted "`")) say("A line of a report: " $2 ": " $3)
}

# A status.
NF == 6 && $2 ~ /^[0-9]$/ && section ~ /^Command line/ {
  statuses = listed(statuses, $2)
  if (wanted == $2) say("Exit status " $2 ($3 == "" ? "" : ", with " $3 " on standard error") ": " $4 ". Written by then: " $5)
}
END {
  if (wanted == "126") say("Exit status 126: there is no program to run: it couldn't be proved and built, or an unproved one gave no answer")
  if (!listing) exit !found
  for (i = 1; i <= sections; i++) print order[i] ": " causes[order[i]]
  print "Lines of a report: " lines
  print "Words of a report: " words
  print "Exit statuses: " statuses ", 126"
}
