# Prints the behaviour file that a mission names: the last `behaviors` line of the helm's block. Run behind lines.awk. With
# -v instead=NAME it prints the mission with NAME in that place.
{ lines[NR] = $0; line = said_in($0) }
app == "" { if (opens(line, "ProcessConfig")) app = tolower(opened); next }
line == "}" { app = ""; next }
app == "phelmivp" && tolower(left_of(line)) == "behaviors" && right_of(line) != "" { named = right_of(line); at = NR }
END {
  if (instead == "") { if (at) print named }
  else for (i = 1; i <= NR; i++) print (i == at ? "behaviors = " instead : lines[i])
}
