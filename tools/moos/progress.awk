# Prints how far rt has come, by what it said so far: how many crates are proved beside each other, and then which one is at hand, and
# how long the rest took before. Run behind crates.awk on crates.txt, on lines `MINUTES CRATE` of an earlier run, where the last
# is `MINUTES built`, and on what rt said; -v earlier=WHERE says which run that was. With -v list=1 it prints the proved crates alone.
FNR == 1 { file++ }
file == 1 { if (/^[a-z]/) read_crate($0) }
file == 2 { minutes[$2] = $1 }
file == 3 && /^== / { is_proved[$2] = 1 }
file == 3 && /^rt: chose --jobs / { crate = $NF; checked = "" }
file == 3 && /^so far: / { checked = " (" $3 " of " $5 " functions)" }
END {
  place_of("moos_top")
  for (name in is_proved) if (name in place) {
    if (list) print name
    proved++
    if (minutes[name] + 0 > passed) passed = minutes[name] + 0
  }
  if (list) exit
  left = int(minutes["built"] - passed + 0.5)
  rest = left > 0 ? "; the rest took " left (left == 1 ? " minute " : " minutes ") earlier : ""
  if (crate in place) print "moos: proving " crate ", crate " place[crate] " of " crates checked rest
  else if (proved) print "moos: proved " proved " of " crates " crates" rest
}
