# Prints the crates of the program, each with its place, its name and those below it. Run behind crates.awk on crates.txt.
/^[a-z]/ { read_crate($0) }
END { place_of("moos_top"); for (name in place) print place[name], name below[name] }
