# Which crates the program is made of: its own and all below it, by crates.txt. For the other awk files of this folder.
function read_crate(line, name) { name = line; sub(/[: ].*/, "", name); sub(/.*:/, "", line); below[name] = line }

# Gives this crate and those below it their places, the lowest first.
function place_of(name, names, i) {
  if (name in place || !(name in below)) return
  for (i = split(below[name], names, " "); i > 0; i--) place_of(names[i])
  place[name] = ++crates
}
