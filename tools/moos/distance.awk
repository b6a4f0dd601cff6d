# Which word is meant, of those that are known. For the other awk files of this folder.
function least(a, b) { return a < b ? a : b }

# The distance of two words: how many letters have to be put in, left out, changed, or swapped with their neighbours.
function distance(a, b,    i, j, d, same) {
  for (i = 0; i <= length(a); i++) d[i, 0] = i
  for (j = 0; j <= length(b); j++) d[0, j] = j
  for (i = 1; i <= length(a); i++)
    for (j = 1; j <= length(b); j++) {
      same = substr(a, i, 1) == substr(b, j, 1)
      d[i, j] = least(least(d[i - 1, j] + 1, d[i, j - 1] + 1), d[i - 1, j - 1] + !same)
      if (i > 1 && j > 1 && substr(a, i, 1) == substr(b, j - 1, 1) && substr(a, i - 1, 1) == substr(b, j, 1))
        d[i, j] = least(d[i, j], d[i - 2, j - 2] + 1)
    }
  return d[length(a), length(b)]
}

# How far a word is from one that is known; letters of either case count the same. What is too far is nothing: more than a third of
# its letters, or than four. A word that is cut short, as `sim` or `BHV_Way`, is near.
function farness(wanted, known,    far, now) {
  if (length(wanted) > 60 || length(known) > 60) return 99
  wanted = tolower(wanted); known = tolower(known)
  far = least(int(length(wanted) / 3), 4)
  now = distance(wanted, known)
  if (now <= far) return now
  return length(wanted) > 2 && index(known, wanted) == 1 ? far + 0.5 : 99
}

# The nearest of the words `known`, one behind the other with blanks between; nothing if none is near.
function nearest(wanted, known,    names, count, i, best, found) {
  count = split(known, names, " ")
  best = 99
  for (i = 1; i <= count; i++) if (farness(wanted, names[i]) < best) { best = farness(wanted, names[i]); found = names[i] }
  return found
}

# `: is X meant?` if a known word is near, and otherwise which are known.
function meant(wanted, known,    near, listed) {
  near = nearest(wanted, known)
  listed = known
  gsub(/ /, ", ", listed)
  return near == "" ? listed : listed ". Is " near " meant?"
}
