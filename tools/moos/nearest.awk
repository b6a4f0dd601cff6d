# Prints which of the words of standard input, one a line, is nearest to the word `wanted` of the environment; nothing if none is near.
# Run behind distance.awk.
BEGIN { best = 99 }
{ now = farness(ENVIRON["wanted"], $0); if (now < best) { best = now; found = $0 } }
END { if (found != "") print found }
