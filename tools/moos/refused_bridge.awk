# What a refused line of a bridge file should have been, in one sentence. Run behind lines.awk and distance.awk on the bridge file;
# -v at=LINE and -v code=CAUSE say what was refused. It prints nothing if no sentence fits.
NR == at {
  text = said_in($0)
  count = split(text, words, /[ \t]+/)
  form = "share VARPATTERN SOURCEPATTERN INTERVAL PREFIX"
  if (quote_is_open) tell("a quote stays open in this line")
  if (code == "G1" && words[1] != "share") tell("a line is " form ", and this one begins with " shown(words[1]))
  if (code == "G1") tell("a line is " form ", and this one has " count - 1 " of the four words behind share; the prefix - is none")
  if (code == "G2") tell(shown(is_pattern(words[2]) ? words[3] : words[2]) " is no pattern: letters, digits, _, -, ., * and ?")
  if (code == "G3") tell(shown(words[4]) " is no interval: a number of seconds from 0 to 1,000,000")
  if (code == "G5") tell(shown(words[5]) " is no prefix: - for none, or a name of at most 32 bytes")
  exit
}
