"""What the tools know of the files of a run: their words, their rules, and what of MOOS-IvP is otherwise here."""
