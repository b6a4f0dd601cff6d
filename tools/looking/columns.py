"""Rows of words below each other."""


def aligned(rows, sides):
    """Rows of words in columns, each with its side: l for left and r for right."""
    widths = [max(map(len, column)) for column in zip(*rows)]
    for row in rows:
        cells = (word.ljust(width) if side == "l" else word.rjust(width) for word, width, side in zip(row, widths, sides))
        yield "  ".join(cells).rstrip()
