"""Numbers as reports print them."""


def thousandths(words):
    """A number, such as a stamp, as a whole number of thousandths, so that sums and comparisons are exact."""
    whole, _, decimals = words.lstrip("+-").partition(".")
    size = int(whole or "0") * 1000 + int((decimals + "000")[:3])
    return -size if words.startswith("-") else size
