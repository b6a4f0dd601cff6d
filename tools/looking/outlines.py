"""The outlines of what lies above a level on a grid of cells."""


def outlines(bands, levels, is_round):
    """For each level from 1 on the closed runs of corners around the cells of that band or above; `bands[i][j]` is the band of a cell.
    If the grid is round, its last column is beside its first one. Corner (i, j) is the lower left one of cell (i, j)."""
    columns, rows = len(bands), len(bands[0])
    edges = [{} for _ in range(levels)]
    outside = [0] * rows

    def add(low, high, start, end):
        """An edge with what is higher on its left: from start to end if the second of its two cells is."""
        for level in range(min(low, high) + 1, max(low, high) + 1):
            begin, goal = (start, end) if high > low else (end, start)
            edges[level].setdefault(begin, []).append(goal)

    for i in range(columns + (not is_round)):
        left = bands[i - 1] if i or is_round else outside
        right = bands[i] if i < columns else outside
        if left != right:
            for j, (low, high) in enumerate(zip(left, right)):
                add(low, high, (i, j + 1), (i, j))
    for i, column in enumerate(bands):
        after = (i + 1) % columns if is_round else i + 1
        for j, (low, high) in enumerate(zip([0, *column], [*column, 0])):
            add(low, high, (i, j), (after, j))
    return [loops(level) for level in edges[1:]]


def loops(edges):
    """Edges by their beginnings, joined to closed runs."""
    found = []
    while edges:
        start = corner = next(iter(edges))
        run = []
        while True:
            run.append(corner)
            following = edges[corner].pop()
            if not edges[corner]:
                del edges[corner]
            corner = following
            if corner == start:
                break
        found.append(run)
    return found
