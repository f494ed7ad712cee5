"""Random boards and positions for comparisons, from a seed: noise, true positions (cells shown at random, or flooded from a start), each also with slips,
known mines and known safe cells among them, sizes from 1 x 1 to 32 x 32, and lines that a call must refuse."""
import collections
import functools


def neighbours(rows, columns, c):
    i, j = divmod(c, columns)
    return [m * columns + n for m in range(max(0, i - 1), min(rows, i + 2)) for n in range(max(0, j - 1), min(columns, j + 2)) if m * columns + n != c]


@functools.lru_cache(None)
def windows(rows, columns):
    """The neighbours of each cell."""
    return [neighbours(rows, columns, c) for c in range(rows * columns)]


def size(r, largest):
    """Mostly small boards, thin ones and the largest among them."""
    k = r.random()
    if k < 0.80:
        return r.randint(1, 9), r.randint(1, 9)
    if k < 0.90:
        return r.randint(1, largest), r.randint(1, 3)
    if k < 0.95:
        return r.randint(1, 3), r.randint(1, largest)
    return r.choice([(16, 16), (16, 30), (32, 32), (1, 32), (32, 1), (24, 20)]) if largest == 32 else (largest, largest)


def numbered(rows, columns, mines):
    """The board of a layout of mines, with its true numbers; 255 is a mine."""
    return [255 if mines[c] else sum(mines[d] for d in near) for c, near in enumerate(windows(rows, columns))]


def board(r, rows, columns, density):
    """A random board with true numbers."""
    return numbered(rows, columns, [r.random() < density for _ in range(rows * columns)])


def flooded(rows, columns, cells, position, start):
    """Opens a cell in a position, and from each 0 its neighbours."""
    near = windows(rows, columns)
    todo = [start]
    while todo:
        c = todo.pop()
        if position[c] in (10, 12):
            position[c] = cells[c]
            if cells[c] == 0:
                todo += near[c]


def openings(rows, columns, cells):
    """How many groups of zeros a board has, joined at sides and corners."""
    found, position = 0, [10] * len(cells)
    for c, value in enumerate(cells):
        if value == 0 and position[c] == 10:
            flooded(rows, columns, cells, position, c)
            found += 1
    return found


def position(r, largest=32):
    """A position and the kind it is of."""
    rows, columns = size(r, largest)
    n = rows * columns
    kind = r.choice(['noise', 'shown', 'flooded'])
    if kind == 'noise':
        closed = r.choice([0.2, 0.4, 0.6])
        values = [10] * int(100 * closed) + [11] * 8 + [12] * 4 + r.choice([[0, 1, 1, 2, 2, 3], [1, 2], list(range(9))]) * 8
        return kind, rows, columns, [r.choice(values) for _ in range(n)]
    cells = board(r, rows, columns, r.choice([0.05, 0.1, 0.15, 0.2, 0.3, 0.5]))
    p = [10] * n
    if kind == 'shown':
        part = r.random()
        p = [v if v != 255 and r.random() < part else 10 for v in cells]
    else:
        safe = [c for c in range(n) if cells[c] != 255]
        for _ in range(r.randint(1, 4)):
            if safe:
                flooded(rows, columns, cells, p, r.choice(safe))
    if r.random() < 0.5:
        known = r.random() * 0.5
        p = [(11 if cells[c] == 255 else 12) if v == 10 and r.random() < known and (cells[c] == 255 or r.random() < 0.2) else v for c, v in enumerate(p)]
    if r.random() < 0.3:
        kind += ' with slips'
        for _ in range(r.randint(1, 3)):
            p[r.randrange(n)] = r.choice([0, 1, 2, 3, 8, 10, 11, 12])
    return kind, rows, columns, p


def group_counts(rows, columns, p):
    """How many groups each block of a position has: closed cells that the same open cells touch are a group, and groups that share an open cell are a block."""
    groups = {tuple(d for d in near if p[d] < 10) for c, near in enumerate(windows(rows, columns)) if p[c] == 10} - {()}
    leader = {}

    def lead(c):
        while leader.setdefault(c, c) != c:
            c = leader[c]
        return c

    for group in groups:
        for c in group[1:]:
            leader[lead(c)] = lead(group[0])
    return list(collections.Counter(lead(group[0]) for group in groups).values())


def most_groups(rows, columns, p):
    return max(group_counts(rows, columns, p), default=0)


def small_blocks(r, most):
    """A position in which no block has more groups than told, and its kind."""
    while True:
        kind, rows, columns, p = position(r)
        if most_groups(rows, columns, p) <= most:
            return kind, rows, columns, p


def damaged(r, largest=32):
    """A line of numbers that a position call must refuse, by size, length or cell."""
    _, rows, columns, p = position(r, min(largest, 8))
    how = r.choice(['size', 'length', 'cell'])
    if how == 'size':
        rows, columns = r.choice([(0, columns), (rows, 0), (33, columns), (rows, 33), (255, 255), (1000, 1)])
    elif how == 'length':
        p = p[:-1] if r.random() < 0.5 else p + [10]
    else:
        p[r.randrange(len(p))] = r.choice([9, 13, 14, 100, 254, 255, 256, 1000])
    return 'refused', rows, columns, p


def mined(density):
    """How full of mines a board is, in words."""
    return 'few mines' if density < 0.3 else 'many mines' if density < 0.6 else 'mostly mines'


def any_board(r, largest=32):
    """A board for the pattern call, and its kind: the densities from few mines to few safe cells, sizes from 3 x 3 on."""
    k = r.random()
    if k < 0.80:
        rows, columns = r.randint(3, 10), r.randint(3, 10)
    elif k < 0.95:
        rows, columns = r.randint(3, largest), r.randint(3, largest)
    else:
        rows, columns = r.choice([(3, largest), (largest, 3), (largest, largest), (min(16, largest), min(30, largest))])
    density = r.uniform(0.05, 0.9)
    return mined(density), rows, columns, board(r, rows, columns, density)


def damaged_board(r):
    """A line of numbers that the pattern call must refuse, by size, length or cell."""
    _, rows, columns, cells = any_board(r, 8)
    how = r.choice(['size', 'length', 'cell'])
    if how == 'size':
        rows, columns = r.choice([(2, 3), (3, 2), (33, 3), (3, 33), (0, columns), (rows, 1), (255, 255)])
        if r.random() < 0.5:
            cells = board(r, rows, columns, 0.5) if rows * columns <= 1024 else cells
    elif how == 'length':
        cells = cells[:-1] if r.random() < 0.5 else cells + [255]
    else:
        cells[r.randrange(len(cells))] = r.choice([9, 10, 11, 12, 100, 254, 256, 1000])
    return 'refused', rows, columns, cells


def line(rows, columns, p):
    return ' '.join(map(str, [rows, columns] + p))
