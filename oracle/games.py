"""Positions of games in play, from a seed: a start at a 0, then cells opened that the direct and the subtraction rule find, as a player opens them, some
at a time. Where the rules find nothing more, the game ends or goes on with one lucky guess. The blocks of such positions are long, as in the judge's work."""
import positions

SIZES = [(16, 30, 99), (16, 16, 40), (8, 8, 10)]


def laid(r, rows, columns, mines):
    """A random board with so many mines."""
    places = set(r.sample(range(rows * columns), mines))
    return positions.numbered(rows, columns, [c in places for c in range(rows * columns)])


def equations(near, p):
    """For each open cell with a closed neighbour: its closed neighbours, and how many of them are mines."""
    found = []
    for c, value in enumerate(p):
        if value < 10:
            closed = frozenset(d for d in near[c] if p[d] == 10)
            if closed:
                found.append((closed, value - sum(p[d] == 11 for d in near[c])))
    return found


def direct(system):
    """The safe cells and the mines that an equation tells alone."""
    safe, mines = set(), set()
    for cells, rest in system:
        if rest == 0:
            safe |= cells
        elif rest == len(cells):
            mines |= cells
    return safe, mines


def subtracted(system):
    """The safe cells and the mines that two equations with a cell in common tell."""
    safe, mines, holding = set(), set(), {}
    for equation in system:
        for c in equation[0]:
            holding.setdefault(c, set()).add(equation)
    for cells, rest in system:
        for others, others_rest in set().union(*(holding[c] for c in cells)):
            if len(cells - others) == rest - others_rest:
                mines |= cells - others
                safe |= others - cells
    return safe, mines


def deduced(near, p):
    """The safe cells and the mines that the direct rule finds, or else subtraction."""
    system = equations(near, p)
    safe, mines = direct(system)
    return (safe, mines) if safe or mines else subtracted(system)


def mark(near, p):
    """Marks what the rules find, 11 a mine and 12 a safe cell, until a safe cell is found or nothing more."""
    safe, mines = set(), {None}
    while mines and not safe:
        safe, mines = deduced(near, p)
        for cells, value in (safe, 12), (mines, 11):
            for c in cells:
                p[c] = value


def to_open(r, board, p):
    """The cells that the player opens next: some that are known to be safe, else by chance a lucky guess, else none, and the game is over."""
    known = [c for c, value in enumerate(p) if value == 12]
    if known:
        return r.sample(known, r.randint(1, len(known)))
    closed = [c for c, value in enumerate(p) if value == 10 and board[c] != 255]
    return r.sample(closed, min(1, len(closed))) if r.random() < 0.6 else []


def game(r, rows, columns, mines):
    """The positions of one game."""
    board = laid(r, rows, columns, mines)
    near = positions.windows(rows, columns)
    p = [10] * (rows * columns)
    zeros = [c for c, value in enumerate(board) if value == 0]
    cells = r.sample(zeros, min(1, len(zeros)))
    while cells:
        for c in cells:
            positions.flooded(rows, columns, board, p, c)
        yield list(p)
        mark(near, p)
        cells = to_open(r, board, p)


def played(r, from_one_game=8):
    """Without end: kind and position; of each game the last one and some before, half of them without marks, as the solver of demand 3 sees them."""
    while True:
        rows, columns, mines = r.choice(SIZES)
        moments = list(game(r, rows, columns, mines))
        for p in moments[-1:] + r.sample(moments, min(len(moments), from_one_game - 1)):
            if r.random() < 0.5:
                p = [10 if value > 10 else value for value in p]
            yield 'played %d x %d' % (rows, columns), rows, columns, p
