"""The verdict on a board that shows its mine total (mark 4D 43), as a second program beside ours, from the definition alone: it makes every layout that fits a position
and has as many mines as the board, one after another, and finds a cell where all of them agree. Blocks are nowhere in it, so it is for few layouts. A board is judged
twice. A solver asks, from the start alone, for each cell at which no such layout has a mine, until none is left: what is open then is the picture. The passes
(oracle/passes.py) give the grade and the rounds, with one rule more behind the three. Both must come to one picture."""
import functools
import itertools
import math

import asking
import passes
import positions
import records

HEAD = 6  # bytes of a record before its cells
GRADE = 5
MOST_LAYOUTS = 50000  # so 18 closed cells are few enough, whatever their mines


def few(p, total):
    """Are there few enough layouts of the total at a position to make them all?"""
    return math.comb(p.count(10), total - p.count(11)) <= MOST_LAYOUTS


def small(head, cells):
    """Can a board with a safe start be judged by the solver too?"""
    return few(passes.Run(head, cells).positions[0], cells.count(255))


@functools.lru_cache(None)
def windows(rows, columns):
    """The neighbours of each cell, as a number with a bit for each."""
    return [sum(1 << d for d in near) for near in positions.windows(rows, columns)]


def layouts(rows, columns, p, total):
    """Every layout that fits a position (SPECIFICATION 2.6) and has so many mines in all, as a number with a bit for each mine."""
    closed = [1 << c for c, shown in enumerate(p) if shown == 10]
    known = sum(1 << c for c, shown in enumerate(p) if shown == 11)
    numbers = [(window, shown) for window, shown in zip(windows(rows, columns), p) if shown <= 8]
    for mines in itertools.combinations(closed, total - known.bit_count()):
        layout = known + sum(mines)
        if all((layout & window).bit_count() == shown for window, shown in numbers):
            yield layout


@functools.lru_cache(1 << 14)
def forced(rows, columns, p, total):
    """The closed cells that are the same in every such layout, on the frontier or off it: those that are free in all, and those that are mines in all."""
    somewhere, everywhere = 0, -1
    for layout in layouts(rows, columns, p, total):
        somewhere |= layout
        everywhere &= layout
    assert everywhere >= 0, 'oracle/total.py: no layout fits, not even the board'
    closed = [c for c, shown in enumerate(p) if shown == 10]
    return [c for c in closed if not somewhere >> c & 1], [c for c in closed if everywhere >> c & 1]


def beside_zeros(rows, columns, p):
    """The closed cells beside an open 0: no layout that fits has a mine there, whatever its total, so none need be made."""
    return [c for c, near in enumerate(positions.windows(rows, columns)) if p[c] == 10 and any(p[d] == 0 for d in near)]


def solved(head, cells):
    """The position of a solver that is done. Cells that are free now stay free when one of them is open, so it asks for all of them at once."""
    rows, columns, row, column = head
    p, asked = [10] * len(cells), [row * columns + column]
    while asked:
        for c in asked:
            p[c] = cells[c]
        asked = beside_zeros(rows, columns, p) or forced(rows, columns, tuple(p), cells.count(255))[0]
    return p


def fourth_rule(runs):
    """What the rule finds at the last position of each run, in the words of the other three; with too many layouts it does not come to an end."""
    found = []
    for run in runs:
        p, total = tuple(run.positions[-1]), run.cells.count(255)
        lists = forced(run.rows, run.columns, p, total) if few(p, total) else None
        found.append('safe %s mine %s' % tuple(','.join(map(str, cells)) or '-' for cells in lists) if lists else asking.SILENT)
    return found


def verdicts(boards, ask):
    """The verdict's line of each board with a safe start, as passes.verdicts has it. A board that is not small is judged by the passes alone."""
    lines = passes.verdicts(boards, ask, [(GRADE, fourth_rule)])
    for (head, cells), line in zip(boards, lines):
        if line.startswith(('yes ', 'no ')) and small(head, cells):
            picture = ' picture %s rounds ' % ' '.join(map(str, solved(head, cells)))
            assert picture in line, 'oracle/total.py: the solver ends with%s, the passes with %s' % (picture, line)
    return lines


def answers(lines, ask):
    """The answer to each line `R C r c v v v ..` of the call. Refusals are those of a verdict, and asked of the Rust. `ask` has its answers to lines of a call."""
    found = ask('verdict', lines)
    judged = [k for k, answer in enumerate(found) if answer.startswith(('yes ', 'no '))]
    boards = [(numbers[:4], numbers[4:]) for numbers in ([int(word) for word in lines[k].split()] for k in judged)]
    for k, line in zip(judged, verdicts(boards, ask)):
        found[k] = line
    return found


# ---- streams of records ----

def with_plain_marks(stream):
    """A stream in which each record that begins with 4D 43 begins with 4D 42, and the line of each whole one that did, by the record's number."""
    plain, lines, at = bytearray(stream), {}, 0
    for number in itertools.count(1):
        mark, size = stream[at:at + 2], stream[at + 2:at + 4]
        if mark not in (records.PLAIN, records.TOTAL):
            return bytes(plain), lines
        plain[at:at + 2] = records.PLAIN
        end = at + HEAD + math.prod(size)
        if len(size) < 2 or end > len(stream):
            return bytes(plain), lines
        if mark == records.TOTAL:
            lines[number] = ' '.join(map(str, stream[at + 2:end]))
        at = end


def judged(oracle, stream, seconds):
    """The lines to be printed to a stream of both marks, and how the Rust's program ended: they are its lines, to which every mark is 4D 42, but for the verdicts
    on boards that show their total."""
    plain, shown = with_plain_marks(stream)
    lines, end = asking.lines([oracle, 'judge'], plain, seconds)
    accepted = [number for number in shown if not end and ' refused ' not in lines[number]]
    found = answers([shown[number] for number in accepted], lambda call, asked: asking.line_answers([oracle, call], asked, seconds))
    for number, answer in zip(accepted, found):
        lines[number] = '%d %s' % (number, answer.partition(' picture ')[0])
    return lines, end
