"""Random boards with a start for comparisons, from a seed, as records (SPECIFICATION 5.1) and as lines of numbers: sizes from 1 x 1 to 32 x 32, all densities,
starts on safe cells and zeros, and two kinds that are refused, on mines and the retired start 255,255; boards without a start; boards with faults, one or
several; every board of a size; records of both marks, the second of which shows the mine total; damaged streams of records; and streams of stored records."""
import itertools

import positions

OPEN = (255, 255)  # the retired start: it meant the first 0 in reading order, and is off every board
PLAIN, TOTAL = b'MB', b'MC'  # the marks that the judge knows
FEW_CELLS = 18


def size(r, least):
    """Small boards, thin ones, any, and the usual and largest ones."""
    k = r.random()
    if k < 0.60:
        return r.randint(least, 9), r.randint(least, 9)
    if k < 0.75:
        thin = [r.randint(least, 32), r.randint(least, least + 2)]
        r.shuffle(thin)
        return tuple(thin)
    if k < 0.90:
        return r.randint(least, 32), r.randint(least, 32)
    return r.choice([(8, 8), (9, 9), (16, 16), (16, 16), (16, 30), (16, 30), (32, 32), (least, 32), (32, least)])


def density(r):
    """Mostly those of boards in play; none, all mines, and all between."""
    k = r.random()
    return r.uniform(0.1, 0.22) if k < 0.4 else r.uniform(0.02, 0.35) if k < 0.75 else r.random() if k < 0.96 else r.choice([0, 1])


def board(r, least=1):
    rows, columns = size(r, least)
    return rows, columns, positions.board(r, rows, columns, density(r))


def started(r, rows, columns, cells):
    """A start on a board, and its kind."""
    places = {
        'start at a zero': [c for c, value in enumerate(cells) if value == 0],
        'start on a safe cell': [c for c, value in enumerate(cells) if value != 255],
        'start on a mine': [c for c, value in enumerate(cells) if value == 255],
        'retired start': [],
    }
    kind = r.choices(list(places), [5, 4, 1, 2])[0]
    if places[kind]:
        return kind, divmod(r.choice(places[kind]), columns)
    return 'retired start', OPEN


def judged(r, least=1):
    """A board with a start: its kind, the four numbers before the cells, and the cells."""
    rows, columns, cells = board(r, least)
    kind, start = started(r, rows, columns, cells)
    return kind, [rows, columns, *start], cells


def start_on_board(r, least):
    """A board with a start that is on it, now and then on a mine."""
    while True:
        kind, head, cells = judged(r, least)
        if kind != 'retired start':
            return kind, head, cells


def safe_start(r, least=1):
    """A board with a start on a safe cell, mostly a zero."""
    while True:
        kind, head, cells = start_on_board(r, least)
        if kind != 'start on a mine':
            return kind, head, cells


def few_cells(r, drawn=judged):
    """A board with a start, so small that all layouts of its total can be made (oracle/total.py)."""
    while True:
        kind, head, cells = drawn(r)
        if len(cells) <= FEW_CELLS:
            return kind, head, cells


def without_start(r):
    """A board alone: its kind, rows and columns, and the cells."""
    rows, columns, cells = board(r)
    mines = cells.count(255)
    kind = 'no mine' if not mines else 'only mines' if mines == len(cells) else positions.mined(mines / len(cells))
    return kind, [rows, columns], cells


# ---- faults, each for a board's four numbers, or two where it has no start, and its cells ----

def wrong_size(r, head, cells):
    rows, columns = r.choice([(0, head[1]), (head[0], 0), (0, 0), (33, head[1]), (head[0], 33), (33, 33), (255, 1), (64, 40)])
    return [rows, columns] + head[2:], [r.choice([0, 1, 9, 77, 66, 255]) for _ in range(rows * columns)]


def largest_size(r, head, cells):
    return [255, 255] + head[2:], r.choices([0, 1, 9, 77, 66, 255], k=255 * 255)


def wrong_cell(r, head, cells):
    cells = list(cells)
    cells[r.randrange(len(cells))] = r.choice([9, 10, 11, 12, 77, 254, r.randint(9, 254)])
    return head, cells


def wrong_start(r, head, cells):
    rows, columns = head[:2]
    start = r.choice([(rows, 0), (0, columns), (rows, columns), (255, 0), (0, 255), (254, 254), (255, 254), (r.randint(rows, 255), r.randrange(columns))])
    return head[:2] + list(start), cells


def wrong_number(r, head, cells):
    cells = list(cells)
    safe = [c for c, value in enumerate(cells) if value <= 8]
    if safe:
        c = r.choice(safe)
        cells[c] = r.choice([value for value in range(9) if value != cells[c]])
    return head, cells


def retired_start(r, head, cells):
    """The retired start, on a board without a 0: mines in every second row at every second cell leave none."""
    rows, columns = head[:2]
    mines = [value == 255 or c // columns % 2 == 0 and c % columns % 2 == 0 for c, value in enumerate(cells)]
    return head[:2] + list(OPEN), positions.numbered(rows, columns, mines)


def wrong_length(r, head, cells):
    return head, r.choice([cells[:-1], cells + [0], cells + [255], []])


def cell_past_a_byte(r, head, cells):
    cells = list(cells)
    cells[r.randrange(len(cells))] = r.choice([256, 257, 511, 1000, 65536])
    return head, cells


def start_past_a_byte(r, head, cells):
    return head[:2] + r.choice([[256, 0], [0, 256], [511, 511], [65535, 255]]), cells


IN_RECORDS = [retired_start, wrong_number, wrong_start, wrong_cell, wrong_size, largest_size]
IN_LINES = [retired_start, wrong_number, wrong_start, start_past_a_byte, wrong_cell, cell_past_a_byte, wrong_length, wrong_size]
IN_LINES_WITHOUT_START = [wrong_number, wrong_cell, cell_past_a_byte, wrong_length, wrong_size]


def faulty(r, faults, drawn=judged):
    """A board with one fault or several: its kind, the numbers before the cells, and the cells."""
    _, head, cells = drawn(r)
    chosen = r.sample(faults, r.choice([1, 1, 1, 2, 3]))
    for fault in sorted(chosen, key=faults.index):
        head, cells = fault(r, head, cells)
    return 'with a fault' if len(chosen) == 1 else 'with several faults', head, cells


# ---- as bytes and as text ----

def record(head, cells, mark=PLAIN):
    return mark + bytes(head) + bytes(cells)


def of_either_mark(r, with_faults):
    """A board for a record, with faults in such a part of them: its kind, four numbers, cells and mark. One in four shows its total, and has few cells."""
    mark, drawn = (TOTAL, few_cells) if r.random() < 0.25 else (PLAIN, judged)
    kind, head, cells = faulty(r, IN_RECORDS, drawn) if r.random() < with_faults else drawn(r)
    return kind + ', total shown' if mark == TOTAL else kind, head, cells, mark


def line(head, cells):
    return ' '.join(map(str, head + cells))


def every_layout(rows, columns):
    """Every board of a size, without a start."""
    for mines in itertools.product([False, True], repeat=rows * columns):
        yield 'mines %2d' % sum(mines), [rows, columns], positions.numbered(rows, columns, mines)


def every(rows, columns):
    """Every board of a size with every safe start."""
    for kind, head, cells in every_layout(rows, columns):
        for c, value in enumerate(cells):
            if value != 255:
                yield kind, [*head, *divmod(c, columns)], cells


# ---- damaged streams ----

def cuts(start=(0, 0), mark=PLAIN):
    """A record cut at each of its bytes, alone and behind a whole one; the empty input and one lone byte are among them."""
    whole = record([3, 4, *start], [0, 1, 2, 2, 1, 2, 255, 255, 1, 255, 4, 255], mark)
    for end in range(len(whole) + 1):
        yield 'cut alone', whole[:end]
        yield 'cut behind another', whole + whole[:end]


def damaged_end(r, last):
    """What is left of a last record where the stream is cut, or stands an unknown mark, a lone byte, or a large record without its cells; and its kind."""
    kind = r.choice(['cut in the head', 'cut in the cells', 'unknown mark', 'lone byte', 'large size without its cells'])
    if kind == 'cut in the head':
        end = last[:r.randint(2, 5)]
    elif kind == 'cut in the cells':
        end = last[:r.randint(6, len(last) - 1)]
    elif kind == 'unknown mark':
        end = r.choice([b'MD', b'NB', b'BM', b'mb', b'\0\0', bytes([r.randrange(77), r.randrange(256)])]) + r.choice([b'', last[2:], last[2:] + last])
    elif kind == 'lone byte':
        end = bytes([r.choice([77, 66, 0, 255, r.randrange(256)])])
    else:
        end = last[:2] + bytes(r.choice([[33, 33], [255, 255], [1, 33], [200, 32]])) + last[4:10]
    return kind, end


def damaged(r):
    """Some records of both marks with a damaged end, and its kind."""
    whole = [record(*of_either_mark(r, 0.2)[1:]) for _ in range(r.randint(0, 3))]
    kind, end = damaged_end(r, record(*of_either_mark(r, 0)[1:]))
    return kind, b''.join(whole) + end


# ---- streams of stored records ----

def filled(r, rows, columns):
    """Cells without a 0 but for a few, so that the first may stand anywhere, or nowhere."""
    cells = r.choices([1, 8, 9, 66, 77, 254, 255], k=rows * columns)
    for _ in range(r.choice([0, 1, 1, 1, 2, 5]) if cells else 0):
        cells[r.randrange(len(cells))] = 0
    return cells


def any_size(r):
    """A record of any size, mostly a small one, with any cells and a start that is on the board or off it."""
    most = r.choices([(9, 9), (3, 255), (255, 3), (60, 60)], [6, 1, 1, 1])[0]
    rows, columns = r.randint(0, most[0]), r.randint(0, most[1])
    start = r.choice([(255, 0), (0, 255), (255, 254), (254, 255), (0, 0), (r.randrange(256), r.randrange(256))])
    return [rows, columns, *start], filled(r, rows, columns)


def stored_record(r):
    """A whole record as it may be stored, mostly with the retired start: a board, one with faults, or any size and cells."""
    k = r.random()
    head, cells = judged(r)[1:] if k < 0.3 else faulty(r, IN_RECORDS[:-1])[1:] if k < 0.4 else any_size(r)
    return record(head[:2] + list(OPEN) if r.random() < 0.6 else head, cells)


def stored_records(r, most):
    return b''.join(stored_record(r) for _ in range(r.randint(0, most)))


def unknown_between(r):
    """Records, then one with a mark that migrate does not know, then records again; a mark that the judge knows and one that it is to learn are among them."""
    mark = r.choice([TOTAL, b'MT', b'NB', b'BM', b'mb', b'\0\0', b'M\0', bytes([77, r.choice([65, 68, 255])]), bytes([r.randrange(77), 66])])
    return stored_records(r, 3) + mark + stored_record(r)[2:] + stored_record(r) + stored_records(r, 2)


def long_record(r):
    rows, columns = r.randint(240, 255), r.randint(240, 255)
    return record([rows, columns, *r.choice([OPEN, (255, 0)])], filled(r, rows, columns))


def past_one_read(r):
    """Small records around one or two long ones, past the 65,536 bytes that one read gives at most, or past twice as many."""
    reads = r.choice([1, 1, 1, 2])
    stream = stored_records(r, 2) + b''.join(long_record(r) for _ in range(reads))
    while len(stream) <= 65536 * reads:
        stream += stored_record(r)
    return stream + stored_records(r, 3)


def stored(r):
    """A stream of stored records, and its kind."""
    k = r.random()
    if k < 0.30:
        return 'whole', stored_records(r, 4)
    if k < 0.55:
        return 'unknown mark between', unknown_between(r)
    if k < 0.56:
        return 'past one read', past_one_read(r)
    if k < 0.57:
        return 'unknown mark past one read', past_one_read(r) + unknown_between(r)
    _, head, cells = judged(r)
    kind, end = damaged_end(r, record(head[:2] + list(OPEN), cells))
    return kind, stored_records(r, 3) + end
