#!/usr/bin/env python3
"""Stored records carried over, as a second program beside the program migrate, written from the words and not from our code: a start of 255,255 meant the first 0
in reading order, and becomes it; no other byte changes. The mark 4D 42 is the only one, for ever: from an unknown mark or a short record on the rest of the
input is copied. Run as a program it reads standard input and writes standard output."""
import sys

MARK = b'MB'
RETIRED = b'\xff\xff'
HEAD = 6


def whole(stream, at):
    """How many bytes the whole record has that begins at a byte of the stream; 0 where none begins there."""
    if stream[at:at + 2] != MARK or len(stream) < at + HEAD:
        return 0
    size = HEAD + stream[at + 2] * stream[at + 3]
    return size if at + size <= len(stream) else 0


def started(record):
    """A whole record with the start that was meant; as it stands where its start is another, or no cell is 0."""
    columns, start, cells = record[3], record[4:HEAD], record[HEAD:]
    if start != RETIRED or 0 not in cells:
        return record
    return record[:4] + bytes(divmod(cells.index(0), columns)) + cells


def migrated(stream):
    """The whole input carried over."""
    done, at = [], 0
    while whole(stream, at):
        size = whole(stream, at)
        done.append(started(stream[at:at + size]))
        at += size
    return b''.join(done) + stream[at:]


if __name__ == '__main__':
    sys.stdout.buffer.write(migrated(sys.stdin.buffer.read()))
