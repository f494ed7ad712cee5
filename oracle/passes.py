"""The verdict as the words of SPECIFICATION 9 have it, as a second program beside ours: it keeps every position that the passes come to, and reads the round of a
cell off them, the first that has it open (9.6). The three rules are asked of the Rust, a position at a time; the loop around them is neither the Rust's nor ours."""
import functools

import asking
import positions

RULES = ['direct', 'minus', 'enumerate']
GUESS = 4
NO_ROUND = 65535


def listed(text):
    return [] if text == '-' else [int(c) for c in text.split(',')]


class Run:
    """A board judged from its start, with the positions so far; `failed` says how the Rust ended at one of them, where it gave no answer."""

    def __init__(self, head, cells):
        self.rows, self.columns, row, column = head
        self.cells, self.strongest, self.failed = cells, 0, ''
        first = [10] * len(cells)
        positions.flooded(self.rows, self.columns, cells, first, row * self.columns + column)
        self.positions = [first]

    def solved(self):
        return all(cell == 255 or shown <= 8 for cell, shown in zip(self.cells, self.positions[-1]))

    def make_pass(self, grade, answer):
        """A pass with what a rule answered, `safe 0,2 mine 1 ..`. Did the rule find a cell?"""
        if answer in ('panic', asking.SILENT, asking.FAILED):
            self.failed = answer
            return False
        words = answer.split(' ')
        safe, mines = listed(words[1]), listed(words[3])
        if not safe and not mines:
            return False
        after = list(self.positions[-1])
        for c in mines:
            after[c] = 11
        for c in safe:
            positions.flooded(self.rows, self.columns, self.cells, after, c)
        self.positions.append(after)
        self.strongest = max(self.strongest, grade)
        return True

    def line(self):
        """The verdict's line."""
        if self.failed:
            return self.failed
        yes = self.solved()
        picture = [shown if shown <= 8 else 10 for shown in self.positions[-1]]
        rounds = [next((k for k, p in enumerate(self.positions) if p[c] <= 8), NO_ROUND) for c in range(len(self.cells))]
        counts = [sum(shown <= 8 for shown in picture), self.strongest if yes else GUESS, len(self.positions) - 1]
        return ' '.join(['yes' if yes else 'no', *map(str, counts), 'picture', *map(str, picture), 'rounds', *map(str, rounds)])


def by_rust(ask, rule, runs):
    """What a rule of the Rust answers at the last position of each run."""
    return ask(rule, [positions.line(run.rows, run.columns, run.positions[-1]) for run in runs])


def verdicts(boards, ask, more_rules=()):
    """The verdict's line of each board with a safe start, as its four numbers and its cells. `ask` has the Rust's answers to lines of a call; `more_rules` are tried behind
    the three, each a grade and what has its answers for runs."""
    rules = [(grade, functools.partial(by_rust, ask, rule)) for grade, rule in enumerate(RULES, 1)] + list(more_rules)
    runs = [Run(head, cells) for head, cells in boards]
    going = runs
    while going:
        passed, asked = [], [run for run in going if not run.solved()]
        for grade, answers in rules:
            found = {run for run, answer in zip(asked, answers(asked)) if run.make_pass(grade, answer)}
            passed += found
            asked = [run for run in asked if run not in found and not run.failed]
        going = passed
    return [run.line() for run in runs]
