/* Lihvompa: can a Minesweeper board be solved from its first cell without a guess? And the deductions by which it is decided.
 *
 * Every call answers 0, or the number of a refusal. Its counts go to the front of the lent slice `counts`, as many as that has room for; entries past
 * them keep their values. A refusal writes nothing anywhere.
 *
 * A slice is a pointer and a length in entries. Pointers are never null, not even of a slice of length 0, and slices that a call writes overlap no other
 * slice. That is all that is asked: whatever the numbers and bytes are, a call ends and stays within what it is lent. The calls keep no state.
 *
 * Cells stand row by row: the cell in row r and column c is r * columns + c. */
#ifndef LIHVOMPA_H
#define LIHVOMPA_H

#include <stddef.h>
#include <stdint.h>

#ifdef __cplusplus
extern "C" {
#endif

/* What a call answers. Where several refusals apply, the lowest is given. No call answers 7, which belonged to a start that is retired, nor 10 and
 * 11, which are of records. */
enum lihvompa_refusal {
    LIHVOMPA_ACCEPTED = 0,
    LIHVOMPA_SIZE = 1,          /* rows or columns are 0 or above 32; of lihvompa_pattern also below 3 */
    LIHVOMPA_LENGTH = 2,        /* a slice of cells, the picture or opened_in isn't rows * columns long, or a deduction's list is shorter than that */
    LIHVOMPA_CELL = 3,          /* a cell value isn't one named below */
    LIHVOMPA_START = 4,         /* the start is off the board */
    LIHVOMPA_NUMBER = 5,        /* a safe cell's number isn't its count of neighbouring mines */
    LIHVOMPA_CONTRADICTION = 6, /* a deduction meets a contradiction */
    LIHVOMPA_BLOCK = 8,         /* the block asked for isn't below the block count */
    LIHVOMPA_TABLE = 9,         /* solutions * groups exceeds the lent table's length */
    LIHVOMPA_START_MINE = 13    /* the start is a mine */
};

/* Cells. On a board: 0 to 8, the count of neighbouring mines, or a mine. In a position: 0 to 8 where the cell is open, or one of the other three. */
enum lihvompa_cell {
    LIHVOMPA_CLOSED = 10,
    LIHVOMPA_KNOWN_MINE = 11,
    LIHVOMPA_KNOWN_SAFE = 12,
    LIHVOMPA_MINE = 255
};

/* Stands in a verdict's rounds for a cell that is closed. */
enum lihvompa_round {
    LIHVOMPA_NO_ROUND = 65535
};

/* The verdict on a board from a start. `picture`, rows * columns long, becomes what is open in the end: an open cell's number, else 10. `opened_in`, as long,
 * receives the round in which each cell was opened: 0 for the start and what its zeros open, else the number of the pass, counted from 1, and 65535 for a cell
 * that is closed in the end, as mines are. A pass that finds mines alone counts too, so there may be a number that no cell has. Counts: 1 for yes or 0
 * for no; opened cells; grade, of a yes the strongest rule that found a cell (1 direct, 2 subtraction, 3 enumeration, 0 none), of a no 4; rounds, the passes
 * that found a cell. Refusals 1 to 5 and 13. A start of 255, 255, which once meant the first 0 in reading order, is off every board. */
uint8_t lihvompa_verdict(size_t rows, size_t columns, size_t start_row, size_t start_column, const uint8_t *cells, size_t cells_length,
                         uint8_t *picture, size_t picture_length, uint16_t *opened_in, size_t opened_in_length, uint64_t *counts, size_t counts_length);

/* The verdict on a board that shows its mine total, which is that of its own mines and is not lent. A layout must then hold exactly that total, cells that touch no
 * open one included. Where enumeration finds nothing, a fourth rule finds each closed cell, on the frontier or off it, that is the same in every layout of that
 * total that fits, mines included; a pass that it fills is a round. Grade: of a yes in which this rule found a cell 5. All else is as in lihvompa_verdict. */
uint8_t lihvompa_verdict_total(size_t rows, size_t columns, size_t start_row, size_t start_column, const uint8_t *cells, size_t cells_length,
                               uint8_t *picture, size_t picture_length, uint16_t *opened_in, size_t opened_in_length, uint64_t *counts,
                               size_t counts_length);

/* Whether a board has a pattern of mines that leaves a guess. Counts: 1 where one is found, else 0. Only mines are looked at. Refusals 1 to 3. */
uint8_t lihvompa_pattern(size_t rows, size_t columns, const uint8_t *cells, size_t cells_length, uint64_t *counts, size_t counts_length);

/* The 3BV of a board, by which players compare boards: its openings, each a group of 0s that touch at sides or corners, and its safe cells above 0 that touch no
 * 0. Counts: the 3BV; that of a board of mines alone is 0. Refusals 1 to 3 and 5. */
uint8_t lihvompa_bbbv(size_t rows, size_t columns, const uint8_t *cells, size_t cells_length, uint64_t *counts, size_t counts_length);

/* The frontier of a position: its blocks of equations that share closed cells. Counts: blocks; inside cells, the closed ones that touch no open one; known
 * mines. Refusals 1 to 3. */
uint8_t lihvompa_frontier(size_t rows, size_t columns, const uint8_t *position, size_t position_length, uint64_t *counts, size_t counts_length);

/* The three rules on a position. The cells that are found go to the front of `safe` and `mines`, lists of rows * columns entries or more, in the rule's order;
 * in the position a safe cell becomes 12 and a mine 11 (11 where a cell is in both lists). Counts: safe cells, mines. Refusals 1 to 3 and 6.
 *
 * Direct: an equation whose remainder is 0, or the number of its cells. Subtraction: two equations that share a cell. Enumeration: a cell that is safe, or a
 * mine, in all solutions of its block. */
uint8_t lihvompa_direct(size_t rows, size_t columns, uint8_t *position, size_t position_length, uint16_t *safe, size_t safe_length,
                        uint16_t *mines, size_t mines_length, uint64_t *counts, size_t counts_length);
uint8_t lihvompa_minus(size_t rows, size_t columns, uint8_t *position, size_t position_length, uint16_t *safe, size_t safe_length,
                       uint16_t *mines, size_t mines_length, uint64_t *counts, size_t counts_length);
uint8_t lihvompa_enumerate(size_t rows, size_t columns, uint8_t *position, size_t position_length, uint16_t *safe, size_t safe_length,
                           uint16_t *mines, size_t mines_length, uint64_t *counts, size_t counts_length);

/* The solution table of one block of a position's frontier. Cells that stand in the same equations form a group; a solution says how many mines each group
 * has. The table has a row for each solution and in it a byte for each group; the rows go to the front of `table`, one after another, and bytes past the
 * last row keep their values. Counts: solutions, groups. Refusals 1 to 3, 8 and 9. */
uint8_t lihvompa_table(size_t rows, size_t columns, const uint8_t *position, size_t position_length, size_t block, uint8_t *table, size_t table_length,
                       uint64_t *counts, size_t counts_length);

#ifdef __cplusplus
}
#endif

#endif
