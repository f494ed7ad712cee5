/* Judges boards, deduces, lists a table, counts the 3BV and is refused, and prints what it is answered. Each answer is checked, most of them by the small boards
 * of SPECIFICATION 12: the exit status is 1 where one is wrong. */
#include "lihvompa.h"
#include <stdio.h>
#include <string.h>

static int wrong = 0;

static void expect(int right, const char *what)
{
    if (!right) {
        printf("wrong: %s\n", what);
        wrong = 1;
    }
}

static void print_cells(const uint8_t *cells, size_t rows, size_t columns)
{
    for (size_t r = 0; r < rows; r++) {
        for (size_t c = 0; c < columns; c++)
            printf(" %3d", cells[r * columns + c]);
        printf("\n");
    }
}

static void print_rounds(const uint16_t *opened_in, size_t rows, size_t columns)
{
    for (size_t r = 0; r < rows; r++) {
        for (size_t c = 0; c < columns; c++) {
            uint16_t round = opened_in[r * columns + c];
            if (round == LIHVOMPA_NO_ROUND)
                printf("   -");
            else
                printf(" %3d", round);
        }
        printf("\n");
    }
}

/* The call of a verdict, without the mine total or with it. */
typedef uint8_t verdict_call(size_t, size_t, size_t, size_t, const uint8_t *, size_t, uint8_t *, size_t, uint16_t *, size_t, uint64_t *, size_t);

static void judge(verdict_call *verdict, size_t rows, size_t columns, size_t row, size_t column, const uint8_t *cells, const uint64_t *right,
                  const uint8_t *right_picture, const uint16_t *right_rounds)
{
    uint8_t picture[1024];
    uint16_t opened_in[1024];
    uint64_t counts[4];
    size_t n = rows * columns;
    memset(opened_in, 7, sizeof opened_in); /* so that an entry that is not written would show */
    uint8_t refusal = verdict(rows, columns, row, column, cells, n, picture, n, opened_in, n, counts, 4);
    expect(refusal == LIHVOMPA_ACCEPTED, "the board is accepted");
    if (refusal != LIHVOMPA_ACCEPTED)
        return;
    printf("verdict %s, opened %d, grade %d, rounds %d\n", counts[0] ? "yes" : "no", (int)counts[1], (int)counts[2], (int)counts[3]);
    print_cells(picture, rows, columns);
    printf("opened in round\n");
    print_rounds(opened_in, rows, columns);
    expect(memcmp(counts, right, sizeof counts) == 0, "the verdict's counts");
    expect(memcmp(picture, right_picture, n) == 0, "the picture");
    expect(memcmp(opened_in, right_rounds, n * sizeof opened_in[0]) == 0, "the rounds of the cells");
}

static void subtract(void)
{
    uint8_t position[6] = {10, 10, 10, 1, 1, 1};
    const uint8_t right[6] = {12, 11, 12, 1, 1, 1};
    uint16_t safe[6], mines[6];
    uint64_t counts[2];
    uint8_t refusal = lihvompa_minus(2, 3, position, 6, safe, 6, mines, 6, counts, 2);
    expect(refusal == LIHVOMPA_ACCEPTED && counts[0] == 2 && counts[1] == 1, "subtraction's counts");
    expect(safe[0] == 0 && safe[1] == 2 && mines[0] == 1, "subtraction's cells");
    expect(memcmp(position, right, 6) == 0, "the marked position");
    printf("subtraction: %d safe, %d mines\n", (int)counts[0], (int)counts[1]);
    print_cells(position, 2, 3);
}

static void list_table(void)
{
    const uint8_t position[5] = {10, 1, 10, 1, 10};
    const uint8_t right[6] = {0, 1, 0, 1, 0, 1};
    uint8_t table[6];
    uint64_t counts[2];
    expect(lihvompa_table(1, 5, position, 5, 0, table, 6, counts, 2) == LIHVOMPA_ACCEPTED, "the table is accepted");
    expect(counts[0] == 2 && counts[1] == 3 && memcmp(table, right, 6) == 0, "the table");
    printf("table: %d solutions, %d groups\n", (int)counts[0], (int)counts[1]);
    print_cells(table, 2, 3);
    expect(lihvompa_table(1, 5, position, 5, 1, table, 6, counts, 2) == LIHVOMPA_BLOCK, "there is no second block");
}

static void count_bbbv(void)
{
    /* two openings that share the number between them; and the same with a wrong number at the end */
    const uint8_t board[9] = {0, 1, 255, 1, 2, 1, 255, 1, 0}, wrong_number[9] = {0, 1, 255, 1, 2, 1, 255, 1, 1};
    uint64_t bbbv = 0;
    expect(lihvompa_bbbv(3, 3, board, 9, &bbbv, 1) == LIHVOMPA_ACCEPTED && bbbv == 2, "the 3BV");
    printf("3BV: %d\n", (int)bbbv);
    expect(lihvompa_bbbv(3, 3, wrong_number, 9, &bbbv, 1) == LIHVOMPA_NUMBER && bbbv == 2, "a wrong number has no 3BV");
}

/* All that a verdict may write on a board of up to 33 cells. */
struct lent {
    uint8_t picture[33];
    uint16_t opened_in[33];
    uint64_t counts[4];
};

/* Lends slices filled with 7, that for the rounds of the length told, and sees that both verdicts are refused with this number and write nothing. */
static void be_refused_with(uint8_t number, size_t rows, size_t columns, size_t row, size_t column, const uint8_t *cells, size_t opened_in_length,
                            const char *what)
{
    verdict_call *const verdicts[2] = {lihvompa_verdict, lihvompa_verdict_total};
    struct lent lent, before;
    size_t n = rows * columns;
    memset(&lent, 7, sizeof lent);
    memcpy(&before, &lent, sizeof lent);
    for (int with_total = 0; with_total < 2; with_total++) {
        uint8_t refusal = verdicts[with_total](rows, columns, row, column, cells, n, lent.picture, n, lent.opened_in, opened_in_length, lent.counts, 4);
        printf("%s%s: refusal %d\n", what, with_total ? ", with the total" : "", refusal);
        expect(refusal == number, what);
        expect(memcmp(&lent, &before, sizeof lent) == 0, "a refusal writes nothing");
    }
}

static void be_refused(void)
{
    const uint8_t zeros[33] = {0}, board[3] = {1, 255, 1}, wrong_cell[3] = {1, 9, 1}, wrong_number[3] = {2, 255, 1};
    be_refused_with(LIHVOMPA_SIZE, 33, 1, 0, 0, zeros, 33, "33 rows");
    be_refused_with(LIHVOMPA_LENGTH, 1, 3, 0, 0, board, 2, "too short a slice for the rounds");
    be_refused_with(LIHVOMPA_LENGTH, 1, 3, 0, 0, board, 4, "too long a slice for the rounds");
    be_refused_with(LIHVOMPA_LENGTH, 1, 3, 0, 0, board, 0, "an empty slice for the rounds");
    be_refused_with(LIHVOMPA_SIZE, 33, 1, 0, 0, zeros, 2, "33 rows and a short slice");
    be_refused_with(LIHVOMPA_LENGTH, 1, 3, 0, 0, wrong_cell, 2, "a wrong cell and a short slice");
    be_refused_with(LIHVOMPA_CELL, 1, 3, 0, 0, wrong_cell, 3, "a wrong cell");
    be_refused_with(LIHVOMPA_START, 1, 3, 255, 255, board, 3, "a start of 255, 255");
    be_refused_with(LIHVOMPA_NUMBER, 1, 3, 0, 0, wrong_number, 3, "a wrong number");
    be_refused_with(LIHVOMPA_START_MINE, 1, 3, 0, 1, board, 3, "a start on a mine");
}

int main(void)
{
    const uint16_t no = LIHVOMPA_NO_ROUND;
    const uint8_t first[3] = {255, 1, 0}, first_picture[3] = {10, 1, 0};
    const uint8_t second[6] = {1, 255, 1, 1, 1, 1}, second_picture[6] = {10, 10, 10, 1, 10, 10};
    const uint8_t third[3] = {1, 255, 1}, third_picture[3] = {1, 10, 10}, third_picture_with_total[3] = {1, 10, 1};
    const uint8_t fourth[9] = {0, 1, 1, 2, 3, 255, 255, 255, 2}, fourth_picture[9] = {0, 1, 1, 2, 3, 10, 10, 10, 2};
    const uint64_t first_counts[4] = {1, 2, 0, 0}, second_counts[4] = {0, 1, 4, 0}, third_counts[4] = {0, 1, 4, 1}, fourth_counts[4] = {1, 6, 2, 3};
    const uint64_t third_counts_with_total[4] = {1, 2, 5, 2};
    const uint16_t first_rounds[3] = {no, 0, 0}, second_rounds[6] = {no, no, no, 0, no, no}, third_rounds[3] = {0, no, no};
    const uint16_t third_rounds_with_total[3] = {0, no, 2}, fourth_rounds[9] = {0, 0, 3, 0, 0, no, no, no, 2};
    judge(lihvompa_verdict, 1, 3, 0, 2, first, first_counts, first_picture, first_rounds);
    judge(lihvompa_verdict, 2, 3, 1, 0, second, second_counts, second_picture, second_rounds);
    /* the pass finds a mine alone, and nothing is opened behind it */
    judge(lihvompa_verdict, 1, 3, 0, 0, third, third_counts, third_picture, third_rounds);
    /* with the mine total shown that was the only mine, and the second pass opens the last cell */
    judge(lihvompa_verdict_total, 1, 3, 0, 0, third, third_counts_with_total, third_picture_with_total, third_rounds_with_total);
    /* the first pass finds mines alone and counts: no cell has round 1 */
    judge(lihvompa_verdict, 3, 3, 0, 0, fourth, fourth_counts, fourth_picture, fourth_rounds);
    subtract();
    list_table();
    count_bbbv();
    be_refused();
    return wrong;
}
