/* Runs the function `run_row` of README.md on good and on refused sheets. c.sh compiles the README's lines with `watched_tick_row` for
   `homvaits_tick_row`, so that each of its rows is seen here. */
#include "homvaits.h"

#include <assert.h>
#include <stdio.h>
#include <string.h>

int run_row(const uint8_t *sheet, size_t length, int units);
homvaits_row_ticked watched_tick_row(homvaits_core *row, size_t count, uint8_t *answers, size_t answers_length);

/* Five tasks on two cores. By priority they are 3, 1, 4 and 2, 0; task 3 has 1 tick every 4, task 2 has 1 every 5. */
static const uint8_t two_cores[74] = {
    'T', 'S', 'H', 1, 0, 5, 2, 0,
    9, 0, 7, 0, 1, 0, 2, 0, 0, 0,
    8, 0, 2, 0, 0, 0, 2, 0, 0, 0,
    5, 0, 1, 0, 1, 0, 1, 0, 0, 0,
    4, 0, 1, 0, 0, 0, 1, 0, 0, 0,
    8, 0, 1, 0, 0, 0, 2, 0, 0, 0,
    4, 0, 0, 0, 1, 0, 0, 0,
    9, 0, 0, 0, 2, 0, 0, 0,
};
static const uint8_t no_cores[8] = {'T', 'S', 'H', 1, 0, 0, 0, 0};

/* The rows since the start of a run, and how many states each is to have. */
static int rows;
static size_t states;
/* Whether the next row is to find a damaged state. */
static int damaged;

homvaits_row_ticked watched_tick_row(homvaits_core *row, size_t count, uint8_t *answers, size_t answers_length) {
    assert(count == states && answers_length >= count);
    if (damaged) row[count - 1].count = 65;
    homvaits_row_ticked ticked = homvaits_tick_row(row, count, answers, answers_length);
    if (damaged) {
        assert(ticked.refusal == HOMVAITS_FOREIGN && ticked.place == count - 1);
    } else {
        assert(ticked.refusal == 0);
        if (count > 0) assert(answers[0] == (rows % 4 == 0 ? 3 : HOMVAITS_IDLE));
        if (count > 1) assert(answers[1] == (rows % 5 == 0 ? 2 : HOMVAITS_IDLE));
    }
    rows++;
    return ticked;
}

/* Run so many units, and ask for this answer and so many rows. */
static void runs(const uint8_t *sheet, size_t length, int units, int answer, int expected) {
    rows = 0;
    assert(run_row(sheet, length, units) == answer && rows == expected);
}

int main(void) {
    states = 2;
    runs(two_cores, sizeof two_cores, 0, 0, 0);
    runs(two_cores, sizeof two_cores, 50, 0, 50);
    damaged = 1;
    runs(two_cores, sizeof two_cores, 50, HOMVAITS_FOREIGN, 1);
    damaged = 0;
    /* version 3: strokes of 1 tick, and one that has none */
    uint8_t sheet[sizeof two_cores];
    memcpy(sheet, two_cores, sizeof sheet);
    sheet[3] = 3;
    for (int i = 0; i < 5; i++) sheet[8 + 10 * i + 5] = 1;
    runs(sheet, sizeof sheet, 50, 0, 50);
    sheet[8 + 10 * 3 + 5] = 0;
    runs(sheet, sizeof sheet, 3, HOMVAITS_STROKE, 0);
    states = 0;
    runs(no_cores, sizeof no_cores, 3, 0, 3);

    /* a refused sheet: no row at all */
    static const struct { size_t at; uint8_t byte; int refusal; } changes[] = {
        {0, 't', HOMVAITS_MARK}, {6, 9, HOMVAITS_COUNT}, {12, 2, HOMVAITS_CORE}, {10, 9, HOMVAITS_OVERLOAD},
    };
    for (size_t i = 0; i < sizeof changes / sizeof changes[0]; i++) {
        memcpy(sheet, two_cores, sizeof sheet);
        sheet[changes[i].at] = changes[i].byte;
        runs(sheet, sizeof sheet, 3, changes[i].refusal, 0);
    }
    runs(two_cores, 7, 3, HOMVAITS_STUB, 0);
    runs(two_cores, sizeof two_cores - 1, 3, HOMVAITS_LENGTH, 0);
    puts("README: run_row ran and refused");
    return 0;
}
