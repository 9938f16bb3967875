/* Uses every call of include/homvaits.h as a set would, and gets every kind of refusal once. C11, and C++ too. */
#include "homvaits.h"

#include <assert.h>
#include <stddef.h>
#include <stdio.h>
#include <string.h>

/* The layout, as in rust/homvaits/src/layout.rs: sizes, and of each field its offset and width. HOMVAITS_LAYOUT is its number. */
static_assert(HOMVAITS_LAYOUT == 1, "the number of the layout");
#define SIZE(type, size) static_assert(sizeof(homvaits_##type) == (size), #type)
#define FIELD(type, field, at, width) \
    static_assert(offsetof(homvaits_##type, field) == (at) && sizeof(((homvaits_##type *)0)->field) == (width), #type "." #field)

SIZE(task, 10);
FIELD(task, period, 0, 2);
FIELD(task, budget, 2, 2);
FIELD(task, age, 4, 2);
FIELD(task, left, 6, 2);
FIELD(task, number, 8, 1);
FIELD(task, stroke, 9, 1);

SIZE(core, 656);
FIELD(core, count, 0, 8);
FIELD(core, tasks, 8, 640);
FIELD(core, stroke_task, 648, 1);
FIELD(core, stroke_left, 649, 1);

SIZE(checked, 6);
FIELD(checked, refusal, 0, 1);
FIELD(checked, place, 2, 2);
FIELD(checked, tasks, 4, 1);
FIELD(checked, cores, 5, 1);

SIZE(planned, 8);
FIELD(planned, refusal, 0, 1);
FIELD(planned, place, 2, 2);
FIELD(planned, tasks, 4, 1);
FIELD(planned, cores, 5, 1);
FIELD(planned, length, 6, 2);

SIZE(step, 664);
FIELD(step, refusal, 0, 1);
FIELD(step, place, 2, 2);
FIELD(step, core, 8, 656);

SIZE(ticked, 664);
FIELD(ticked, refusal, 0, 1);
FIELD(ticked, place, 2, 2);
FIELD(ticked, task, 4, 1);
FIELD(ticked, core, 8, 656);

SIZE(row_ticked, 16);
FIELD(row_ticked, refusal, 0, 1);
FIELD(row_ticked, place, 8, 8);

SIZE(listed, 6);
FIELD(listed, refusal, 0, 1);
FIELD(listed, place, 2, 2);
FIELD(listed, length, 4, 2);

SIZE(margined, 8);
FIELD(margined, refusal, 0, 1);
FIELD(margined, place, 2, 2);
FIELD(margined, margin, 4, 4);

SIZE(moved, 6);
FIELD(moved, refusal, 0, 1);
FIELD(moved, place, 2, 2);
FIELD(moved, length, 4, 2);

#ifdef __cplusplus
#define LANGUAGE "C++"
#else
#define LANGUAGE "C"
#endif

static void put(uint8_t *at, unsigned x) { at[0] = (uint8_t)(x % 256); at[1] = (uint8_t)(x / 256); }

static size_t jobs_of(uint8_t *list, const unsigned (*jobs)[2], size_t n) {
    for (size_t i = 0; i < n; i++) {
        put(list + 4 * i, jobs[i][0]);
        put(list + 4 * i + 2, jobs[i][1]);
    }
    return 4 * n;
}

static int same_task(const homvaits_task *a, const homvaits_task *b) {
    return a->period == b->period && a->budget == b->budget && a->age == b->age && a->left == b->left && a->number == b->number &&
           a->stroke == b->stroke;
}

static int same_core(const homvaits_core *a, const homvaits_core *b) {
    for (int i = 0; i < 64; i++)
        if (!same_task(&a->tasks[i], &b->tasks[i])) return 0;
    return a->count == b->count && a->stroke_task == b->stroke_task && a->stroke_left == b->stroke_left;
}

/* Three tasks that fill one core: 3 1, 7 1 and 13 6, with factors 1, 2 and 4. */
static const uint8_t full[46] = {
    'T', 'S', 'H', 1, 0, 3, 1, 0,
    3, 0, 1, 0, 0, 0, 1, 0, 0, 0,
    7, 0, 1, 0, 0, 0, 2, 0, 0, 0,
    13, 0, 6, 0, 0, 0, 4, 0, 0, 0,
    3, 0, 0, 0, 1, 0, 0, 0,
};

/* That sheet with one byte changed, and what the checker says of it. */
static const struct { size_t at; uint8_t byte; uint8_t refusal; uint16_t place; } changes[] = {
    {0, 't', HOMVAITS_MARK, 0},
    {3, 4, HOMVAITS_VERSION, 0},
    {4, 1, HOMVAITS_VERSION, 0},
    {3, 2, HOMVAITS_ORDER, 0},
    {3, 3, HOMVAITS_STROKE, 0},
    {5, 65, HOMVAITS_COUNT, 0},
    {6, 9, HOMVAITS_COUNT, 0},
    {5, 4, HOMVAITS_LENGTH, 0},
    {7, 1, HOMVAITS_SPARE, 7},
    {41, 1, HOMVAITS_SPARE, 41},
    {18, 0, HOMVAITS_PERIOD, 1},
    {20, 8, HOMVAITS_BUDGET, 1},
    {22, 1, HOMVAITS_CORE, 1},
    {24, 0, HOMVAITS_FACTOR, 1},
    {42, 0, HOMVAITS_FACTOR, 64},
    {34, 5, HOMVAITS_STRETCH, 2},
    {34, 3, HOMVAITS_CHAIN, 2},
    {30, 7, HOMVAITS_OVERLOAD, 64},
};

static void check_refusals(void) {
    uint8_t sheet[54];
    homvaits_checked checked = homvaits_check(full, sizeof full);
    assert(checked.refusal == 0 && checked.place == 0 && checked.tasks == 3 && checked.cores == 1);
    for (size_t i = 0; i < sizeof changes / sizeof changes[0]; i++) {
        memcpy(sheet, full, sizeof full);
        sheet[changes[i].at] = changes[i].byte;
        checked = homvaits_check(sheet, sizeof full);
        assert(checked.refusal == changes[i].refusal && checked.place == changes[i].place);
        /* a start has the same refusal, and a core without tasks */
        homvaits_step step = homvaits_start(sheet, sizeof full, 0);
        assert(step.refusal == checked.refusal && step.place == checked.place && step.core.count == 0);
        homvaits_ticked ticked = homvaits_tick(step.core);
        assert(ticked.refusal == 0 && ticked.task == HOMVAITS_IDLE);
    }
    checked = homvaits_check(full, 7);
    assert(checked.refusal == HOMVAITS_STUB && checked.place == 0);

    /* a second core, without tasks */
    memcpy(sheet, full, sizeof full);
    memcpy(sheet + 46, full + 38, 8);
    sheet[6] = 2;
    checked = homvaits_check(sheet, sizeof sheet);
    assert(checked.refusal == HOMVAITS_BARE && checked.place == 65);

    homvaits_step step = homvaits_start(full, sizeof full, 1);
    assert(step.refusal == HOMVAITS_CORE && step.place == 0 && step.core.count == 0);
}

static int planned_as(homvaits_planned planned, unsigned refusal, unsigned place) {
    return planned.refusal == refusal && planned.place == place && planned.length == 0;
}

static void plan_refusals(void) {
    uint8_t list[260] = {0}, out[HOMVAITS_SHEET_MAX];
    const unsigned jobs[3][2] = {{10, 4}, {15, 9}, {60001, 1}};
    size_t len = jobs_of(list, jobs, 2);
    memset(out, 170, sizeof out);
    assert(planned_as(homvaits_plan(list, 7, 1, 0, out, sizeof out), HOMVAITS_LENGTH, 0));
    assert(planned_as(homvaits_plan(list, len, 9, 0, out, sizeof out), HOMVAITS_COUNT, 0));
    assert(planned_as(homvaits_plan(list, sizeof list, 1, 0, out, sizeof out), HOMVAITS_COUNT, 0));
    assert(planned_as(homvaits_plan(list, len, 1, 2, out, sizeof out), HOMVAITS_START, 0));
    assert(planned_as(homvaits_plan(list, len, 1, 0, out, sizeof out - 1), HOMVAITS_TIGHT, 0));
    assert(planned_as(homvaits_plan(list, len, 1, 0, out, sizeof out), HOMVAITS_NO_FIT, 1));
    len = jobs_of(list, jobs, 3);
    assert(planned_as(homvaits_plan(list, len, 1, 0, out, sizeof out), HOMVAITS_PERIOD, 2));
    assert(homvaits_start_list(list, len).refusal == HOMVAITS_PERIOD);
    put(list + 6, 16);
    put(list + 8, 60000);
    assert(planned_as(homvaits_plan(list, len, 1, 0, out, sizeof out), HOMVAITS_BUDGET, 1));
    homvaits_step step = homvaits_start_list(list, len);
    assert(step.refusal == HOMVAITS_BUDGET && step.place == 1 && step.core.count == 0);
    assert(homvaits_start_list(list, 7).refusal == HOMVAITS_LENGTH);
    assert(homvaits_start_list(list, sizeof list).refusal == HOMVAITS_COUNT);
    for (size_t i = 0; i < sizeof out; i++) assert(out[i] == 170);
}

static void list_refusals(void) {
    uint8_t text[HOMVAITS_TEXT_MAX];
    const char line[] = "refused 1 place 0\n";
    text[0] = 170;
    homvaits_listed listed = homvaits_list(full, sizeof full, text, sizeof text - 1);
    assert(listed.refusal == HOMVAITS_TIGHT && listed.place == 0 && text[0] == 170);
    listed = homvaits_list(full, 7, text, sizeof text);
    assert(listed.refusal == 0 && listed.length == sizeof line - 1 && memcmp(text, line, listed.length) == 0);
}

static int margined_as(homvaits_margined margined, unsigned refusal, unsigned place, int margin) {
    return margined.refusal == refusal && margined.place == place && margined.margin == margin;
}

static void margins(void) {
    uint8_t list[260] = {0};
    const unsigned jobs[3][2] = {{5, 2}, {7, 4}, {35, 1}};
    size_t len = jobs_of(list, jobs, 3);
    assert(margined_as(homvaits_margin(list, len, 0), 0, 0, 3));
    assert(margined_as(homvaits_margin(list, len, 1), 0, 0, -1));
    assert(margined_as(homvaits_margin(list, len, 2), 0, 0, 0));
    assert(margined_as(homvaits_margin(list, len, 3), HOMVAITS_UNLISTED, 0, 0));
    assert(margined_as(homvaits_margin(list, len, UINT64_MAX), HOMVAITS_UNLISTED, 0, 0));
    assert(margined_as(homvaits_margin(list, 0, 0), HOMVAITS_UNLISTED, 0, 0));
    assert(margined_as(homvaits_margin(list, 7, 9), HOMVAITS_LENGTH, 0, 0));
    assert(margined_as(homvaits_margin(list, sizeof list, 99), HOMVAITS_COUNT, 0, 0));
    put(list + 6, 8);
    assert(margined_as(homvaits_margin(list, len, 3), HOMVAITS_BUDGET, 1, 0));
    put(list + 8, 60001);
    assert(margined_as(homvaits_margin(list, len, 3), HOMVAITS_PERIOD, 2, 0));

    /* 64 jobs that each want all of the time, with the last task far below zero: the least margin of all lists */
    for (unsigned i = 0; i < 64; i++) {
        const unsigned period = i < 63 ? 59999 : 60000;
        put(list + 4 * i, period);
        put(list + 4 * i + 2, period);
    }
    assert(margined_as(homvaits_margin(list, 256, 0), 0, 0, 0));
    assert(margined_as(homvaits_margin(list, 256, 63), 0, 0, -7559874));
}

/* Five tasks on two cores in both versions. By core and priority they are 3, 1, 4 and 2, 0; the periods of 1 and 4 are equal. */
static const uint8_t by_number[74] = {
    'T', 'S', 'H', 1, 0, 5, 2, 0,
    9, 0, 7, 0, 1, 0, 2, 0, 0, 0,
    8, 0, 2, 0, 0, 0, 2, 0, 0, 0,
    5, 0, 1, 0, 1, 0, 1, 0, 0, 0,
    4, 0, 1, 0, 0, 0, 1, 0, 0, 0,
    8, 0, 1, 0, 0, 0, 2, 0, 0, 0,
    4, 0, 0, 0, 1, 0, 0, 0,
    9, 0, 0, 0, 2, 0, 0, 0,
};
static const uint8_t by_core[74] = {
    'T', 'S', 'H', 2, 0, 5, 2, 0,
    4, 0, 1, 0, 3, 0, 1, 0, 0, 0,
    8, 0, 2, 0, 1, 0, 2, 0, 0, 0,
    8, 0, 1, 0, 4, 0, 2, 0, 0, 0,
    5, 0, 1, 0, 2, 0, 1, 0, 0, 0,
    9, 0, 7, 0, 0, 0, 2, 0, 0, 0,
    4, 0, 3, 0, 1, 0, 0, 0,
    9, 0, 2, 0, 2, 0, 0, 0,
};

/* The sheet by core with bytes changed: of no more than three places. */
static const struct { size_t at[3]; uint8_t byte[3]; uint8_t refusal; uint16_t place; } order_changes[] = {
    {{52}, {2}, HOMVAITS_ORDER, 0},                      /* a number twice */
    {{52}, {5}, HOMVAITS_ORDER, 0},                      /* a number too high */
    {{68}, {3}, HOMVAITS_ORDER, 0},                      /* counts that do not add up */
    {{60, 68}, {131, 130}, HOMVAITS_ORDER, 0},           /* counts that add up in eight bits only */
    {{22, 32}, {4, 1}, HOMVAITS_ORDER, 0},               /* equal periods, the higher number first */
    {{8}, {9}, HOMVAITS_ORDER, 0},                       /* a longer period first */
    {{22, 32, 50}, {4, 1, 0}, HOMVAITS_BUDGET, 4},       /* and a budget of 0, which comes before the order */
    {{22, 32, 54}, {4, 1, 0}, HOMVAITS_ORDER, 0},        /* and a factor of 0, which comes after it */
    {{61}, {1}, HOMVAITS_SPARE, 61},
    {{34, 54}, {4, 4}, HOMVAITS_STRETCH, 2},             /* by position: these are tasks 4 and 0 */
    {{34}, {1}, HOMVAITS_CHAIN, 2},
    {{50}, {8}, HOMVAITS_OVERLOAD, 65},
};

static int moved_as(homvaits_moved moved, unsigned refusal, unsigned place, unsigned length) {
    return moved.refusal == refusal && moved.place == place && moved.length == length;
}

static void moves(void) {
    uint8_t out[HOMVAITS_SHEET_MAX + 8], sheet[74], text[HOMVAITS_TEXT_MAX], other[HOMVAITS_TEXT_MAX];
    memset(out, 170, sizeof out);
    assert(moved_as(homvaits_move(by_number, sizeof by_number, out, HOMVAITS_SHEET_MAX - 1), HOMVAITS_TIGHT, 0, 0));
    assert(moved_as(homvaits_move(by_number, 7, out, 0), HOMVAITS_STUB, 0, 0));
    for (size_t i = 0; i < sizeof order_changes / sizeof order_changes[0]; i++) {
        memcpy(sheet, by_core, sizeof sheet);
        for (int k = 0; k < 3; k++)
            if (order_changes[i].at[k] > 0) sheet[order_changes[i].at[k]] = order_changes[i].byte[k];
        homvaits_checked checked = homvaits_check(sheet, sizeof sheet);
        assert(checked.refusal == order_changes[i].refusal && checked.place == order_changes[i].place);
        /* whatever the output */
        assert(moved_as(homvaits_move(sheet, sizeof sheet, out, sizeof out), checked.refusal, checked.place, 0));
        assert(moved_as(homvaits_move(sheet, sizeof sheet, out, 0), checked.refusal, checked.place, 0));
        homvaits_step step = homvaits_start(sheet, sizeof sheet, 0);
        assert(step.refusal == checked.refusal && step.place == checked.place && step.core.count == 0);
    }
    for (size_t i = 0; i < sizeof out; i++) assert(out[i] == 170);

    assert(moved_as(homvaits_move(by_number, sizeof by_number, out, HOMVAITS_SHEET_MAX), 0, 0, sizeof by_core));
    assert(memcmp(out, by_core, sizeof by_core) == 0);
    for (size_t i = sizeof by_core; i < sizeof out; i++) assert(out[i] == 170);
    assert(moved_as(homvaits_move(by_core, sizeof by_core, out, sizeof out), 0, 0, sizeof by_number));
    assert(memcmp(out, by_number, sizeof by_number) == 0);
    for (size_t i = sizeof by_number; i < sizeof out; i++) assert(out[i] == 170);

    /* starts and listings go by the old numbers */
    for (uint64_t core = 0; core < 3; core++) {
        homvaits_step one = homvaits_start(by_number, sizeof by_number, core), two = homvaits_start(by_core, sizeof by_core, core);
        assert(one.refusal == two.refusal && one.place == two.place && same_core(&one.core, &two.core));
        assert(core < 2 ? one.refusal == 0 : one.refusal == HOMVAITS_CORE && one.place == 0);
    }
    homvaits_core second = homvaits_start(by_core, sizeof by_core, 1).core;
    assert(second.count == 2 && second.tasks[0].number == 2 && second.tasks[1].number == 0);
    homvaits_listed one = homvaits_list(by_number, sizeof by_number, text, sizeof text);
    homvaits_listed two = homvaits_list(by_core, sizeof by_core, other, sizeof other);
    assert(one.refusal == 0 && two.refusal == 0 && one.length == two.length && text[4] == '1' && other[4] == '2');
    text[4] = '2';
    assert(memcmp(text, other, one.length) == 0);
}

/* Two tasks in version 3: 5 1, and 9 7 in strokes of 4 ticks, with factors 1 and 2. The strokes are bytes 13 and 23. */
static const uint8_t stroked[36] = {
    'T', 'S', 'H', 3, 0, 2, 1, 0,
    5, 0, 1, 0, 0, 1, 1, 0, 0, 0,
    9, 0, 7, 0, 0, 4, 2, 0, 0, 0,
    9, 0, 0, 0, 2, 0, 0, 0,
};

/* That sheet with one byte changed. */
static const struct { size_t at; uint8_t byte; uint8_t refusal; uint16_t place; } stroke_changes[] = {
    {7, 1, HOMVAITS_SPARE, 7},
    {30, 1, HOMVAITS_SPARE, 30},
    {31, 1, HOMVAITS_SPARE, 31},
    {20, 0, HOMVAITS_BUDGET, 1},
    {13, 0, HOMVAITS_STROKE, 0},
    {13, 2, HOMVAITS_STROKE, 0},
    {23, 0, HOMVAITS_STROKE, 1},
    {23, 8, HOMVAITS_STROKE, 1},
    {23, 255, HOMVAITS_STROKE, 1},
    {22, 1, HOMVAITS_CORE, 1},
    {23, 5, HOMVAITS_OVERLOAD, 64},  /* 1 * 2 * 1 and 4 * 2 are above 9 * 1 */
    {20, 8, HOMVAITS_OVERLOAD, 64},  /* the load, as in version 1 */
    {5, 65, HOMVAITS_COUNT, 0},
};

static void stroke_refusals(void) {
    uint8_t sheet[sizeof stroked], out[HOMVAITS_SHEET_MAX];
    memset(out, 170, sizeof out);
    for (size_t i = 0; i < sizeof stroke_changes / sizeof stroke_changes[0]; i++) {
        memcpy(sheet, stroked, sizeof sheet);
        sheet[stroke_changes[i].at] = stroke_changes[i].byte;
        homvaits_checked checked = homvaits_check(sheet, sizeof sheet);
        assert(checked.refusal == stroke_changes[i].refusal && checked.place == stroke_changes[i].place);
        homvaits_step step = homvaits_start(sheet, sizeof sheet, 0);
        assert(step.refusal == checked.refusal && step.place == checked.place && step.core.count == 0);
        /* the version comes first in a move, but not before mark and stub */
        assert(moved_as(homvaits_move(sheet, sizeof sheet, out, sizeof out), HOMVAITS_VERSION, 0, 0));
    }
    assert(moved_as(homvaits_move(stroked, sizeof stroked, out, sizeof out), HOMVAITS_VERSION, 0, 0));
    assert(moved_as(homvaits_move(stroked, sizeof stroked, out, 0), HOMVAITS_VERSION, 0, 0));
    assert(moved_as(homvaits_move(stroked, sizeof stroked - 1, out, sizeof out), HOMVAITS_VERSION, 0, 0));
    assert(moved_as(homvaits_move(stroked, 7, out, sizeof out), HOMVAITS_STUB, 0, 0));
    memcpy(sheet, stroked, sizeof sheet);
    sheet[0] = 't';
    assert(moved_as(homvaits_move(sheet, sizeof sheet, out, sizeof out), HOMVAITS_MARK, 0, 0));
    for (size_t i = 0; i < sizeof out; i++) assert(out[i] == 170);
}

static int stroke_is(const homvaits_core *core, unsigned task, unsigned left) {
    return core->stroke_task == task && core->stroke_left == left;
}

/* Task 0 waits for a stroke of task 1, as in docs/SHEET.md, 14. */
static void strokes(void) {
    static const uint8_t served[] = {1, 1, 1, 1, 0, 1, 1, 1, 0, HOMVAITS_IDLE};
    static const uint8_t left[] = {3, 2, 1, 0, 0, 2, 1, 0, 0, 0};
    uint8_t text[HOMVAITS_TEXT_MAX];
    homvaits_checked checked = homvaits_check(stroked, sizeof stroked);
    assert(checked.refusal == 0 && checked.place == 0 && checked.tasks == 2 && checked.cores == 1);
    homvaits_listed listed = homvaits_list(stroked, sizeof stroked, text, sizeof text);
    const char head[] = "TSH 3 tasks 2 cores 1\ntask 0 core 0 period 5 budget 1 factor 1 within 4\n";
    const char tail[] = "core 0 pivot 9 divisor 2 load 1000\n";
    assert(listed.refusal == 0 && memcmp(text, head, sizeof head - 1) == 0);
    assert(memcmp(text + listed.length - (sizeof tail - 1), tail, sizeof tail - 1) == 0);
    homvaits_step step = homvaits_start(stroked, sizeof stroked, 1);
    assert(step.refusal == HOMVAITS_CORE && step.place == 0 && step.core.count == 0);

    step = homvaits_start(stroked, sizeof stroked, 0);
    assert(step.refusal == 0 && step.core.count == 2 && stroke_is(&step.core, 0, 0));
    assert(step.core.tasks[0].stroke == 1 && step.core.tasks[1].stroke == 4 && step.core.tasks[2].stroke == 0);
    homvaits_core core = homvaits_release(step.core, 1).core, row[1];
    uint8_t answer;
    for (int i = 0; i < 10; i++) {
        if (i == 1 || i == 6) {
            step = homvaits_release(core, 0);
            assert(step.refusal == 0 && step.core.stroke_left == core.stroke_left);
            core = step.core;
        }
        row[0] = core;
        homvaits_ticked ticked = homvaits_tick(core);
        core = ticked.core;
        assert(ticked.refusal == 0 && ticked.task == served[i]);
        assert(stroke_is(&core, left[i] > 0 ? 1 : 0, left[i]));
        homvaits_row_ticked in_row = homvaits_tick_row(row, 1, &answer, 1);
        assert(in_row.refusal == 0 && answer == served[i] && same_core(&row[0], &core));
    }

    /* a finish ends the stroke of its own job and no other's, a refused one none */
    core = homvaits_tick(homvaits_release(homvaits_start(stroked, sizeof stroked, 0).core, 1).core).core;
    core = homvaits_release(core, 0).core;
    step = homvaits_finish(core, 0);
    assert(step.refusal == 0 && stroke_is(&step.core, 1, 3));
    step = homvaits_finish(step.core, 0);
    assert(step.refusal == HOMVAITS_QUIET && stroke_is(&step.core, 1, 3));
    step = homvaits_finish(core, 1);
    assert(step.refusal == 0 && stroke_is(&step.core, 0, 0));
    assert(homvaits_tick(step.core).task == 0);
}

/* A stroke of task 1 that lasts, and the same state with these stroke length, number and ticks left of the stroke. */
static void damaged_strokes(void) {
    static const struct { uint8_t stroke, task, left, refusal; } cases[] = {
        {4, 1, 3, 0},
        {4, 1, 1, 0},
        {4, 0, 0, 0},
        {4, 1, 0, HOMVAITS_FOREIGN},   /* a number without ticks */
        {4, 0, 3, HOMVAITS_FOREIGN},   /* task 0 is not pending */
        {4, 2, 3, HOMVAITS_FOREIGN},   /* no task of the core */
        {4, 255, 1, HOMVAITS_FOREIGN},
        {4, 1, 4, HOMVAITS_FOREIGN},   /* longer than the stroke */
        {7, 1, 6, 0},                  /* as long as the job */
        {7, 1, 7, HOMVAITS_FOREIGN},
        {3, 1, 3, HOMVAITS_FOREIGN},
        {0, 0, 0, HOMVAITS_FOREIGN},   /* stroke lengths out of range */
        {8, 0, 0, HOMVAITS_FOREIGN},
    };
    homvaits_core good = homvaits_tick(homvaits_release(homvaits_start(stroked, sizeof stroked, 0).core, 1).core).core;
    uint8_t answer;
    for (size_t i = 0; i < sizeof cases / sizeof cases[0]; i++) {
        homvaits_core core = good, row[1];
        core.tasks[1].stroke = cases[i].stroke;
        core.stroke_task = cases[i].task;
        core.stroke_left = cases[i].left;
        memcpy(row, &core, sizeof row);
        homvaits_ticked ticked = homvaits_tick(core);
        homvaits_step released = homvaits_release(core, 0), finished = homvaits_finish(core, 1);
        homvaits_row_ticked in_row = homvaits_tick_row(row, 1, &answer, 1);
        assert(ticked.refusal == cases[i].refusal && ticked.place == 0);
        assert(released.refusal == cases[i].refusal && finished.refusal == cases[i].refusal);
        assert(in_row.refusal == cases[i].refusal && in_row.place == 0);
        if (cases[i].refusal == 0) continue;
        assert(same_core(&ticked.core, &core) && same_core(&released.core, &core) && same_core(&finished.core, &core));
        assert(memcmp(row, &core, sizeof row) == 0);
    }
    /* fewer ticks left to the job than to its stroke */
    good.tasks[1].left = 2;
    assert(homvaits_tick(good).refusal == HOMVAITS_FOREIGN);
    good.tasks[1].left = 3;
    assert(homvaits_tick(good).refusal == 0);
    /* places past the tasks are not looked at */
    good.tasks[2].stroke = 9;
    assert(homvaits_tick(good).refusal == 0 && homvaits_tick(good).core.tasks[2].stroke == 9);
}

static int row_ticked_as(homvaits_row_ticked ticked, unsigned refusal, uint64_t place) {
    return ticked.refusal == refusal && ticked.place == place;
}

/* A good state and a damaged one, in memory that cannot be written. */
static const homvaits_core fixed_row[2] = {{1, {{5, 2, 0, 2, 0, 1}}, 0, 0}, {65, {{5, 2, 0, 2, 0, 1}}, 0, 0}};
static const uint8_t fixed_answers[2] = {170, 170};

enum { LONG_ROW = 300 };

static void row_refusals(void) {
    /* not even the bytes that stand there are written */
    homvaits_core *fixed = (homvaits_core *)fixed_row;
    uint8_t *to = (uint8_t *)fixed_answers;
    assert(row_ticked_as(homvaits_tick_row(fixed, 2, to, 2), HOMVAITS_FOREIGN, 1));
    assert(row_ticked_as(homvaits_tick_row(fixed, 2, to, 1), HOMVAITS_ROW, 0));
    assert(row_ticked_as(homvaits_tick_row(fixed, 2, to, 0), HOMVAITS_ROW, 0));
    assert(row_ticked_as(homvaits_tick_row(fixed, 1, to, 0), HOMVAITS_ROW, 0));
    assert(row_ticked_as(homvaits_tick_row(fixed + 1, 1, to, 2), HOMVAITS_FOREIGN, 0));
    /* an empty row has nothing to write */
    assert(row_ticked_as(homvaits_tick_row(fixed, 0, to, 0), 0, 0));
    assert(row_ticked_as(homvaits_tick_row(fixed + 1, 0, to, 2), 0, 0));

    /* the first of two damaged states, at places that one byte cannot hold too */
    static const size_t damaged[][2] = {{0, 299}, {7, 8}, {255, 256}, {256, 299}, {299, 299}};
    static homvaits_core row[LONG_ROW], before[LONG_ROW];
    uint8_t answers[LONG_ROW];
    for (size_t i = 0; i < sizeof damaged / sizeof damaged[0]; i++) {
        for (size_t k = 0; k < LONG_ROW; k++) row[k] = fixed_row[0];
        row[damaged[i][1]].count = 65;
        row[damaged[i][0]].tasks[0].left = 3;
        memcpy(before, row, sizeof row);
        memset(answers, 170, sizeof answers);
        assert(row_ticked_as(homvaits_tick_row(row, LONG_ROW, answers, LONG_ROW), HOMVAITS_FOREIGN, damaged[i][0]));
        assert(row_ticked_as(homvaits_tick_row(row, LONG_ROW, answers, LONG_ROW - 1), HOMVAITS_ROW, 0));
        assert(memcmp(row, before, sizeof row) == 0);
        for (size_t k = 0; k < LONG_ROW; k++) assert(answers[k] == 170);
    }
}

/* Both cores of the sheet on one timer, as in docs/SHEET.md, 13, with a state behind the row and answer bytes past it. */
static void rows(void) {
    static const uint8_t expected[3][2] = {{3, 2}, {4, 0}, {HOMVAITS_IDLE, 0}};
    homvaits_core row[3], alone[3];
    uint8_t answers[4];
    for (uint64_t k = 0; k < 3; k++) row[k] = homvaits_start(by_number, sizeof by_number, k % 2).core;
    row[0] = homvaits_release(homvaits_release(row[0], 3).core, 4).core;
    row[1] = homvaits_release(homvaits_release(row[1], 2).core, 0).core;
    row[2] = homvaits_release(row[2], 3).core;
    memcpy(alone, row, sizeof row);
    memset(answers, 170, sizeof answers);
    for (int i = 0; i < 3; i++) {
        /* a refused row is no tick */
        assert(row_ticked_as(homvaits_tick_row(row, 2, answers, 1), HOMVAITS_ROW, 0));
        assert(row_ticked_as(homvaits_tick_row(row, 2, answers, i == 0 ? 2 : sizeof answers), 0, 0));
        for (int k = 0; k < 2; k++) {
            homvaits_ticked ticked = homvaits_tick(alone[k]);
            alone[k] = ticked.core;
            assert(ticked.refusal == 0 && ticked.task == expected[i][k] && answers[k] == expected[i][k]);
            assert(same_core(&row[k], &alone[k]));
        }
        assert(memcmp(&row[2], &alone[2], sizeof row[2]) == 0 && answers[2] == 170 && answers[3] == 170);
    }
    assert(row[0].tasks[0].age == 3 && row[0].tasks[1].age == 8 && row[1].tasks[1].left == 5);
    /* the three rows were three ticks: task 3 waits for one more */
    assert(homvaits_release(row[0], 3).refusal == HOMVAITS_EARLY);
    assert(row_ticked_as(homvaits_tick_row(row, 1, answers, 1), 0, 0) && answers[0] == HOMVAITS_IDLE);
    assert(homvaits_release(row[0], 3).refusal == 0 && row[1].tasks[1].left == 5);
}

/* Every slice with a length of 0, as null: a pointer that is not looked at. */
static void null_slices(void) {
    uint8_t text[HOMVAITS_TEXT_MAX], sheet[HOMVAITS_SHEET_MAX], answers[2] = {170, 170};
    const unsigned job[1][2] = {{5, 1}};
    uint8_t list[4];
    size_t len = jobs_of(list, job, 1);
    homvaits_core row[1];

    homvaits_checked checked = homvaits_check(NULL, 0);
    assert(checked.refusal == HOMVAITS_STUB && checked.place == 0);
    homvaits_step step = homvaits_start(NULL, 0, 0);
    assert(step.refusal == HOMVAITS_STUB && step.core.count == 0);

    /* an empty list is planned, and its sheet is the header */
    homvaits_planned planned = homvaits_plan(NULL, 0, 8, 0, sheet, sizeof sheet);
    assert(planned.refusal == 0 && planned.tasks == 0 && planned.cores == 0 && planned.length == 8);
    assert(planned_as(homvaits_plan(NULL, 0, 8, 1, sheet, sizeof sheet), HOMVAITS_START, 0));
    assert(planned_as(homvaits_plan(NULL, 0, 8, 0, NULL, 0), HOMVAITS_TIGHT, 0));
    assert(planned_as(homvaits_plan(list, len, 8, 0, NULL, 0), HOMVAITS_TIGHT, 0));
    step = homvaits_start_list(NULL, 0);
    assert(step.refusal == 0 && step.core.count == 0 && homvaits_tick(step.core).task == HOMVAITS_IDLE);
    assert(margined_as(homvaits_margin(NULL, 0, 0), HOMVAITS_UNLISTED, 0, 0));

    homvaits_listed listed = homvaits_list(NULL, 0, text, sizeof text);
    assert(listed.refusal == 0 && listed.length == 18 && memcmp(text, "refused 1 place 0\n", 18) == 0);
    assert(homvaits_list(NULL, 0, NULL, 0).refusal == HOMVAITS_TIGHT);
    assert(homvaits_list(full, sizeof full, NULL, 0).refusal == HOMVAITS_TIGHT);
    assert(moved_as(homvaits_move(NULL, 0, sheet, sizeof sheet), HOMVAITS_STUB, 0, 0));
    assert(moved_as(homvaits_move(NULL, 0, NULL, 0), HOMVAITS_STUB, 0, 0));
    assert(moved_as(homvaits_move(full, sizeof full, NULL, 0), HOMVAITS_TIGHT, 0, 0));

    row[0] = homvaits_start(full, sizeof full, 0).core;
    assert(row_ticked_as(homvaits_tick_row(NULL, 0, NULL, 0), 0, 0));
    assert(row_ticked_as(homvaits_tick_row(NULL, 0, answers, sizeof answers), 0, 0));
    assert(row_ticked_as(homvaits_tick_row(row, 0, NULL, 0), 0, 0));
    assert(row_ticked_as(homvaits_tick_row(row, 1, NULL, 0), HOMVAITS_ROW, 0));
    assert(answers[0] == 170 && answers[1] == 170);
}

int main(void) {
    assert(homvaits_layout() == HOMVAITS_LAYOUT && homvaits_layout_1() == HOMVAITS_LAYOUT);
    null_slices();
    check_refusals();
    plan_refusals();
    list_refusals();
    margins();
    moves();
    stroke_refusals();
    strokes();
    damaged_strokes();
    row_refusals();
    rows();

    const unsigned jobs[2][2] = {{5, 1}, {9, 7}};
    uint8_t list[8], sheet[HOMVAITS_SHEET_MAX], text[HOMVAITS_TEXT_MAX];
    size_t len = jobs_of(list, jobs, 2);

    homvaits_planned planned = homvaits_plan(list, len, 1, 0, sheet, sizeof sheet);
    assert(planned.refusal == 0 && planned.tasks == 2 && planned.cores == 1 && planned.length == 36);
    homvaits_checked checked = homvaits_check(sheet, planned.length);
    assert(checked.refusal == 0 && checked.tasks == 2 && checked.cores == 1);
    homvaits_listed listed = homvaits_list(sheet, planned.length, text, sizeof text);
    assert(listed.refusal == 0);
    fwrite(text, 1, listed.length, stdout);

    homvaits_step step = homvaits_start(sheet, planned.length, 0);
    assert(step.refusal == 0 && step.core.count == 2);
    const homvaits_task *second = &step.core.tasks[1];
    assert(second->period == 9 && second->budget == 7 && second->age == 9 && second->left == 0 && second->number == 1);
    assert(second->stroke == 1);
    step = homvaits_release(step.core, 0);
    assert(step.refusal == 0);
    step = homvaits_release(step.core, 1);
    assert(step.refusal == 0);
    const uint8_t expected[] = {0, 1, 1, 1, 1, 0, 1, 1, 1};
    homvaits_core core = step.core;
    for (int i = 0; i < 9; i++) {
        if (i == 4) assert(homvaits_release(core, 0).refusal == HOMVAITS_EARLY);
        if (i == 5) {
            step = homvaits_release(core, 0);
            assert(step.refusal == 0);
            core = step.core;
        }
        homvaits_ticked next = homvaits_tick(core);
        assert(next.refusal == 0 && next.task == expected[i]);
        core = next.core;
    }
    homvaits_ticked idle = homvaits_tick(core);
    assert(idle.refusal == 0 && idle.task == HOMVAITS_IDLE);
    assert(homvaits_finish(idle.core, 1).refusal == HOMVAITS_QUIET);

    /* A job that ends before its budget is used: no ticks are left, the age stands. */
    core = homvaits_start(sheet, planned.length, 0).core;
    homvaits_ticked ticked = homvaits_tick(homvaits_release(core, 1).core);
    assert(ticked.refusal == 0 && ticked.task == 1 && ticked.core.tasks[1].left == 6);
    step = homvaits_finish(ticked.core, 1);
    assert(step.refusal == 0 && step.place == 0);
    ticked.core.tasks[1].left = 0;
    assert(ticked.core.tasks[1].age == 1 && same_core(&step.core, &ticked.core));
    core = step.core;
    step = homvaits_finish(core, 1);
    assert(step.refusal == HOMVAITS_QUIET && step.place == 1 && same_core(&step.core, &core));
    assert(homvaits_tick(core).task == HOMVAITS_IDLE);

    const unsigned bench[2][2] = {{5, 2}, {7, 4}};
    len = jobs_of(list, bench, 2);
    core = homvaits_start_list(list, len).core;
    core = homvaits_release(homvaits_release(core, 0).core, 1).core;
    for (int i = 0; i < 7; i++) {
        if (i == 5) core = homvaits_release(core, 0).core;
        core = homvaits_tick(core).core;
    }
    step = homvaits_release(core, 1);
    assert(step.refusal == HOMVAITS_LATE && step.place == 1 && same_core(&step.core, &core));

    step = homvaits_release(core, 2);
    assert(step.refusal == HOMVAITS_UNLISTED && step.place == 0 && same_core(&step.core, &core));
    step = homvaits_finish(core, UINT64_MAX);
    assert(step.refusal == HOMVAITS_UNLISTED && step.place == 0 && same_core(&step.core, &core));

    core.count = 65;
    ticked = homvaits_tick(core);
    assert(ticked.refusal == HOMVAITS_FOREIGN && ticked.place == 0 && same_core(&ticked.core, &core));
    assert(homvaits_release(core, 0).refusal == HOMVAITS_FOREIGN);
    assert(homvaits_finish(core, 0).refusal == HOMVAITS_FOREIGN);
    puts(LANGUAGE ": every call used");
    return 0;
}
