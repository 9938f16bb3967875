/* Homvaits: checks, plans and runs timing sheets. What a sheet is and when a core fits is told in docs/SHEET.md.
 *
 * Link libcapi.a (`./build capi`; x86-64 Linux). It has no heap and no globals, so every call is reentrant and may be made from any
 * thread, and it needs nothing but memcpy and memset.
 *
 * Every call takes any bytes and any numbers, and always returns. What the caller must see to:
 * - homvaits_layout() is HOMVAITS_LAYOUT; else no other call may be made;
 * - a pointer is valid for its length. Where the length is 0 it is not looked at, and may be anything, null too. Null with a length above
 *   0 is not refused: where a call reads or writes it, the program crashes;
 * - an output does not overlap an input, and nothing else writes either during a call.
 *
 * Every answer that is a struct has a `refusal`: 0 where nothing is refused, else one of the numbers below, with its `place`. The rules
 * of a call are applied in the order given at the call, and the first that is broken is the answer. A refused call writes no byte of an
 * output, and hands a state back as it was given. Fields of an answer that do not apply are 0 and mean nothing.
 *
 * A sheet is of version 1, 2 or 3. In version 1 the tasks stand by their numbers, and each names its core. In version 2 they stand core by
 * core, each core by priority, for printing: a task has its number of version 1, its old number, where version 1 names the core, and a core
 * has its task count. Calls that take a sheet take both, and tasks go by their old numbers; only the places of a refused sheet of version 2
 * go by position. homvaits_move turns one into the other.
 *
 * Version 3 is for jobs that cannot be broken off after just any tick. It is laid out as version 1, and each task has a stroke length too,
 * from 1 tick to its budget. A job that gets a tick outside a stroke begins a stroke: it keeps the core for so many ticks in all, this one
 * the first, or until it ends if that is sooner. Tasks of versions 1 and 2 and of job lists have strokes of 1 tick. Every call that takes a
 * sheet takes version 3, but homvaits_move does not. */
#ifndef HOMVAITS_H
#define HOMVAITS_H

#include <stddef.h>
#include <stdint.h>

#ifdef __cplusplus
extern "C" {
#endif

#define HOMVAITS_LAYOUT 1u      /* the number of the structs and signatures below, raised whenever one of them changes */
#define HOMVAITS_SHEET_MAX 712u /* bytes of the longest sheet, and the least output of homvaits_plan and homvaits_move */
#define HOMVAITS_TEXT_MAX 8192u /* the least output of homvaits_list, enough for every listing */
#define HOMVAITS_IDLE 255u      /* homvaits_ticked.task, or an answer byte of homvaits_tick_row, where no task was pending */

/* Refusals, with what `place` is: "task" is a task number (in a refused sheet of version 2 the task's position), "core" is 64 plus a core
 * number, "row position" is where a state stands in its row, from 0. */
typedef enum homvaits_refusal {
    HOMVAITS_STUB = 1,      /* under 8 bytes; 0 */
    HOMVAITS_MARK = 2,      /* the bytes do not begin with T S H; 0 */
    HOMVAITS_VERSION = 3,   /* the version is not 1, 2 or 3, or it is 3 and the sheet was to be moved; 0 */
    HOMVAITS_COUNT = 4,     /* over 64 tasks or jobs, over 8 cores, or a core limit above 8; 0 */
    HOMVAITS_LENGTH = 5,    /* not the length that the counts give, or a job list that is no multiple of 4; 0 */
    HOMVAITS_SPARE = 6,     /* a spare byte is not zero; the byte's offset */
    HOMVAITS_PERIOD = 7,    /* a period is not 1 to 60,000; task */
    HOMVAITS_BUDGET = 8,    /* a budget is 0 or above the period; task */
    HOMVAITS_CORE = 9,      /* there is no such core; task, or 0 for the core that a start names */
    HOMVAITS_BARE = 10,     /* a core has no task; core */
    HOMVAITS_FACTOR = 11,   /* a factor or divisor is not 1 to 120,000, or a pivot not 1 to 60,000; task (factor) or core (others) */
    HOMVAITS_STRETCH = 12,  /* a task's accelerated period is longer than its period; task */
    HOMVAITS_CHAIN = 13,    /* a factor is no multiple of the one before it by priority; task */
    HOMVAITS_OVERLOAD = 14, /* a core has more work than time, a stroke from below counted; core */
    HOMVAITS_NO_FIT = 15,   /* the planner finds no core for a task; task */
    HOMVAITS_TIGHT = 16,    /* the output is too short; 0 */
    HOMVAITS_UNLISTED = 17, /* the core or the job list has no such task; 0 */
    HOMVAITS_EARLY = 18,    /* fewer ticks than its period since the task's last release; task */
    HOMVAITS_LATE = 19,     /* the task's last job is still pending; task */
    HOMVAITS_QUIET = 20,    /* the task has no pending job; task */
    HOMVAITS_FOREIGN = 21,  /* a state breaks the form of a state: it is damaged; 0, or from homvaits_tick_row the row position */
    HOMVAITS_START = 22,    /* the start is no position in the ring; 0 */
    HOMVAITS_ORDER = 23,    /* a sheet of version 2 is not in order; 0 */
    HOMVAITS_ROW = 24,      /* fewer answer bytes than core states; 0 */
    HOMVAITS_STROKE = 25    /* a stroke length is 0 or above the budget; task */
} homvaits_refusal;

/* A task of a running core. */
typedef struct homvaits_task {
    uint16_t period;
    uint16_t budget;
    uint16_t age;  /* ticks since its last accepted release, up to the period; the period before the first */
    uint16_t left; /* ticks left to its job, which is pending while this is above 0 */
    uint8_t number;
    uint8_t stroke; /* its stroke length, 1 to the budget; 1 but for tasks of a version 3 sheet */
} homvaits_task;

/* The state of a core: its tasks are the first `count` places, in priority order. It is handed in and back by value, or lent in a row to
 * homvaits_tick_row; keep the last one that was handed back or left in the row, and change nothing in it. Such a state is never FOREIGN.
 * A damaged one is, where it breaks the form of a state (docs/SHEET.md, 6), and that has strokes too: every stroke length is in range; a
 * stroke that lasts is of a pending task of the core, and has no more ticks left than the task's stroke length less 1 and than its job; and
 * stroke_task is 0 where none lasts. Other damage goes unnoticed. */
typedef struct homvaits_core {
    uint64_t count;
    homvaits_task tasks[64];
    uint8_t stroke_task; /* the number of the task in its stroke; 0 also where no stroke lasts */
    uint8_t stroke_left; /* ticks left to the stroke; 0 where none lasts */
} homvaits_core;

typedef struct homvaits_checked {
    uint8_t refusal;
    uint16_t place;
    uint8_t tasks; /* how many the sheet has */
    uint8_t cores;
} homvaits_checked;

typedef struct homvaits_planned {
    uint8_t refusal;
    uint16_t place;
    uint8_t tasks;
    uint8_t cores;
    uint16_t length; /* of the sheet, which stands at the front of the output */
} homvaits_planned;

typedef struct homvaits_step {
    uint8_t refusal;
    uint16_t place;
    homvaits_core core; /* the next state */
} homvaits_step;

typedef struct homvaits_ticked {
    uint8_t refusal;
    uint16_t place;
    uint8_t task;       /* who has the tick, or HOMVAITS_IDLE; means nothing in a refused tick */
    homvaits_core core; /* the next state */
} homvaits_ticked;

typedef struct homvaits_row_ticked {
    uint8_t refusal;
    uint64_t place; /* wide enough for every row position */
} homvaits_row_ticked;

typedef struct homvaits_listed {
    uint8_t refusal;
    uint16_t place;
    uint16_t length; /* of the text, which stands at the front of the output; no zero byte follows it */
} homvaits_listed;

typedef struct homvaits_margined {
    uint8_t refusal;
    uint16_t place;
    int32_t margin; /* ticks to spare; below zero: some job of the list can be late */
} homvaits_margined;

typedef struct homvaits_moved {
    uint8_t refusal;
    uint16_t place;
    uint16_t length; /* of the sheet, which stands at the front of the output */
} homvaits_moved;

/* The layout: the size of each struct in bytes, and where the fields of a state and of the answers with a state stand. */
#ifdef __cplusplus
#define HOMVAITS_ASSERT(fact, text) static_assert(fact, text)
#else
#define HOMVAITS_ASSERT(fact, text) _Static_assert(fact, text)
#endif
#define HOMVAITS_SIZE(type, size) HOMVAITS_ASSERT(sizeof(type) == (size), "the size of " #type)
#define HOMVAITS_AT(type, field, at) HOMVAITS_ASSERT(offsetof(type, field) == (at), "the offset of " #field " in " #type)

HOMVAITS_SIZE(homvaits_task, 10);
HOMVAITS_AT(homvaits_task, period, 0);
HOMVAITS_AT(homvaits_task, budget, 2);
HOMVAITS_AT(homvaits_task, age, 4);
HOMVAITS_AT(homvaits_task, left, 6);
HOMVAITS_AT(homvaits_task, number, 8);
HOMVAITS_AT(homvaits_task, stroke, 9);
HOMVAITS_SIZE(homvaits_core, 656);
HOMVAITS_AT(homvaits_core, count, 0);
HOMVAITS_AT(homvaits_core, tasks, 8);
HOMVAITS_AT(homvaits_core, stroke_task, 648);
HOMVAITS_AT(homvaits_core, stroke_left, 649);
HOMVAITS_SIZE(homvaits_step, 664);
HOMVAITS_AT(homvaits_step, refusal, 0);
HOMVAITS_AT(homvaits_step, place, 2);
HOMVAITS_AT(homvaits_step, core, 8);
HOMVAITS_SIZE(homvaits_ticked, 664);
HOMVAITS_AT(homvaits_ticked, refusal, 0);
HOMVAITS_AT(homvaits_ticked, place, 2);
HOMVAITS_AT(homvaits_ticked, task, 4);
HOMVAITS_AT(homvaits_ticked, core, 8);
HOMVAITS_SIZE(homvaits_checked, 6);
HOMVAITS_SIZE(homvaits_planned, 8);
HOMVAITS_SIZE(homvaits_row_ticked, 16);
HOMVAITS_SIZE(homvaits_listed, 6);
HOMVAITS_SIZE(homvaits_margined, 8);
HOMVAITS_SIZE(homvaits_moved, 6);
#undef HOMVAITS_AT
#undef HOMVAITS_SIZE
#undef HOMVAITS_ASSERT

/* The number of the layout that the library was built with. Call it once, before any other call: if it is not HOMVAITS_LAYOUT, header and
 * library do not belong together, a call could read or write past the caller's structs, and nothing else may be called. Its own signature
 * never changes. */
uint32_t homvaits_layout(void);

/* The same number. The name has it too, so a program that refers to this symbol does not link with a library of another layout. */
uint32_t homvaits_layout_1(void);

/* Checks a sheet of any version. Accepted: it is a sheet and every core fits; the answer has its counts.
 *
 * Refusals, in this order; each rule is looked at in all of the sheet before the next one:
 *   1 STUB, 2 MARK, 3 VERSION, 4 COUNT, 5 LENGTH   place 0: these bytes are no sheet of version 1, 2 or 3
 *   6 SPARE                                        the offset of the first spare byte that is not zero
 *   7 PERIOD, 8 BUDGET                             the task whose record is out of range
 *   25 STROKE (version 3)                          the task whose stroke length is 0 or above its budget
 *   23 ORDER (version 2)                           place 0: of n tasks the old numbers are not each of 0 to n - 1 once, the counts do not
 *                                                  add up to n, or a core's tasks are out of priority order
 *   9 CORE (versions 1 and 3)                      the task whose core is not there
 *   10 BARE                                        64 + core
 *   11 FACTOR                                      the task of a bad factor, else 64 + the core of a bad pivot or divisor
 *   12 STRETCH                                     the task
 *   13 CHAIN                                       the task, looked for core by core and by priority inside a core
 *   14 OVERLOAD                                    64 + core: a task of it, those above it and a stroke from below do not fit into its
 *                                                  accelerated period (docs/SHEET.md, 3 and 14)
 * Do not run a refused sheet: mend it at the place, or plan again. */
homvaits_checked homvaits_check(const uint8_t *sheet, size_t len);

/* Plans a job list: 4 bytes a job, its period and its budget, low byte first. A job's place in the list, from 0, is its task number.
 * At most `limit` cores are used (0 to 8), and the ring of the jobs is walked from position `start`; other starts may find other plans.
 * The sheet, of version 1, is written to the front of `out`, and the bytes past it stay as they were. homvaits_check accepts every sheet
 * written here.
 *
 * Refusals, in this order:
 *   5 LENGTH    place 0: `len` is no multiple of 4
 *   4 COUNT     place 0: over 64 jobs, or `limit` is above 8
 *   7 PERIOD    the task: its period is not 1 to 60,000
 *   8 BUDGET    the task: its budget is 0 or above its period
 *   22 START    place 0: `start` is not below the number of jobs (not 0 where there are none)
 *   16 TIGHT    place 0: `out_len` is below HOMVAITS_SHEET_MAX
 *   15 NO_FIT   the task that found no core: try another start, more cores or smaller budgets */
homvaits_planned homvaits_plan(const uint8_t *jobs, size_t len, uint64_t limit, uint64_t start, uint8_t *out, size_t out_len);

/* Starts core number `core` of a sheet: its tasks, any of which may be released at once. A core started from an accepted sheet ends
 * every job on time, that is within the ticks that the listing calls `within`, whatever is released, finished and ticked.
 *
 * The state is the same from a sheet of version 1 and from its sheet of version 2. From one of version 3 it has the stroke lengths of the
 * sheet, from the others strokes of 1 tick. No stroke lasts at first.
 *
 * Refusals: those of homvaits_check, then
 *   9 CORE    place 0: the sheet has no core of this number
 * A refused start hands out a core without tasks, whose ticks are all idle. */
homvaits_step homvaits_start(const uint8_t *sheet, size_t len, uint64_t core);

/* Starts a core from a job list (as in homvaits_plan) without a sheet, for the bench: nothing promises that its jobs end on time.
 * homvaits_margin tells of each task how many ticks its jobs have to spare. Every stroke has 1 tick.
 *
 * Refusals, in this order:
 *   5 LENGTH    place 0: `len` is no multiple of 4
 *   4 COUNT     place 0: over 64 jobs
 *   7 PERIOD    the task: its period is not 1 to 60,000
 *   8 BUDGET    the task: its budget is 0 or above its period
 * A refused start hands out a core without tasks, whose ticks are all idle. */
homvaits_step homvaits_start_list(const uint8_t *jobs, size_t len);

/* Releases a task: a job of it begins, and is pending until it has had as many ticks as the budget, or is finished. A stroke that lasts
 * goes on, whatever the priority of the task.
 *
 * Refusals, in this order:
 *   21 FOREIGN     place 0: the state is damaged; start the core again
 *   17 UNLISTED    place 0: the core has no task of this number
 *   18 EARLY       the task: fewer ticks than its period since its last accepted release; release it later
 *   19 LATE        the task: its last job is still pending. Never on a core started from a sheet. */
homvaits_step homvaits_release(homvaits_core core, uint64_t task);

/* Finishes a task's job that ends before its budget is used. A job whose budget is used ends by itself and needs no finish.
 * The task's age stands: it may be released again a period after the last release, not after the finish. If the job is in its stroke, the
 * stroke ends too; a stroke of another task goes on.
 *
 * Refusals, in this order:
 *   21 FOREIGN     place 0: the state is damaged; start the core again
 *   17 UNLISTED    place 0: the core has no task of this number
 *   20 QUIET       the task: it has no pending job; there is nothing to do */
homvaits_step homvaits_finish(homvaits_core core, uint64_t task);

/* Begins a unit of time, and answers who has it: the task in its stroke while a stroke lasts; else the first pending task by priority, which
 * begins a stroke, or HOMVAITS_IDLE where none is pending. Call it once for each unit, and let the task run until the next. The unit is
 * counted as used: it is taken from the task's job and from its stroke, and every age rises by one, up to the period.
 *
 * So between two ticks of one stroke there is no tick of another task and no idle one.
 *
 * Refusal:
 *   21 FOREIGN    place 0: the state is damaged; start the core again */
homvaits_ticked homvaits_tick(homvaits_core core);

/* Begins a unit of time on all cores of a row: `row` is `count` states, one after the other, and each is given its tick in place. Answer
 * byte k is the number of the task that has the unit on the core at row position k, or HOMVAITS_IDLE. The bytes of `answers` past `count`
 * stay as they were. An empty row is accepted. `row` and `answers` must not overlap.
 *
 * Each state and answer is that of homvaits_tick on this state by itself. So every core of the row that was started from an accepted sheet
 * ends every job on time, an accepted row being one tick of each of its cores. A refused row writes no byte of `row` or `answers`, and is
 * no tick of any of its cores.
 *
 * Refusals, in this order:
 *   24 ROW        place 0: `answers_length` is below `count`
 *   21 FOREIGN    the row position of the first state that is damaged, from 0; start this core again */
homvaits_row_ticked homvaits_tick_row(homvaits_core *row, size_t count, uint8_t *answers, size_t answers_length);

/* Writes the listing of any bytes to the front of `out`, as text; the bytes past it stay as they were. That of a version 2 sheet is that
 * of its version 1 sheet but for the version. That of a version 3 sheet says nothing of its strokes. A refused sheet has a listing too, one
 * line such as `refused 14 place 64`, and that is no refusal of this call.
 *
 * Refusal:
 *   16 TIGHT    place 0: `out_len` is below HOMVAITS_TEXT_MAX */
homvaits_listed homvaits_list(const uint8_t *sheet, size_t len, uint8_t *out, size_t out_len);

/* The margin of task number `task` of a job list (as in homvaits_plan) on one core: how many ticks its jobs have to spare. The demand at t
 * is the task's budget plus, for each task above it (a shorter period, or the same one and a lower number), that one's budget times
 * (t / its period, rounded up). The margin is the period minus the smallest t from 1 to the period whose demand is at most t; where there is no
 * such t, it is the period minus the demand at the period, which is below zero.
 *
 * Zero or more: in every run from homvaits_start_list each job of this task has ended `margin` ticks before its period is over, whatever
 * the other margins are. The margin is zero or more for every task of the list exactly when no run from homvaits_start_list leaves a job
 * pending once its period has passed since its release, whatever is released, finished and ticked. Below zero: some job of the list, not
 * always one of this task, can be pending so.
 *
 * Refusals, in this order:
 *   5 LENGTH       place 0: `len` is no multiple of 4
 *   4 COUNT        place 0: over 64 jobs
 *   7 PERIOD       the task: its period is not 1 to 60,000
 *   8 BUDGET       the task: its budget is 0 or above its period
 *   17 UNLISTED    place 0: `task` is not below the number of jobs */
homvaits_margined homvaits_margin(const uint8_t *jobs, size_t len, uint64_t task);

/* Moves a sheet to the other version, 1 to 2 or 2 to 1. The moved sheet is written to the front of `out`, and the bytes past it stay as
 * they were. It has the same tasks and cores, homvaits_check accepts it, and moving it back gives the same bytes.
 *
 * Refusals: those of homvaits_check, where 3 VERSION is given for version 3 too, good or not; then
 *   16 TIGHT    place 0: `out_len` is below HOMVAITS_SHEET_MAX */
homvaits_moved homvaits_move(const uint8_t *sheet, size_t len, uint8_t *out, size_t out_len);

#ifdef __cplusplus
}
#endif

#endif
