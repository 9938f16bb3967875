/* The stack that each call uses on large inputs, accepted and refused sheets and rows among them. A call runs on a painted stack; the
 * deepest byte that lost its paint tells how much it took, with its return address and with a state that is handed in by value. */
#define _XOPEN_SOURCE 700
#include "homvaits.h"

#include <assert.h>
#include <stdio.h>
#include <string.h>
#include <ucontext.h>

enum { SIZE = 1 << 16, PAINT = 0xa5, BOUND = 8192, JOBS = 64, ROW = 8 };

/* Stands in for a call, to tell where the return address lies. It hands back the place of a large answer, as the ABI asks. */
void nothing(void);
__asm__(".globl nothing\nnothing: mov %rdi, %rax\n ret\n.section .note.GNU-stack,\"\"\n.text");

#define CALLS(X) \
    X(check, 0) X(plan, 0) X(start, 0) X(start_list, 0) X(release, 1) X(finish, 1) X(tick, 1) X(tick_row, 0) \
    X(list, 0) X(margin, 0) X(move, 0) X(layout, 0) X(layout_1, 0)

/* Called through these, so that a caller's frame is the same whatever stands there. */
#define POINTER(name, by_value) static __typeof__(homvaits_##name) *volatile name = homvaits_##name;
CALLS(POINTER)

static _Alignas(16) uint8_t stack[SIZE];
static ucontext_t here, there;
static uint8_t jobs[4 * JOBS], good[HOMVAITS_SHEET_MAX], grouped[HOMVAITS_SHEET_MAX], stroked[HOMVAITS_SHEET_MAX], sheet[HOMVAITS_SHEET_MAX];
static uint8_t out[HOMVAITS_SHEET_MAX], text[HOMVAITS_TEXT_MAX];
static uint32_t number;
static homvaits_checked checked;
static homvaits_planned planned;
static homvaits_step step;
static homvaits_ticked ticked;
static homvaits_row_ticked row_ticked;
static homvaits_listed listed;
static homvaits_margined margined;
static homvaits_moved moved;
static homvaits_core fresh, busy, row[ROW];
static uint8_t answers[ROW];

static void run_layout(void) { number = layout(); }
static void run_layout_1(void) { number = layout_1(); }
static void run_check(void) { checked = check(sheet, sizeof sheet); }
static void run_plan(void) { planned = plan(jobs, sizeof jobs, 8, 0, sheet, sizeof sheet); }
static void run_start(void) { step = start(sheet, sizeof sheet, 0); }
static void run_start_list(void) { step = start_list(jobs, sizeof jobs); }
static void run_release(void) { step = release(fresh, JOBS - 1); }
static void run_finish(void) { step = finish(busy, JOBS - 1); }
static void run_tick(void) { ticked = tick(busy); }
static void run_tick_row(void) { row_ticked = tick_row(row, ROW, answers, sizeof answers); }
static void run_list(void) { listed = list(sheet, sizeof sheet, text, sizeof text); }
static void run_margin(void) { margined = margin(jobs, sizeof jobs, JOBS - 1); }
static void run_move(void) { moved = move(sheet, sizeof sheet, out, sizeof out); }

static size_t depth(void (*run)(void)) {
    memset(stack, PAINT, SIZE);
    getcontext(&there);
    there.uc_stack.ss_sp = stack;
    there.uc_stack.ss_size = SIZE;
    there.uc_link = &here;
    makecontext(&there, run, 0);
    assert(swapcontext(&here, &there) == 0);
    size_t at = 0;
    while (at < SIZE && stack[at] == PAINT) at++;
    return SIZE - at;
}

/* The deepest of a run with the planned sheet, of one with its moved sheet, of one with the sheet of version 3, where a stroke lasts on the
 * busy core too, and of those where the factor of the last task is 256 more (Stretch) and the last state of the row is damaged. */
static size_t deepest(void (*run)(void)) {
    const uint8_t *sheets[] = {good, grouped, stroked};
    size_t most = 0;
    for (int i = 0; i < 6; i++) {
        memcpy(sheet, sheets[i / 2], sizeof sheet);
        sheet[8 + 10 * JOBS - 3] += i % 2;
        busy.stroke_task = i / 2 == 2 ? JOBS - 1 : 0;
        busy.stroke_left = i / 2 == 2;
        row[0] = busy;
        row[ROW - 1].count = JOBS + i % 2;
        size_t used = depth(run);
        if (most < used) most = used;
    }
    return most;
}

static int report(const char *name, size_t used) {
    printf("stack: homvaits_%-10s %5zu bytes\n", name, used);
    return used <= BOUND;
}

int main(void) {
    for (unsigned i = 0; i < JOBS; i++) {
        unsigned period = 100 + 37 * i, budget = period / 9;
        jobs[4 * i] = (uint8_t)(period % 256);
        jobs[4 * i + 1] = (uint8_t)(period / 256);
        jobs[4 * i + 2] = (uint8_t)(budget % 256);
        jobs[4 * i + 3] = (uint8_t)(budget / 256);
    }
    planned = homvaits_plan(jobs, sizeof jobs, 8, 0, good, sizeof good);
    assert(planned.refusal == 0 && planned.length == sizeof good);
    moved = homvaits_move(good, sizeof good, grouped, sizeof grouped);
    assert(moved.refusal == 0 && moved.length == sizeof grouped);
    memcpy(stroked, good, sizeof stroked);
    stroked[3] = 3;
    for (int i = 0; i < JOBS; i++) stroked[8 + 10 * i + 5] = 1;
    checked = homvaits_check(stroked, sizeof stroked);
    assert(checked.refusal == 0 && checked.tasks == JOBS);
    fresh = homvaits_start_list(jobs, sizeof jobs).core;
    busy = homvaits_release(fresh, JOBS - 1).core;
    assert(busy.count == JOBS && busy.tasks[JOBS - 1].left > 1);
    busy.tasks[JOBS - 1].stroke = 2;
    for (int i = 0; i < ROW; i++) row[i] = i % 2 ? fresh : busy;

    int within = 1;
#define MEASURE(name, by_value) \
    { \
        size_t used = deepest(run_##name); \
        name = (__typeof__(homvaits_##name) *)nothing; \
        used -= depth(run_##name) - 8; \
        within &= report(#name, used + (by_value ? sizeof(homvaits_core) : 0)); \
    }
    CALLS(MEASURE)
    printf("stack: bound %d bytes\n", BOUND);
    assert(within);
    return 0;
}
