/* The calls as a board's program links them: include/xiphomera.h and the archive of the crate `exports_c`. */
#include "xiphomera.h"

#include <stdio.h>
#include <string.h>

/* The records lie as the header says: what does not hold is an array of -1. */
#define LIES(record, field, at) typedef char record##_##field##_lies[offsetof(xiphomera_##record, field) == (at) ? 1 : -1]
#define TAKES(record, bytes) typedef char record##_takes[sizeof(xiphomera_##record) == (bytes) ? 1 : -1]
LIES(player, last, 0);
LIES(player, h, 4);
LIES(player, position, 6);
LIES(player, age, 8);
LIES(player, offsets, 10);
LIES(player, m, 42);
LIES(player, n, 43);
LIES(player, table, 44);
TAKES(player, 4140);
LIES(task, offset, 0);
LIES(task, work, 2);
LIES(task, deadline, 4);
LIES(task, period, 6);
LIES(task, rates, 8);
TAKES(task, 12);

/* A list, the board's cores, and a table. */
typedef struct {
    xiphomera_task tasks[12];
    size_t count;
    uint32_t cores;
    uint8_t table[12];
    size_t table_length;
} problem;

/* One task (2,2,2,3) on one core: its table is 1 0 1. */
static const problem P2 = {{{2, 2, 2, 3, {1}}}, 1, 1, {1, 0, 1}, 3};

/* One task (0,3,2,2) on one core of rate 2: its table is 1 1. */
static const problem P6 = {{{0, 3, 2, 2, {2}}}, 1, 1, {1, 1}, 2};

/* One task (0,1,1,1) that only core 4 can run. */
static const problem FOUR = {{{0, 1, 1, 1, {0, 0, 0, 1}}}, 1, 4, {0, 0, 0, 1}, 4};

/* Twelve tasks on one core, H = 12: slot t holds task t + 1. */
static problem twelve(void) {
    problem p = {.count = 12, .cores = 1, .table_length = 12};
    for (uint8_t t = 0; t < 12; t++) {
        p.tasks[t] = (xiphomera_task){.offset = t, .work = 1, .deadline = 1, .period = 12, .rates = {1}};
        p.table[t] = t + 1;
    }
    return p;
}

static xiphomera_player player;
static uint8_t cells[4];
static int failures = 0;

static void expect(int holds, const char *what) {
    if (!holds) {
        failures++;
        printf("player.c: not so: %s\n", what);
    }
}

static uint64_t start(problem p, uint32_t tick) {
    memset(cells, 255, sizeof cells);
    return xiphomera_start(&player, p.tasks, p.count, p.cores, p.table, p.table_length, tick, cells);
}

static uint64_t step(uint32_t tick) {
    memset(cells, 255, sizeof cells);
    return xiphomera_step(&player, tick, cells);
}

/* Whether core 1 is shown this cell and the other cores 0, with this number missed. */
static int shows(uint64_t answer, uint8_t cell, uint32_t missed) {
    return xiphomera_verdict(answer) == XIPHOMERA_FOUND && xiphomera_missed(answer) == missed && cells[0] == cell
        && cells[1] == 0 && cells[2] == 0 && cells[3] == 0;
}

/* Whether a start or a step is refused so: four 0 cells, missed 0, and the record byte for byte as it was. */
static int refuses(uint64_t answer, uint32_t verdict, const xiphomera_player *before) {
    return xiphomera_verdict(answer) == verdict && xiphomera_missed(answer) == 0 && memcmp(cells, "\0\0\0\0", 4) == 0
        && memcmp(&player, before, sizeof player) == 0;
}

static void starts_on_any_record(void) {
    const xiphomera_player made = {.last = 100, .h = 3, .offsets = {2}, .m = 1, .n = 1, .table = {1, 0, 1}};
    memset(&player, 255, sizeof player);
    expect(shows(start(P2, 100), 0, 0), "P2 starts idle");
    expect(memcmp(&player, &made, sizeof player) == 0, "the record that a start makes");
}

static void plays_p2(void) {
    const uint8_t played[6] = {0, 0, 1, 1, 0, 1};
    expect(shows(start(P2, 0), played[0], 0), "P2 at time 0");
    for (uint32_t time = 1; time < 6; time++)
        expect(shows(step(time), played[time], 0), "P2 played 0 0 1 1 0 1");
}

static void shows_four_cores(void) {
    expect(xiphomera_verdict(start(FOUR, 0)) == XIPHOMERA_FOUND && memcmp(cells, "\0\0\0\1", 4) == 0, "core 4 at the start");
    expect(xiphomera_verdict(step(1)) == XIPHOMERA_FOUND && memcmp(cells, "\0\0\0\1", 4) == 0, "core 4 after a step");
}

static void goes_across_the_wrap(void) {
    expect(shows(start(twelve(), 4294967292u), 1, 0), "slot 0 before the wrap");
    expect(shows(step(4294967295u), 4, 2), "tick 4294967295 is slot 3, two missed");
    expect(shows(step(0), 5, 0), "tick 0 is slot 4");
    expect(player.position == 4 && player.age == 4 && player.last == 0, "the record after the wrap");
    expect(shows(step(0), 5, 0), "the same tick again shows the same slot");
    expect(shows(step(30), 11, 29), "29 slots missed");
    expect(shows(step(30 + 2147483647u), 6, 2147483646u), "the longest step");
    expect(player.age == 1024, "age stops at 1024");
}

static void refuses_the_past(void) {
    start(twelve(), 5);
    const xiphomera_player before = player;
    expect(refuses(step(4), XIPHOMERA_PAST, &before), "a tick before the last is of the past");
    expect(refuses(step(5 + 2147483648u), XIPHOMERA_PAST, &before), "so is an elapsed number of 2^31");
}

static void refuses_a_spoilt_record(void) {
    for (int kind = 0; kind < 5; kind++) {
        start(P2, 5);
        switch (kind) {
        case 0: player.h = 1025; break;
        case 1: player.m = 5; break;
        case 2: player.n = 17; break;
        case 3: player.position = player.h; break;
        case 4: player.age = 1025; break;
        }
        const xiphomera_player before = player;
        expect(refuses(step(6), XIPHOMERA_SPOILT, &before), "a spoilt record is refused");
        expect(refuses(step(4), XIPHOMERA_SPOILT, &before), "spoilt is tested before the past");
    }
}

static void refuses_starts(void) {
    start(twelve(), 5);
    const xiphomera_player before = player;
    problem p = P2;
    p.tasks[0].deadline = 0;
    expect(refuses(start(p, 9), XIPHOMERA_BAD_DEADLINE, &before), "deadline 0 is refused");
    p = P2;
    p.table_length = 2;
    expect(refuses(start(p, 9), XIPHOMERA_BAD_BUFFER, &before), "a table that is too short is refused");
    p = P2;
    p.table[1] = 1;
    expect(refuses(start(p, 9), XIPHOMERA_INVALID, &before), "a table that is not valid is refused");
}

/* A list of 257 good tasks. */
static const xiphomera_task *many(void) {
    static xiphomera_task tasks[257];
    for (size_t i = 0; i < 257; i++)
        tasks[i] = P2.tasks[0];
    return tasks;
}

static void cuts_no_start_off(void) {
    start(twelve(), 5);
    const xiphomera_player before = player;
    const size_t counts[] = {0, 17, 256, 257};
    for (size_t i = 0; i < sizeof counts / sizeof *counts; i++) {
        memset(cells, 255, sizeof cells);
        const uint64_t answer = xiphomera_start(&player, many(), counts[i], 1, P2.table, 3, 9, cells);
        expect(refuses(answer, XIPHOMERA_BAD_COUNT, &before), "a start of 0, 17, 256 or 257 tasks is refused by 1");
    }
    const uint32_t cores[] = {0, 5, 256, 257, 65537, 4294967295u};
    for (size_t i = 0; i < sizeof cores / sizeof *cores; i++) {
        problem p = P2;
        p.cores = cores[i];
        expect(refuses(start(p, 9), XIPHOMERA_BAD_CORES, &before), "a start on so many cores is refused by 2");
    }
}

/* The buffer of a search, one cell longer than P2's table. */
static uint8_t buffer[4];

static uint64_t search(const xiphomera_task *tasks, size_t count, uint32_t cores, uint32_t engine, uint32_t limit) {
    memset(buffer, 255, sizeof buffer);
    return xiphomera_search(tasks, count, cores, engine, limit, buffer, sizeof buffer);
}

/* Whether a search ends so, with this number of tries and these four bytes in the buffer. */
static int ends(uint64_t answer, uint32_t verdict, uint32_t tries, const char *left) {
    return xiphomera_verdict(answer) == verdict && xiphomera_tries(answer) == tries && memcmp(buffer, left, 4) == 0;
}

static void searches(void) {
    const char *untouched = "\377\377\377\377";
    for (uint32_t engine = 0; engine < 2; engine++) {
        expect(ends(search(P2.tasks, 1, 1, engine, 3), XIPHOMERA_FOUND, 3, "\1\0\1\377"), "P2 is found in three tries");
        expect(ends(search(P2.tasks, 1, 1, engine, 2), XIPHOMERA_STOPPED, 2, "\0\0\0\377"), "P2 is stopped after two");
    }
    const size_t counts[] = {0, 17, 256, 257};
    for (size_t i = 0; i < sizeof counts / sizeof *counts; i++)
        expect(ends(search(many(), counts[i], 257, 257, 3), XIPHOMERA_BAD_COUNT, 0, untouched), "0, 17, 256 or 257 tasks");
    expect(ends(search(P2.tasks, 1, 257, 257, 3), XIPHOMERA_BAD_CORES, 0, untouched), "257 cores are not one");
    const uint32_t engines[] = {2, 256, 257, 2147483648u, 4294967295u};
    for (size_t i = 0; i < sizeof engines / sizeof *engines; i++)
        expect(ends(search(P2.tasks, 1, 1, engines[i], 3), XIPHOMERA_BAD_ENGINE, 0, untouched), "no such engine");
}

/* Whether a check answers so. */
static int checks(problem p, unsigned class, unsigned a, unsigned b, unsigned c) {
    const uint64_t answer = xiphomera_check(p.tasks, p.count, p.cores, p.table, p.table_length);
    return xiphomera_class(answer) == class && xiphomera_a(answer) == a && xiphomera_b(answer) == b
        && xiphomera_c(answer) == c;
}

static void checks_tables(void) {
    problem p = P2;
    expect(checks(p, XIPHOMERA_VALID, 0, 0, 0), "P2's table is valid");
    p.table[1] = 1;
    expect(checks(p, XIPHOMERA_FAULTY_CELL, 1, 1, 2), "P11: slot 1, core 1, kind 2");
    p.table[1] = p.table[2] = 0;
    expect(checks(p, XIPHOMERA_FAULTY_JOB, 1, 0, 5), "P12: task 1, job 0, kind 5");
    p = P6;
    expect(checks(p, XIPHOMERA_VALID, 0, 0, 0), "P6's table is valid");
    p.tasks[0].work = 2;
    expect(checks(p, XIPHOMERA_FAULTY_JOB, 1, 0, 6), "a cell after the job was complete: task 1, job 0, kind 6");
    p.cores = 257;
    expect(checks(p, XIPHOMERA_REFUSED, 0, 0, XIPHOMERA_BAD_CORES), "a check on 257 cores is refused by 2");
    p.count = 0;
    expect(checks(p, XIPHOMERA_REFUSED, 0, 0, XIPHOMERA_BAD_COUNT), "a check of no task is refused by 1");
}

static void answers_texts(void) {
    static const char p2[] = "0101\n02010002000200020003\n030101000000\n0400000F4240\n07\n";
    static const char found[] = "050000000003\n06000001000000\n06000100000000\n06000201000000\n07\n";
    static uint8_t out[XIPHOMERA_LONGEST_ANSWER];
    const size_t bytes = xiphomera_plan_text((const uint8_t *)p2, sizeof p2 - 1, out, sizeof out);
    expect(bytes == sizeof found - 1 && memcmp(out, found, bytes) == 0, "P2's text is answered");
    out[0] = 85;
    expect(xiphomera_plan_text((const uint8_t *)p2, sizeof p2 - 1, out, sizeof out - 1) == 0 && out[0] == 85, "a short room is left alone");
}

int main(void) {
    starts_on_any_record();
    plays_p2();
    shows_four_cores();
    goes_across_the_wrap();
    refuses_the_past();
    refuses_a_spoilt_record();
    refuses_starts();
    cuts_no_start_off();
    searches();
    checks_tables();
    answers_texts();
    return failures != 0;
}
