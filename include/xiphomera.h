/* Xiphomera for C and C++: the player on the board, and the search, the checker and the program's texts beside it.
 *
 * A list of tasks comes as a pointer to the first record and the number of records: 0 of them, or more than 16, are
 * refused by 1, whatever they hold. A table comes as a pointer and its number of cells: H x m of them, slot by slot
 * from slot 0, core by core within a slot; a cell is 0 (idle) or a task number. Every call copes with every number
 * that it is handed, cuts none of them off, and keeps no pointer to what it is lent. No pointer may be null, not even one
 * to 0 records or cells; what a pointer leads to is aligned as its type and was written before, if only by 0 (a static
 * record is); and what is written to may not overlap with anything else that the call is lent.
 *
 * Tasks and cores count from 1, slots and jobs from 0: task k is tasks[k - 1]. H is the least common multiple of all
 * periods, m the number of cores. The rules are docs/RULES.md. The bytes of stack that a call takes stand with it, as
 * measured on x86-64 (riscv64 and aarch64 took at most 256 more, a step at most 80); no call takes any other memory. */
#ifndef XIPHOMERA_H
#define XIPHOMERA_H

#include <stddef.h>
#include <stdint.h>

#ifdef __cplusplus
extern "C" {
#endif

/* Verdicts. */
enum {
    XIPHOMERA_FOUND = 0,         /* search: table found; start and step: the cells are shown */
    XIPHOMERA_BAD_COUNT = 1,     /* no task, or over 16 */
    XIPHOMERA_BAD_CORES = 2,     /* cores not 1..4 */
    XIPHOMERA_BAD_PERIOD = 3,    /* a period not 1..1024 */
    XIPHOMERA_BAD_DEADLINE = 4,  /* a deadline not 1..period */
    XIPHOMERA_BAD_WORK = 5,      /* a work not 1..4096 */
    XIPHOMERA_BAD_OFFSET = 6,    /* an offset not 0..1023 */
    XIPHOMERA_BAD_RATE = 7,      /* a rate not 0..15, or not 0 beyond the board's last core */
    XIPHOMERA_BAD_LENGTH = 8,    /* H, the least common multiple of all periods, over 1024 */
    XIPHOMERA_BAD_ENGINE = 9,    /* engine not 0 or 1 */
    XIPHOMERA_BAD_BUFFER = 10,   /* table, or buffer for one, shorter than H x m */
    XIPHOMERA_INVALID = 11,      /* start: table not valid */
    XIPHOMERA_SPOILT = 12,       /* step: record spoilt */
    XIPHOMERA_NONE = 13,         /* search: no table of length H is valid */
    XIPHOMERA_STOPPED = 14,      /* search: the limit of tries was used up */
    XIPHOMERA_PAST = 15,         /* step: tick from the past */
    XIPHOMERA_TOO_LONG = 20,     /* text: over 1024 bytes */
    XIPHOMERA_NOT_LINE = 21,     /* text: not pairs of 0-9A-F, empty, or no line feed */
    XIPHOMERA_UNKNOWN_KIND = 22, /* text: unknown kind */
    XIPHOMERA_WRONG_LENGTH = 23, /* text: wrong length */
    XIPHOMERA_OUT_OF_PLACE = 24  /* text: out of place, a task number above 16, or no end */
};

/* A task, 12 bytes without gaps. The ranges are tested, so a record may hold any numbers. */
typedef struct xiphomera_task {
    uint16_t offset;   /* at 0: the slot of the first release, 0..1023 */
    uint16_t work;     /* at 2: units of work a job, 1..4096 */
    uint16_t deadline; /* at 4: slots from a release, 1..period */
    uint16_t period;   /* at 6: slots from one release to the next, 1..1024 */
    uint8_t rates[4];  /* at 8: units of work a slot, one a core, 0..15; 0 beyond the board's last core */
} xiphomera_task;

/* Cells of the longest table, 1024 slots on 4 cores: a buffer of so many always suffices. */
#define XIPHOMERA_LONGEST_TABLE 4096

/* ---- The player */

/* The player's record, 4140 bytes without gaps. It is the caller's; a start makes it and a step advances it. */
typedef struct xiphomera_player {
    uint32_t last;        /* at 0: the last tick */
    uint16_t h;           /* at 4: H, the slots of the table */
    uint16_t position;    /* at 6: the slot that was shown last */
    uint16_t age;         /* at 8: the slots since the start, but not past 1024 */
    uint16_t offsets[16]; /* at 10: the tasks' offsets; unused ones are 0 */
    uint8_t m;            /* at 42: the cores */
    uint8_t n;            /* at 43: the task count */
    uint8_t table[XIPHOMERA_LONGEST_TABLE]; /* at 44: the table; unused cells are 0 */
} xiphomera_player;

/* What a start and a step answer is verdict x 2^32 + missed; what a search answers, verdict x 2^32 + tries. */
static inline uint32_t xiphomera_verdict(uint64_t answer) { return (uint32_t)(answer >> 32); }
static inline uint32_t xiphomera_missed(uint64_t answer) { return (uint32_t)answer; }
static inline uint32_t xiphomera_tries(uint64_t answer) { return (uint32_t)answer; }

/* Makes the record for a valid table at a tick and shows slot 0: four cells, one a core, each a task or 0. A task is
 * shown as 0 until its offset has passed since the start. A job whose window runs round the table's end may, on cores of
 * unequal rates, be shown in slots in which it has had its work: the core can rest there. Refusals 1 to 8, 10 and 11
 * leave the record as it was and write four 0 cells; after 11 a check says which fault. Stack: at most 37,200. */
uint64_t xiphomera_start(xiphomera_player *player, const xiphomera_task *tasks, size_t count, uint32_t cores,
                         const uint8_t *table, size_t table_length, uint32_t tick, uint8_t cells[4]);

/* Advances the record to a tick and shows the slot that it has come to: four cells, one a core. Refusals 12 and 15
 * leave the record as it was and write four 0 cells. The ticks may wrap from 4294967295 to 0; the same tick again shows
 * the same slot again. After missed slots the player stands in the right slot; what the cells of those slots should
 * have done is not made up for. The record is spoilt if h, m, n, position or age is out of range; a changed cell, offset
 * or last tick is not seen, but a check can be asked about player.table. Stack: 120. */
uint64_t xiphomera_step(xiphomera_player *player, uint32_t tick, uint8_t cells[4]);

/* ---- The search and the checker */

/* Searches a table, with engine 0 (plain) or 1 (quick) and at most `limit` tries. Unless it is refused (1 to 10), the
 * first H x m cells of the buffer are the table found, or 0; the others are not touched. Stack: 72,320 to 596,480,
 * growing by 128 a cell that is not idle; 128 if refused. */
uint64_t xiphomera_search(const xiphomera_task *tasks, size_t count, uint32_t cores, uint32_t engine, uint32_t limit,
                          uint8_t *table, size_t table_length);

/* Checks a table: class x 2^48 + a x 2^32 + b x 2^16 + c; 0 if it is valid. Stack: at most 32,960. */
uint64_t xiphomera_check(const xiphomera_task *tasks, size_t count, uint32_t cores, const uint8_t *table,
                         size_t table_length);

/* The classes of a check's answer. */
enum {
    XIPHOMERA_VALID = 0,        /* a, b and c are 0 */
    XIPHOMERA_FAULTY_CELL = 1,  /* slot, core, kind: 1 unknown task number, 2 task closed, 3 rate 0, 4 already in this slot */
    XIPHOMERA_FAULTY_JOB = 2,   /* task, job, kind: 5 too little work, 6 a cell after the job was complete */
    XIPHOMERA_REFUSED = 3       /* 0, 0, the verdict: 1 to 8 or 10 */
};
static inline unsigned xiphomera_class(uint64_t answer) { return (unsigned)(answer >> 48); }
static inline unsigned xiphomera_a(uint64_t answer) { return (uint16_t)(answer >> 32); }
static inline unsigned xiphomera_b(uint64_t answer) { return (uint16_t)(answer >> 16); }
static inline unsigned xiphomera_c(uint64_t answer) { return (uint16_t)answer; }

/* ---- Texts */

/* Room for the longest answer. */
#define XIPHOMERA_LONGEST_ANSWER 15376

/* Writes the text of the answer to the text of a problem and gives its bytes; gives 0 and writes nothing if `out` is
 * shorter than the longest answer. A problem without a 04 line is searched with engine 1 and at most 1000000 tries.
 * Stack: at most 601,048. */
size_t xiphomera_plan_text(const uint8_t *text, size_t text_length, uint8_t *out, size_t out_length);

#ifdef __cplusplus
}
#endif

#endif
