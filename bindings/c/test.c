/* Calls every exported function with good, damaged and short buffers: nothing else holds yirbarn.h to the library. */
#include "yirbarn.h"

#include <stdio.h>
#include <stdlib.h>
#include <string.h>

static int checks, failures;

#define CHECK(fact) check((fact), #fact, __LINE__)

static void check(bool holds, const char *fact, int line)
{
    checks++;
    if (!holds) {
        failures++;
        printf("test.c:%d: %s\n", line, fact);
    }
}

/* The tape of document 01, for N 64 and K 8, and its answers. */
static const uint8_t TAPE[] = {
    0x01, 1, 0x01, 2,                                              /* REG 1, REG 2 */
    0x02, 1, 0, 0, 0, 0, 0, 0, 0, 0, 0x02, 2, 0, 0, 0, 0, 0, 0, 0, 0, /* HOLD 1 and 2 */
    0x09, 0x0a,                                                    /* GROUP, APPLY */
    0x02, 1, 5, 0, 0, 0, 0, 0, 0, 0, 0x03,                         /* HOLD 1 = 5, NEW */
    0x02, 1, 6, 0, 0, 0, 0, 0, 0, 0, 0x02, 2, 7, 0, 0, 0, 0, 0, 0, 0, 0x03, /* HOLD 1 = 6, HOLD 2 = 7, NEW */
    0x02, 1, 0, 0, 0, 0, 0, 0, 0, 0, 0x02, 2, 0, 0, 0, 0, 0, 0, 0, 0, 0x0c, /* HOLD 1 and 2, RANGE */
};
static const uint8_t ANSWERS[] = {
    0, 1, 0, 1, 0, 0, 0, 1, 0, 0, 0, 0, 0, 0, 0, 1, 0, 0, 0, 0, 0, 0,
    1, 0, 0, 0, 1, 0, 0, 0, 0, 0, 0, 1, 0, 0, 0, 0, 1, 0, 0, 0,
};
enum { N = 64, K = 8, NEEDED = 5184, GUARD = 8, OUT = 256 };

static uint32_t words[NEEDED + GUARD];
static uint8_t out[OUT];

/* All bytes of a buffer, from a place on, are this one. */
static bool all(const void *buffer, size_t from, size_t to, uint8_t byte)
{
    const uint8_t *bytes = buffer;
    for (; from < to; from++)
        if (bytes[from] != byte)
            return false;
    return true;
}

static void fresh(void)
{
    memset(words, 0xa5, sizeof words);
    memset(out, 0x5a, sizeof out);
    CHECK(yirbarn_start(words, NEEDED, N, K) == YIRBARN_OK);
}

static void used(void)
{
    fresh();
    struct yirbarn_ran ran = yirbarn_run(words, NEEDED, TAPE, sizeof TAPE, out, OUT);
    CHECK(ran.stop == YIRBARN_OK);
    memset(out, 0x5a, sizeof out);
}

static void test_words_needed(void)
{
    CHECK(yirbarn_words_needed(N, K) == NEEDED);
    CHECK(yirbarn_words_needed(1, 1) == 1054);
    CHECK(yirbarn_words_needed(4096, 128) == 3213312);
    CHECK(yirbarn_words_needed(0, 1) == 0);
    CHECK(yirbarn_words_needed(4097, 1) == 0);
    CHECK(yirbarn_words_needed(1, 0) == 0);
    CHECK(yirbarn_words_needed(1, 129) == 0);
    CHECK(yirbarn_words_needed(SIZE_MAX, SIZE_MAX) == 0);
}

static void test_start(void)
{
    memset(words, 0xa5, sizeof words);
    CHECK(yirbarn_start(words, NEEDED, 0, K) == YIRBARN_SIZE);
    CHECK(yirbarn_start(words, NEEDED, 4097, K) == YIRBARN_SIZE);
    CHECK(yirbarn_start(words, NEEDED, N, 0) == YIRBARN_SIZE);
    CHECK(yirbarn_start(words, NEEDED, N, 129) == YIRBARN_SIZE);
    CHECK(yirbarn_start(words, 0, SIZE_MAX, SIZE_MAX) == YIRBARN_SIZE);
    CHECK(yirbarn_start(words, NEEDED - 1, N, K) == YIRBARN_SHORT);
    CHECK(yirbarn_start(words, 0, N, K) == YIRBARN_SHORT);
    CHECK(all(words, 0, sizeof words, 0xa5));
    CHECK(yirbarn_start(words, NEEDED + GUARD, N, K) == YIRBARN_OK);
    CHECK(all(words, 4 * NEEDED, sizeof words, 0xa5));
}

static void test_run(void)
{
    fresh();
    struct yirbarn_ran ran = yirbarn_run(words, NEEDED, TAPE, sizeof TAPE, out, OUT);
    CHECK(ran.stop == YIRBARN_OK && ran.commands == 14 && ran.read == 0x4f && ran.written == 0x2a);
    CHECK(sizeof TAPE == 0x4f && sizeof ANSWERS == 0x2a);
    CHECK(!memcmp(out, ANSWERS, sizeof ANSWERS));
    CHECK(all(out, sizeof ANSWERS, OUT, 0x5a));
    CHECK(all(words, 4 * NEEDED, sizeof words, 0xa5));

    /* A refused command, a byte that is none. */
    const uint8_t more[] = {0x07, 9, 0, 0, 0, 1, 0, 0, 0, 0x0e, 0x11};
    ran = yirbarn_run(words, NEEDED, more, sizeof more, out, OUT);
    CHECK(ran.stop == YIRBARN_UNKNOWN && ran.commands == 2 && ran.read == 10 && ran.written == 6);
    CHECK(out[0] == YIRBARN_DEAD && out[1] == 0 && out[2] == 1 && all(out, 3, 6, 0));

    /* Every length of tape, and every room: what is done is done as in the whole run. */
    for (size_t length = 0; length <= sizeof TAPE; length++) {
        fresh();
        ran = yirbarn_run(words, NEEDED, TAPE, length, out, OUT);
        CHECK(ran.stop == (ran.read < length ? YIRBARN_CUT : YIRBARN_OK));
        CHECK(!memcmp(out, ANSWERS, ran.written) && all(out, ran.written, OUT, 0x5a));
    }
    for (size_t room = 0; room < sizeof ANSWERS; room++) {
        fresh();
        ran = yirbarn_run(words, NEEDED, TAPE, sizeof TAPE, out, room);
        CHECK(ran.stop == YIRBARN_NOROOM && ran.written <= room);
        CHECK(!memcmp(out, ANSWERS, ran.written) && all(out, ran.written, OUT, 0x5a));
        /* The rest of the tape goes on from there. */
        struct yirbarn_ran rest = yirbarn_run(words, NEEDED, TAPE + ran.read, sizeof TAPE - ran.read, out, OUT);
        CHECK(rest.stop == YIRBARN_OK && ran.commands + rest.commands == 14);
        CHECK(!memcmp(out, ANSWERS + ran.written, rest.written) && ran.written + rest.written == sizeof ANSWERS);
    }
}

/* Runs a tape to its end, and compares all its answers. */
static bool answers(const uint8_t *tape, size_t tape_len, const uint8_t *expected, size_t expected_len)
{
    struct yirbarn_ran ran = yirbarn_run(words, NEEDED, tape, tape_len, out, OUT);
    return ran.stop == YIRBARN_OK && ran.read == tape_len && ran.written == expected_len &&
           !memcmp(out, expected, expected_len);
}

/* A row of a column: index, version, value. */
static bool row(uint8_t kind, size_t at, uint32_t index, uint32_t version, uint32_t value)
{
    uint32_t entity[2], number[2];
    if (yirbarn_column(words, NEEDED, kind, false, at, at + 1, entity, 2).number != YIRBARN_OK)
        return false;
    struct yirbarn_written copied = yirbarn_column(words, NEEDED, kind, true, at, at + 1, number, 2);
    return copied.number == YIRBARN_OK && entity[0] == index && entity[1] == version && number[0] == value &&
           number[1] == 0;
}

#define HOLD_BOTH 0x02, 2, 8, 0, 0, 0, 0, 0, 0, 0, 0x02, 1, 9, 0, 0, 0, 0, 0, 0, 0 /* HOLD 2 = 8, HOLD 1 = 9 */
#define KILL_0 0x07, 0, 0, 0, 0, 1, 0, 0, 0

/* A tray: none, some, too many with the list kept, and the rest of the store. */
static void test_tray(void)
{
    const uint8_t none[] = {HOLD_BOTH, 0x0f, 0, 0, HOLD_BOTH};
    const uint8_t three[] = {KILL_0, 0x0f, 3, 0, 0x0e};
    const uint8_t many[] = {HOLD_BOTH, 0x0f, 61, 0, 0x0f, 0xff, 0xff, 0x0e, 0x0f, 60, 0, 0x0f, 1, 0, 0x0f, 0, 0};
    used();
    CHECK(answers(none, sizeof none, (const uint8_t[]){0, 0, 0, 0, 0, 0, 0}, 7));
    CHECK(answers(three, sizeof three, (const uint8_t[]){0, 0, 3, 0, 0, 0, 0, 0, 0}, 9));
    /* The index that waits, and two new ones; the group of both kinds in front, in order. */
    CHECK(row(1, 0, 1, 1, 6) && row(1, 1, 0, 2, 9) && row(1, 2, 2, 1, 9) && row(1, 3, 3, 1, 9));
    CHECK(row(2, 0, 1, 1, 7) && row(2, 1, 0, 2, 8) && row(2, 2, 2, 1, 8) && row(2, 3, 3, 1, 8));
    CHECK(yirbarn_column_number(words, NEEDED, 1, false, 0, 5) == YIRBARN_BEYOND);
    CHECK(answers(many, sizeof many, (const uint8_t[]){0, 0, 12, 12, 0, 2, 0, 0, 0, 0, 60, 0, 12, 0, 0, 0}, 16));
    CHECK(row(1, 63, 63, 1, 9) && row(2, 63, 63, 1, 8));
    CHECK(all(words, 4 * NEEDED, sizeof words, 0xa5));
}

/* The words' roll and both columns, for a comparison. */
static size_t whole(uint8_t *roll, size_t room, uint32_t *columns, size_t rows)
{
    for (size_t i = 0; i < 4; i++)
        CHECK(yirbarn_column(words, NEEDED, 1 + i / 2, i % 2, 0, rows, columns + 2 * rows * i, 2 * rows).number == 0);
    struct yirbarn_rolled rolled = yirbarn_roll(words, NEEDED, roll, room);
    CHECK(rolled.number == YIRBARN_OK);
    return rolled.written;
}

/* A tray leaves what as many NEWs leave, each with the same list. */
static void test_tray_is_news(void)
{
    const uint8_t tray[] = {KILL_0, HOLD_BOTH, 0x0f, 4, 0};
    const uint8_t news[] = {KILL_0, HOLD_BOTH, 3, HOLD_BOTH, 3, HOLD_BOTH, 3, HOLD_BOTH, 3};
    static uint8_t rolls[2][512];
    static uint32_t columns[2][4 * 2 * 5];
    used();
    CHECK(yirbarn_run(words, NEEDED, tray, sizeof tray, out, OUT).commands == 4);
    size_t length = whole(rolls[0], sizeof *rolls, columns[0], 5);
    used();
    CHECK(yirbarn_run(words, NEEDED, news, sizeof news, out, OUT).commands == 13);
    CHECK(whole(rolls[1], sizeof *rolls, columns[1], 5) == length);
    CHECK(length == 4 + 5 * 27 && !memcmp(rolls[0], rolls[1], length));
    CHECK(!memcmp(columns[0], columns[1], sizeof *columns));
}

/* Too few bytes of the count, and too little room, also where it would be refused. */
static void test_tray_stops(void)
{
    static uint32_t before[NEEDED + GUARD];
    const uint8_t one[] = {0x0f, 1, 0}, many[] = {0x0f, 65, 0};
    used();
    memcpy(before, words, sizeof words);
    for (size_t length = 1; length < 3; length++)
        CHECK(yirbarn_run(words, NEEDED, one, length, out, 0).stop == YIRBARN_CUT);
    for (size_t room = 0; room < 3; room++) {
        CHECK(yirbarn_run(words, NEEDED, one, sizeof one, out, room).stop == YIRBARN_NOROOM);
        CHECK(yirbarn_run(words, NEEDED, many, sizeof many, out, room).stop == YIRBARN_NOROOM);
    }
    CHECK(!memcmp(words, before, sizeof words) && all(out, 0, OUT, 0x5a));
    struct yirbarn_ran ran = yirbarn_run(words, NEEDED, many, sizeof many, out, 3);
    CHECK(ran.stop == YIRBARN_OK && ran.written == 1 && out[0] == YIRBARN_FULL);
}

/* Where the words have the caller, and the refusals of each (docs/WORDS.md). */
enum { CALLER_AT = 9, REFUSALS_AT = 16, CALLERS = 16 };

#define SETCALLER 0x10
#define TALLY 0x0e
#define KILL_NONE 0x07, 9, 0, 0, 0, 1, 0, 0, 0 /* refused: DEAD */

/* What all words must be: as they were at keep(), but for the caller and the refusals that a test writes here. */
static uint32_t kept[NEEDED + GUARD];

static void keep(void)
{
    memcpy(kept, words, sizeof words);
}

static bool as_kept(void)
{
    return !memcmp(words, kept, sizeof words);
}

/* Sets the caller, in a run of its own; its word must be that from then on. */
static bool sets(uint8_t caller)
{
    const uint8_t tape[] = {SETCALLER, caller};
    kept[CALLER_AT] = caller;
    return answers(tape, sizeof tape, (const uint8_t[]){0}, 1);
}

/* A refused command, in a run of its own, for the caller that is set. */
static bool refuses(void)
{
    const uint8_t tape[] = {KILL_NONE};
    return answers(tape, sizeof tape, (const uint8_t[]){YIRBARN_DEAD}, 1);
}

/* TALLY, in a run of its own, tells this number. */
static bool tells(uint32_t refusals)
{
    const uint8_t tape[] = {TALLY};
    const uint8_t told[] = {0, refusals, refusals >> 8, refusals >> 16, refusals >> 24};
    return answers(tape, sizeof tape, told, sizeof told);
}

/* Each caller has as many commands refused as its number, in runs of their own: these words change, and no others. */
static void test_callers(void)
{
    used();
    keep();
    for (uint8_t caller = 0; caller < CALLERS; caller++) {
        CHECK(sets(caller) && as_kept());
        for (uint8_t i = 0; i < caller; i++)
            CHECK(tells(i) && refuses());
        kept[REFUSALS_AT + caller] = caller;
        CHECK(tells(caller) && as_kept());
    }
    for (uint8_t caller = CALLERS; caller-- > 0;)
        CHECK(sets(caller) && sets(caller) && tells(caller) && as_kept());
}

/* In one run: every refusal counts for the caller that is set, whatever refuses, and TALLY sees those of its run. */
static void test_callers_in_a_run(void)
{
    const uint8_t bar[] = {0x0b, 1};
    const uint8_t tape[] = {
        KILL_NONE, SETCALLER, 6,         /* DEAD, for caller 0; the next five are caller 6's */
        0x02, 9, 0, 0, 0, 0, 0, 0, 0, 0, /* HOLD 9: KIND */
        0x0b, 1, 0x0f, 65, 0,            /* BAR 1: AGAIN; TRAY 65: FULL */
        KILL_NONE, SETCALLER, 16, TALLY, /* DEAD; CALLER */
        SETCALLER, 15, KILL_NONE, TALLY, /* DEAD, for caller 15 */
        SETCALLER, 0, TALLY,
    };
    const uint8_t told[] = {
        11, 0, 7, 9, 12, 11, 0x13, 0, 5, 0, 0, 0, 0, 11, 0, 1, 0, 0, 0, 0, 0, 1, 0, 0, 0,
    };
    used();
    CHECK(answers(bar, sizeof bar, (const uint8_t[]){0}, 1));
    keep();
    CHECK(answers(tape, sizeof tape, told, sizeof told));
    kept[REFUSALS_AT] = 1;
    kept[REFUSALS_AT + 6] = 5;
    kept[REFUSALS_AT + 15] = 1;
    CHECK(as_kept());
}

/* From 16 on: refused, counted for the caller of before, which stays; no other word changes. */
static void test_no_caller(void)
{
    used();
    keep();
    CHECK(sets(15));
    for (unsigned operand = CALLERS; operand < 256; operand++) {
        const uint8_t tape[] = {SETCALLER, operand};
        CHECK(answers(tape, sizeof tape, (const uint8_t[]){YIRBARN_CALLER}, 1));
        kept[REFUSALS_AT + 15]++;
        CHECK(as_kept());
    }
    CHECK(tells(240) && YIRBARN_CALLER == 0x13);
}

/* Every command but SETCALLER, all of them accepted where kinds 1 and 2 are registered, entity 0 is at version 1 and
 * three more fit. */
static const uint8_t EVERY[] = {
    0x01, 3, HOLD_BOTH, 0x09, 0x0a, HOLD_BOTH, 0x03,  /* REG, GROUP, APPLY, NEW */
    HOLD_BOTH, 0x04, 0, 0, 0, 0, 1, 0, 0, 0,          /* PUT */
    HOLD_BOTH, 0x05, 0, 0, 0, 0, 1, 0, 0, 0, 0x0b, 1, /* TAKE, BAR */
    0x0d, 0x06, 0, 0, 0, 0, 1, 0, 0, 0, KILL_0,       /* EMPTY, DROP, KILL */
    0x0f, 2, 0, 0x0c, 0x08, TALLY,                    /* TRAY, RANGE, WIPE */
};

/* Runs them: the answers have the length of accepted ones. */
static bool runs_every(void)
{
    struct yirbarn_ran ran = yirbarn_run(words, NEEDED, EVERY, sizeof EVERY, out, OUT);
    return ran.stop == YIRBARN_OK && ran.commands == 22 && ran.read == sizeof EVERY && ran.written == 65;
}

/* Every other command, accepted, leaves the caller and all refusals. */
static void test_callers_stay(void)
{
    used();
    keep();
    CHECK(sets(7) && refuses() && refuses() && sets(8) && refuses());
    kept[REFUSALS_AT + 7] = 2;
    kept[REFUSALS_AT + 8] = 1;
    CHECK(as_kept());
    CHECK(runs_every());
    CHECK(words[CALLER_AT] == 8 && !memcmp(words + REFUSALS_AT, kept + REFUSALS_AT, 4 * CALLERS));
    CHECK(tells(1) && sets(7) && tells(2) && sets(0) && tells(0));
}

/* A count that is at the last number stays, and the others go on. The words may have any numbers: word 16 alone is a
 * store of before there were callers, caller 0's. */
static void test_last_refusals(void)
{
    used();
    memset(words + REFUSALS_AT, 0xff, 4 * CALLERS);
    words[REFUSALS_AT] = 5;
    words[REFUSALS_AT + 4] = 0xfffffffe;
    keep();
    CHECK(tells(5) && sets(3) && tells(0xffffffff) && refuses() && tells(0xffffffff) && as_kept());
    CHECK(sets(4) && refuses() && tells(0xffffffff) && refuses() && tells(0xffffffff));
    CHECK(sets(0) && refuses() && tells(6));
    kept[REFUSALS_AT + 4] = 0xffffffff;
    kept[REFUSALS_AT] = 6;
    CHECK(as_kept());
}

/* What stops a run comes first, whatever the operand, and is counted for nobody: 4, then 5, then 6. */
static void test_caller_stops(void)
{
    const uint8_t byte[] = {0x11, 1}, good[] = {SETCALLER, 1}, bad[] = {SETCALLER, 16};
    used();
    CHECK(sets(2));
    memset(out, 0x5a, sizeof out);
    keep();
    CHECK(yirbarn_run(words, NEEDED, byte, 1, out, 0).stop == YIRBARN_UNKNOWN);
    CHECK(yirbarn_run(words, NEEDED, byte, sizeof byte, out, OUT).stop == YIRBARN_UNKNOWN);
    CHECK(yirbarn_run(words, NEEDED, good, 1, out, 0).stop == YIRBARN_CUT);
    CHECK(yirbarn_run(words, NEEDED, good, 1, out, OUT).stop == YIRBARN_CUT);
    CHECK(yirbarn_run(words, NEEDED, good, sizeof good, out, 0).stop == YIRBARN_NOROOM);
    CHECK(yirbarn_run(words, NEEDED, bad, sizeof bad, out, 0).stop == YIRBARN_NOROOM);
    CHECK(as_kept() && all(out, 0, OUT, 0x5a));
    struct yirbarn_ran ran = yirbarn_run(words, NEEDED, bad, sizeof bad, out, 1);
    CHECK(ran.stop == YIRBARN_OK && ran.commands == 1 && ran.read == 2 && ran.written == 1);
    CHECK(out[0] == YIRBARN_CALLER && all(out, 1, OUT, 0x5a) && tells(1));
    ran = yirbarn_run(words, NEEDED, good, sizeof good, out, 1);
    CHECK(ran.stop == YIRBARN_OK && ran.written == 1 && out[0] == 0 && words[CALLER_AT] == 1);
}

/* A start sets caller 0 and no refusals, whatever the words held. */
static void test_start_clears_callers(void)
{
    used();
    CHECK(sets(9) && refuses() && words[CALLER_AT] == 9 && words[REFUSALS_AT + 9] == 1);
    CHECK(yirbarn_start(words, NEEDED, N, K) == YIRBARN_OK);
    CHECK(words[CALLER_AT] == 0 && all(words + REFUSALS_AT, 0, 4 * CALLERS, 0) && tells(0));
    fresh();
    CHECK(words[CALLER_AT] == 0 && all(words + REFUSALS_AT, 0, 4 * CALLERS, 0) && tells(0));
}

/* Roll and columns show neither caller nor refusals. */
static void test_callers_do_not_show(void)
{
    static uint8_t rolls[2][256];
    static uint32_t columns[2][4 * 2];
    used();
    size_t length = whole(rolls[0], sizeof *rolls, columns[0], 1);
    CHECK(sets(12) && refuses() && refuses() && sets(3) && refuses());
    CHECK(whole(rolls[1], sizeof *rolls, columns[1], 1) == length);
    CHECK(length == 49 && !memcmp(rolls[0], rolls[1], length));
    CHECK(!memcmp(columns[0], columns[1], sizeof *columns));
}

static void test_column(void)
{
    const uint32_t entities[] = {1, 1, 0, 1}, values[] = {6, 0, 5, 0};
    used();
    CHECK(yirbarn_column_number(words, NEEDED, 1, false, 0, 2) == YIRBARN_OK);
    CHECK(yirbarn_column_number(words, NEEDED, 1, true, 2, 2) == YIRBARN_OK);
    CHECK(yirbarn_column_number(words, NEEDED, 1, true, 0, 3) == YIRBARN_BEYOND);
    CHECK(yirbarn_column_number(words, NEEDED, 1, true, 2, 1) == YIRBARN_BEYOND);
    CHECK(yirbarn_column_number(words, NEEDED, 1, true, 0, SIZE_MAX) == YIRBARN_BEYOND);
    CHECK(yirbarn_column_number(words, NEEDED, 3, true, 0, 0) == YIRBARN_KIND);
    CHECK(yirbarn_column_number(words, NEEDED, 255, true, 9, 0) == YIRBARN_KIND);
    CHECK(yirbarn_column_number(words, NEEDED - 1, 1, false, 0, 2) == YIRBARN_UNSOUND);

    size_t at = yirbarn_column_at(words, NEEDED, 1, false, 0, 2);
    CHECK(at > 0 && at <= NEEDED - 4 && !memcmp(words + at, entities, sizeof entities));
    at = yirbarn_column_at(words, NEEDED, 1, true, 0, 2);
    CHECK(at > 0 && at <= NEEDED - 4 && !memcmp(words + at, values, sizeof values));
    CHECK(yirbarn_column_at(words, NEEDED, 1, true, 1, 2) == at + 2);
    CHECK(yirbarn_column_at(words, NEEDED, 1, true, 0, 3) == 0);
    CHECK(yirbarn_column_at(words, NEEDED, 3, true, 0, 0) == 0);
    CHECK(yirbarn_column_at(words, NEEDED - 1, 1, true, 0, 2) == 0);

}

/* A copy of a column gives this number and count. */
static bool copies(struct yirbarn_written copied, uint8_t number, size_t written)
{
    return copied.number == number && copied.written == written;
}

static void test_copy(void)
{
    const uint32_t entities[] = {1, 1, 0, 1}, values[] = {6, 0, 5, 0};
    uint32_t copy[8];
    used();
    memset(copy, 0x5a, sizeof copy);

    /* Too short, refused, no rows: told apart, and nothing is written. */
    for (size_t room = 0; room < 4; room++)
        CHECK(copies(yirbarn_column(words, NEEDED, 1, true, 0, 2, copy, room), YIRBARN_NOROOM, 0));
    CHECK(copies(yirbarn_column(words, NEEDED, 1, true, 1, 2, copy, 1), YIRBARN_NOROOM, 0));
    CHECK(copies(yirbarn_column(words, NEEDED, 1, true, 0, 3, copy, 8), YIRBARN_BEYOND, 0));
    CHECK(copies(yirbarn_column(words, NEEDED, 1, true, 2, 1, copy, 8), YIRBARN_BEYOND, 0));
    CHECK(copies(yirbarn_column(words, NEEDED, 1, true, 0, SIZE_MAX, copy, 0), YIRBARN_BEYOND, 0));
    CHECK(copies(yirbarn_column(words, NEEDED, 3, true, 0, 0, copy, 8), YIRBARN_KIND, 0));
    CHECK(copies(yirbarn_column(words, NEEDED, 255, true, 9, 0, copy, 0), YIRBARN_KIND, 0));
    CHECK(copies(yirbarn_column(words, NEEDED - 1, 1, true, 0, 2, copy, 8), YIRBARN_UNSOUND, 0));
    CHECK(copies(yirbarn_column(words, NEEDED - 1, 1, true, 0, 2, copy, 0), YIRBARN_UNSOUND, 0));
    CHECK(copies(yirbarn_column(words, NEEDED, 1, true, 1, 1, copy, 0), YIRBARN_OK, 0));
    CHECK(copies(yirbarn_column(words, NEEDED, 1, true, 2, 2, copy, 8), YIRBARN_OK, 0));
    CHECK(all(copy, 0, sizeof copy, 0x5a));

    /* An exact fit, a word more, a part. */
    CHECK(copies(yirbarn_column(words, NEEDED, 1, true, 0, 2, copy, 4), YIRBARN_OK, 4));
    CHECK(!memcmp(copy, values, sizeof values) && all(copy, sizeof values, sizeof copy, 0x5a));
    CHECK(copies(yirbarn_column(words, NEEDED, 1, false, 0, 2, copy, 5), YIRBARN_OK, 4));
    CHECK(!memcmp(copy, entities, sizeof entities) && all(copy, sizeof entities, sizeof copy, 0x5a));
    CHECK(copies(yirbarn_column(words, NEEDED, 1, true, 1, 2, copy, 8), YIRBARN_OK, 2));
    CHECK(copy[0] == 5 && copy[1] == 0 && copy[2] == 0 && copy[3] == 1 && all(copy, 16, sizeof copy, 0x5a));
}

static void test_roll(void)
{
    const uint8_t roll[] = {
        2, 0, 0, 0,                                                                  /* two live */
        0, 0, 0, 0, 1, 0, 0, 0, 1, 1, 5, 0, 0, 0, 0, 0, 0, 0,                         /* 0: 1 = 5 */
        1, 0, 0, 0, 1, 0, 0, 0, 2, 1, 6, 0, 0, 0, 0, 0, 0, 0, 2, 7, 0, 0, 0, 0, 0, 0, 0, /* 1: 1 = 6, 2 = 7 */
    };
    used();
    for (size_t room = 0; room < sizeof roll; room++) {
        struct yirbarn_rolled rolled = yirbarn_roll(words, NEEDED, out, room);
        CHECK(rolled.number == YIRBARN_NOROOM && rolled.written == 0 && all(out, 0, OUT, 0x5a));
    }
    struct yirbarn_rolled rolled = yirbarn_roll(words, NEEDED, out, sizeof roll);
    CHECK(rolled.number == YIRBARN_OK && rolled.written == sizeof roll);
    CHECK(!memcmp(out, roll, sizeof roll) && all(out, sizeof roll, OUT, 0x5a));
    rolled = yirbarn_roll(words, NEEDED - 1, out, OUT);
    CHECK(rolled.number == YIRBARN_UNSOUND && rolled.written == 0);
}

/* Two answers of a run. */
static bool same_ran(struct yirbarn_ran one, struct yirbarn_ran other)
{
    return one.stop == other.stop && one.commands == other.commands && one.read == other.read &&
           one.written == other.written;
}

/* A held run and a run of as much of the tape in the same room, from the same words: the same answer, bytes and words. */
static void test_held_run(const uint8_t *tape, size_t tape_len, size_t room)
{
    uint8_t answered[OUT];
    keep();
    memset(answered, 0x5a, sizeof answered);
    memset(out, 0x5a, sizeof out);
    struct yirbarn_ran ran = yirbarn_run(words, NEEDED, tape, tape_len, answered, room);
    struct yirbarn_ran held = yirbarn_held_run(kept, NEEDED, tape, tape_len, out, room);
    CHECK(same_ran(ran, held) && !memcmp(answered, out, OUT) && as_kept());
}

static void test_held_runs(void)
{
    for (size_t length = 0; length <= sizeof TAPE; length++) {
        fresh();
        test_held_run(TAPE, length, OUT);
        /* The same again, over what it left: most is refused now. */
        test_held_run(TAPE, length, OUT);
    }
    for (size_t room = 0; room <= sizeof ANSWERS; room++) {
        fresh();
        test_held_run(TAPE, sizeof TAPE, room);
    }
    for (int byte = 0; byte < 256; byte++) {
        const uint8_t tape[] = {(uint8_t)byte, 1, 0, 0, 0, 1, 0, 0, 0, 0};
        used();
        test_held_run(tape, sizeof tape, OUT);
    }
}

/* Number, place and copy of a column, held and not. */
static void test_held_column(uint8_t kind, bool values, size_t start, size_t end, size_t room)
{
    uint32_t one[8], other[8];
    memset(one, 0x5a, sizeof one);
    memset(other, 0x5a, sizeof other);
    CHECK(yirbarn_held_column_number(words, NEEDED, kind, values, start, end) ==
          yirbarn_column_number(words, NEEDED, kind, values, start, end));
    CHECK(yirbarn_held_column_at(words, NEEDED, kind, values, start, end) ==
          yirbarn_column_at(words, NEEDED, kind, values, start, end));
    struct yirbarn_written copied = yirbarn_column(words, NEEDED, kind, values, start, end, one, room);
    CHECK(copies(yirbarn_held_column(words, NEEDED, kind, values, start, end, other, room), copied.number,
                 copied.written));
    CHECK(!memcmp(one, other, sizeof one));
}

static void test_held_reads(void)
{
    const uint8_t kinds[] = {0, 1, 2, 3, 127, 128, 255};
    used();
    keep();
    for (size_t i = 0; i < sizeof kinds; i++)
        for (size_t start = 0; start < 4; start++)
            for (size_t end = 0; end < 4; end++)
                for (size_t room = 0; room <= 8; room++) {
                    test_held_column(kinds[i], false, start, end, room);
                    test_held_column(kinds[i], true, start, end, room);
                }
    test_held_column(1, true, 0, SIZE_MAX, 8);
    for (size_t room = 0; room <= 64; room++) {
        uint8_t rolled[OUT];
        memset(rolled, 0x5a, sizeof rolled);
        memset(out, 0x5a, sizeof out);
        struct yirbarn_rolled one = yirbarn_roll(words, NEEDED, rolled, room);
        struct yirbarn_rolled other = yirbarn_held_roll(words, NEEDED, out, room);
        CHECK(one.number == other.number && one.written == other.written && !memcmp(rolled, out, OUT));
    }
    CHECK(as_kept());
}

/* On words that hold no sound store every function says so, and writes nothing to its buffer. */
static void says_unsound(uint32_t *in, size_t length)
{
    uint32_t copy[4];
    memset(out, 0x5a, sizeof out);
    memset(copy, 0x5a, sizeof copy);
    struct yirbarn_ran ran = yirbarn_run(in, length, TAPE, sizeof TAPE, out, OUT);
    struct yirbarn_rolled rolled = yirbarn_roll(in, length, out, OUT);
    CHECK(ran.stop == YIRBARN_UNSOUND && ran.commands == 0 && ran.read == 0 && ran.written == 0);
    CHECK(rolled.number == YIRBARN_UNSOUND && rolled.written == 0);
    for (int values = 0; values < 2; values++) {
        CHECK(yirbarn_column_number(in, length, 1, values, 0, 1) == YIRBARN_UNSOUND);
        CHECK(yirbarn_column_at(in, length, 1, values, 0, 1) == 0);
        CHECK(copies(yirbarn_column(in, length, 1, values, 0, 1, copy, 4), YIRBARN_UNSOUND, 0));
    }
    CHECK(all(out, 0, OUT, 0x5a) && all(copy, 0, sizeof copy, 0x5a));
}

/* And nothing changes. */
static void test_unsound(const uint32_t *before)
{
    says_unsound(words, NEEDED);
    CHECK(!memcmp(words, before, sizeof words));
}

/* Words with a caller of 0 to 15 are sound, whatever was refused; with any other they are not. */
static void test_sound_callers(void)
{
    const uint32_t none[] = {16, 17, 255, 256, 0x10000, 0x80000000, 0xffffffff};
    used();
    memset(words + REFUSALS_AT, 0xa5, 4 * CALLERS);
    for (uint32_t caller = 0; caller < CALLERS; caller++) {
        words[CALLER_AT] = caller;
        CHECK(yirbarn_column_number(words, NEEDED, 1, false, 0, 1) == YIRBARN_OK);
        CHECK(yirbarn_roll(words, NEEDED, out, OUT).number == YIRBARN_OK);
        CHECK(tells(0xa5a5a5a5) && refuses() && tells(0xa5a5a5a6));
    }
    for (size_t i = 0; i < sizeof none / sizeof *none; i++) {
        words[CALLER_AT] = none[i];
        keep();
        test_unsound(kept);
    }
}

/* Where the words have the rule, 0 the older and 1 the newer, the bytes of a value, and how many are staged and excluded
 * (docs/WORDS.md). */
enum { RULE_AT = 10, VALUE_BYTES_AT = 11, STAGED_AT = 3, EXCLUDED_AT = 4 };

/* The bytes of a value, and what they cannot be. */
static const size_t WIDTHS[] = {8, 16};
static const size_t NO_WIDTHS[] = {0, 1, 4, 7, 9, 12, 15, 17, 24, 32, 0x100000008, 0x100000010, SIZE_MAX};
enum { NO_WIDTHS_LEN = sizeof NO_WIDTHS / sizeof *NO_WIDTHS };

/* A start that is refused, told either width and either rule, changes no word. NEEDED words are too few for sixteen. */
static void test_start_with_refused(void)
{
    memset(words, 0xa5, sizeof words);
    for (int i = 0; i < 4; i++) {
        size_t width = WIDTHS[i / 2];
        bool newer = i % 2;
        CHECK(yirbarn_start_with(words, NEEDED, 0, K, width, newer) == YIRBARN_SIZE);
        CHECK(yirbarn_start_with(words, NEEDED, 4097, K, width, newer) == YIRBARN_SIZE);
        CHECK(yirbarn_start_with(words, NEEDED, N, 0, width, newer) == YIRBARN_SIZE);
        CHECK(yirbarn_start_with(words, NEEDED, N, 129, width, newer) == YIRBARN_SIZE);
        CHECK(yirbarn_start_with(words, 0, SIZE_MAX, SIZE_MAX, width, newer) == YIRBARN_SIZE);
        CHECK(yirbarn_start_with(words, NEEDED - 1, N, K, width, newer) == YIRBARN_SHORT);
        CHECK(yirbarn_start_with(words, 0, N, K, width, newer) == YIRBARN_SHORT);
    }
    CHECK(yirbarn_start_with(words, NEEDED, N, K, 16, false) == YIRBARN_SHORT);
    CHECK(all(words, 0, sizeof words, 0xa5));
}

/* Any other width is refused by 1, whatever else there is to refuse, and no word changes; no words are needed. */
static void test_no_widths(void)
{
    memset(words, 0xa5, sizeof words);
    for (size_t i = 0; i < 2 * NO_WIDTHS_LEN; i++) {
        size_t width = NO_WIDTHS[i / 2];
        bool newer = i % 2;
        CHECK(yirbarn_start_with(words, NEEDED, N, K, width, newer) == YIRBARN_SIZE);
        CHECK(yirbarn_start_with(words, 0, N, K, width, newer) == YIRBARN_SIZE);
        CHECK(yirbarn_start_with(words, NEEDED, 1, 1, width, newer) == YIRBARN_SIZE);
        CHECK(yirbarn_start_with(words, 0, 4097, 0, width, newer) == YIRBARN_SIZE);
        CHECK(yirbarn_words_needed_with(N, K, width) == 0 && yirbarn_words_needed_with(1, 1, width) == 0);
        CHECK(yirbarn_words_needed_with(4096, 128, width) == 0 && yirbarn_words_needed_with(0, 0, width) == 0);
    }
    CHECK(all(words, 0, sizeof words, 0xa5));
}

static void test_words_needed_with(void)
{
    CHECK(yirbarn_words_needed_with(N, K, 8) == NEEDED && yirbarn_words_needed_with(N, K, 16) == 6208);
    CHECK(yirbarn_words_needed_with(1, 1, 8) == 1054 && yirbarn_words_needed_with(1, 1, 16) == 1056);
    CHECK(yirbarn_words_needed_with(4096, 1, 8) == 91144 && yirbarn_words_needed_with(4096, 1, 16) == 99336);
    CHECK(yirbarn_words_needed_with(1, 128, 8) == 2832 && yirbarn_words_needed_with(1, 128, 16) == 3088);
    CHECK(yirbarn_words_needed_with(4096, 128, 8) == 3213312 && yirbarn_words_needed_with(4096, 128, 16) == 4261888);
    for (size_t i = 0; i < 2; i++) {
        CHECK(yirbarn_words_needed_with(0, 1, WIDTHS[i]) == 0 && yirbarn_words_needed_with(4097, 1, WIDTHS[i]) == 0);
        CHECK(yirbarn_words_needed_with(1, 0, WIDTHS[i]) == 0 && yirbarn_words_needed_with(1, 129, WIDTHS[i]) == 0);
        CHECK(yirbarn_words_needed_with(SIZE_MAX, SIZE_MAX, WIDTHS[i]) == 0);
    }
}

/* The start of before for eight bytes, else the other one, under the older rule. */
static uint8_t start_older(uint32_t *in, size_t length, size_t n, size_t k, size_t width)
{
    return width == 8 ? yirbarn_start(in, length, n, k) : yirbarn_start_with(in, length, n, k, width, false);
}

/* As many words as are needed, and one fewer. Told 8 and false, a start leaves the very words that yirbarn_start leaves;
 * told true, the same but for the rule. Words past them stay. */
static void starts_at(size_t n, size_t k, size_t width)
{
    size_t needed = yirbarn_words_needed_with(n, k, width), bytes = 4 * (needed + GUARD);
    uint32_t *plain = malloc(bytes), *told = malloc(bytes);
    if (!plain || !told) {
        perror("test.c: words for a start");
        exit(1);
    }
    memset(plain, 0xa5, bytes);
    CHECK(start_older(plain, needed, n, k, width) == YIRBARN_OK);
    CHECK(plain[RULE_AT] == 0 && plain[VALUE_BYTES_AT] == width);
    for (uint32_t newer = 0; newer < 2; newer++) {
        memset(told, 0xa5, bytes);
        CHECK(yirbarn_start_with(told, needed - 1, n, k, width, newer) == YIRBARN_SHORT && all(told, 0, bytes, 0xa5));
        CHECK(yirbarn_start_with(told, needed, n, k, width, newer) == YIRBARN_OK && told[RULE_AT] == newer);
        CHECK(yirbarn_run(told, needed, TAPE, 0, out, 0).stop == YIRBARN_OK);
        CHECK(yirbarn_run(told, needed - 1, TAPE, 0, out, 0).stop == YIRBARN_UNSOUND);
        plain[RULE_AT] = newer;
        CHECK(!memcmp(told, plain, bytes) && all(told, 4 * needed, bytes, 0xa5));
        /* More words than are needed. */
        memset(told, 0xa5, bytes);
        CHECK(yirbarn_start_with(told, needed + GUARD, n, k, width, newer) == YIRBARN_OK && !memcmp(told, plain, bytes));
    }
    free(plain);
    free(told);
}

static void test_start_with(void)
{
    const size_t entities[] = {1, N, 4096}, kinds[] = {1, K, 128};
    for (size_t i = 0; i < 9; i++) {
        starts_at(entities[i / 3], kinds[i % 3], 8);
        starts_at(entities[i / 3], kinds[i % 3], 16);
    }
}

/* Sets of the kinds 1 to 4: kind k is bit k. */
enum { K1 = 1 << 1, K2 = 1 << 2, K3 = 1 << 3, K4 = 1 << 4, PAIR = K1 | K2, THREE = PAIR | K3, FOUR = THREE | K4 };
enum { LAST_KIND = 4, ALL_SETS = 16, MOST = 16 };

/* A layout of one family, its groups smallest first and then 0; and the kinds of each entity, by its index. */
struct example {
    uint8_t groups[4];
    size_t entities;
    uint8_t kinds[MOST];
};

/* Document 01's example, whose larger group has two kinds more; and the same entities where it has one more. */
static const struct example RING_OF_TWO = {{PAIR, FOUR}, 4, {THREE, FOUR, PAIR, K1}};
static const struct example RING_OF_ONE = {{PAIR, THREE}, 4, {THREE, FOUR, PAIR, K1}};

static size_t size_of(uint8_t set)
{
    size_t kinds = 0;
    for (uint8_t kind = 1; kind <= LAST_KIND; kind++)
        kinds += set >> kind & 1;
    return kinds;
}

/* Writes a command of so many bytes for each kind of the set, zeros behind the kind; gives where the next stands. */
static uint8_t *each(uint8_t *to, uint8_t command, size_t length, uint8_t set)
{
    for (uint8_t kind = 1; kind <= LAST_KIND; kind++) {
        if (!(set >> kind & 1))
            continue;
        memset(to, 0, length);
        to[0] = command;
        to[1] = kind;
        to += length;
    }
    return to;
}

static uint8_t *hold(uint8_t *to, uint8_t set)
{
    return each(to, 0x02, 10, set);
}

/* Registers the kinds, applies the layout and makes the entities, in an empty store. */
static void fill(const struct example *example)
{
    uint8_t tape[1024], *to = each(tape, 0x01, 2, FOUR);
    for (const uint8_t *group = example->groups; *group; group++) {
        to = hold(to, *group);
        *to++ = 0x09;
    }
    *to++ = 0x0a;
    for (size_t i = 0; i < example->entities; i++) {
        to = hold(to, example->kinds[i]);
        *to++ = 0x03;
    }
    struct yirbarn_ran ran = yirbarn_run(words, NEEDED, tape, to - tape, out, OUT);
    CHECK(ran.stop == YIRBARN_OK && ran.read == (size_t)(to - tape) && words[REFUSALS_AT] == 0);
}

static void filled(const struct example *example, bool newer)
{
    memset(words, 0xa5, sizeof words);
    CHECK(yirbarn_start_with(words, NEEDED, N, K, 8, newer) == YIRBARN_OK);
    fill(example);
}

/* What RANGE tells: whether there is one, from where, and before where it ends. */
struct range {
    bool found;
    uint32_t start, end;
};

static bool same(struct range one, struct range other)
{
    return one.found == other.found && one.start == other.start && one.end == other.end;
}

static uint32_t number_at(const uint8_t *bytes)
{
    return bytes[0] | bytes[1] << 8 | bytes[2] << 16 | (uint32_t)bytes[3] << 24;
}

/* Asks for hand and bar. Ten bytes of answer, nine of them zeros where there is none, and both lists are empty then. */
static struct range ask(uint8_t hand, uint8_t barred)
{
    uint8_t tape[64], *to = each(hold(tape, hand), 0x0b, 2, barred);
    size_t listed = size_of(hand) + size_of(barred);
    *to++ = 0x0c;
    struct yirbarn_ran ran = yirbarn_run(words, NEEDED, tape, to - tape, out, OUT);
    CHECK(ran.stop == YIRBARN_OK && ran.commands == listed + 1 && ran.written == listed + 10);
    CHECK(words[STAGED_AT] == 0 && words[EXCLUDED_AT] == 0 && all(out, 0, listed + 1, 0));
    const uint8_t *told = out + listed + 1;
    CHECK(told[0] == 1 || all(told, 0, 9, 0));
    return (struct range){told[0] == 1, number_at(told + 1), number_at(told + 5)};
}

static uint32_t holders(const struct example *example, uint8_t set)
{
    uint32_t count = 0;
    for (size_t i = 0; i < example->entities; i++)
        count += (example->kinds[i] & set) == set;
    return count;
}

/* What RANGE is to tell (docs/COMMANDS.md), by the layout and the entities' own kinds. */
static struct range expected(const struct example *example, bool newer, uint8_t hand, uint8_t barred)
{
    const struct range none = {false, 0, 0};
    if (newer && size_of(barred) > 1)
        return none;
    if (!barred && size_of(hand) == 1)
        return (struct range){true, 0, holders(example, hand)};
    for (const uint8_t *group = example->groups; *group; group++) {
        if (*group != hand)
            continue;
        if (!barred)
            return (struct range){true, 0, holders(example, hand)};
        if (barred == (group[1] & ~hand))
            return (struct range){true, holders(example, group[1]), holders(example, hand)};
    }
    return none;
}

/* The entities with all of the hand and, of the barred, none under the newer rule, under the older not all; as bits. */
static uint32_t described(const struct example *example, bool newer, uint8_t hand, uint8_t barred)
{
    uint32_t entities = 0;
    for (size_t i = 0; i < example->entities; i++) {
        uint8_t kinds = example->kinds[i], both = kinds & barred;
        bool without = newer ? both == 0 : both != barred;
        if ((kinds & hand) == hand && (without || !barred))
            entities |= 1u << i;
    }
    return entities;
}

static const uint32_t *rows_of(uint8_t kind, struct range range)
{
    size_t at = yirbarn_column_at(words, NEEDED, kind, false, range.start, range.end);
    CHECK(at > 0);
    return words + at;
}

/* The range has these entities, once each, in every column of the hand, the same at the same place. */
static bool shows(struct range range, uint8_t hand, uint32_t entities)
{
    size_t length = range.end - range.start;
    const uint32_t *rows = NULL;
    for (uint8_t kind = 1; kind <= LAST_KIND; kind++) {
        if (!(hand >> kind & 1))
            continue;
        const uint32_t *others = rows_of(kind, range);
        if (rows && memcmp(rows, others, 8 * length))
            return false;
        rows = others;
    }
    for (size_t i = 0; rows && i < length; i++) {
        uint32_t index = rows[2 * i], version = rows[2 * i + 1];
        if (index >= MOST || version != 1 || !(entities >> index & 1))
            return false;
        entities &= ~(1u << index);
    }
    return rows && !entities;
}

static bool answers_right(const struct example *example, bool newer, uint8_t hand, uint8_t barred)
{
    struct range range = ask(hand, barred);
    if (!same(range, expected(example, newer, hand, barred)))
        return false;
    return !range.found || shows(range, hand, described(example, newer, hand, barred));
}

/* A hand and a bar, and what RANGE tells under each rule. */
struct asked {
    uint8_t hand, barred;
    struct range older, newer;
};

static void test_asked(const struct example *example, const struct asked *asked, size_t count)
{
    for (int newer = 0; newer < 2; newer++) {
        filled(example, newer);
        for (size_t i = 0; i < count; i++) {
            CHECK(same(ask(asked[i].hand, asked[i].barred), newer ? asked[i].newer : asked[i].older));
            CHECK(answers_right(example, newer, asked[i].hand, asked[i].barred));
        }
    }
}

#define NONE {false, 0, 0}

/* 01's own questions, then those for the ring of one kind. */
static void test_range_examples(void)
{
    const struct asked of_two[] = {
        {PAIR, 0, {true, 0, 3}, {true, 0, 3}},
        {FOUR, 0, {true, 0, 1}, {true, 0, 1}},
        {K1, 0, {true, 0, 4}, {true, 0, 4}},
        {K1 | K3, 0, NONE, NONE},
        {PAIR, K3 | K4, {true, 1, 3}, NONE},
        {PAIR, K3, NONE, NONE},
        {0, 0, NONE, NONE},
    };
    const struct asked of_one[] = {
        {PAIR, 0, {true, 0, 3}, {true, 0, 3}},
        {THREE, 0, {true, 0, 2}, {true, 0, 2}},
        {PAIR, K3, {true, 2, 3}, {true, 2, 3}},
        {PAIR, K4, NONE, NONE},
        {PAIR, K3 | K4, NONE, NONE},
    };
    test_asked(&RING_OF_TWO, of_two, sizeof of_two / sizeof *of_two);
    test_asked(&RING_OF_ONE, of_one, sizeof of_one / sizeof *of_one);
}

/* An entity with each set of the four kinds. */
#define EACH_SET \
    {THREE, FOUR, PAIR, K1, 0, K2 | K4, PAIR | K4, K3, K1 | K3, K2, K3 | K4, FOUR - K2, K2 | K3, K4, K1 | K4, FOUR - K1}

/* Every hand and every bar of the four kinds, under both rules, for rings of one kind and of more. */
static void test_every_range(void)
{
    const struct example layouts[] = {
        {{PAIR, FOUR}, MOST, EACH_SET},
        {{PAIR, THREE}, MOST, EACH_SET},
        {{PAIR, THREE, FOUR}, MOST, EACH_SET},
        {{K3 | K4, FOUR - K2}, MOST, EACH_SET},
        {{FOUR}, MOST, EACH_SET},
        {{0}, MOST, EACH_SET},
    };
    for (size_t i = 0; i < 2 * sizeof layouts / sizeof *layouts; i++) {
        filled(&layouts[i / 2], i % 2);
        for (unsigned asked = 0; asked < ALL_SETS * ALL_SETS; asked++)
            CHECK(answers_right(&layouts[i / 2], i % 2, asked / ALL_SETS << 1, asked % ALL_SETS << 1));
        CHECK(words[RULE_AT] == i % 2);
    }
}

/* Without a bar RANGE tells the same under both rules. */
static void test_range_without_bar(void)
{
    const struct example *examples[] = {&RING_OF_TWO, &RING_OF_ONE};
    struct range older[ALL_SETS];
    for (size_t i = 0; i < 2; i++) {
        filled(examples[i], false);
        for (unsigned set = 0; set < ALL_SETS; set++)
            older[set] = ask(set << 1, 0);
        filled(examples[i], true);
        for (unsigned set = 0; set < ALL_SETS; set++)
            CHECK(same(ask(set << 1, 0), older[set]));
        CHECK(older[PAIR >> 1].found && older[K1 >> 1].found && !older[0].found);
    }
}

/* All commands, accepted and refused, leave the rule; and the words are the same under both, but for it. */
static void test_rule_stays(void)
{
    for (uint32_t newer = 0; newer < 2; newer++) {
        filled(&RING_OF_TWO, newer);
        CHECK(ask(PAIR, K3 | K4).found == !newer && words[RULE_AT] == newer);
        CHECK(sets(3) && refuses() && runs_every() && words[RULE_AT] == newer);
        if (!newer)
            keep();
    }
    kept[RULE_AT] = 1;
    CHECK(as_kept());
}

/* Only another start over the words changes the rule, and a refused one does not. */
static void test_another_start(void)
{
    filled(&RING_OF_TWO, true);
    keep();
    CHECK(yirbarn_start(words, NEEDED - 1, N, K) == YIRBARN_SHORT);
    CHECK(yirbarn_start(words, NEEDED, N, 129) == YIRBARN_SIZE);
    CHECK(yirbarn_start_with(words, NEEDED - 1, N, K, 8, false) == YIRBARN_SHORT);
    CHECK(yirbarn_start_with(words, NEEDED, 0, K, 8, false) == YIRBARN_SIZE && as_kept());
    CHECK(yirbarn_start(words, NEEDED, N, K) == YIRBARN_OK && words[RULE_AT] == 0);
    fill(&RING_OF_TWO);
    CHECK(ask(PAIR, K3 | K4).found);
    CHECK(yirbarn_start_with(words, NEEDED, N, K, 8, true) == YIRBARN_OK && words[RULE_AT] == 1);
    fill(&RING_OF_TWO);
    CHECK(!ask(PAIR, K3 | K4).found);
    CHECK(yirbarn_start_with(words, NEEDED, N, K, 8, false) == YIRBARN_OK && words[RULE_AT] == 0);
    fill(&RING_OF_TWO);
    CHECK(ask(PAIR, K3 | K4).found);
}

/* Roll and columns do not show the rule. */
static void test_rule_does_not_show(void)
{
    static uint8_t rolls[2][256];
    static uint32_t columns[2][4 * 2 * 3];
    filled(&RING_OF_TWO, false);
    size_t length = whole(rolls[0], sizeof *rolls, columns[0], 3);
    filled(&RING_OF_TWO, true);
    CHECK(whole(rolls[1], sizeof *rolls, columns[1], 3) == length);
    CHECK(length == 4 + 9 * (4 + 10) && !memcmp(rolls[0], rolls[1], length));
    CHECK(!memcmp(columns[0], columns[1], sizeof *columns));
}

/* Words with 0 or 1 for the rule are sound, and read by it, whichever start made them; with any other they are not. */
static void test_sound_rules(void)
{
    const uint32_t none[] = {2, 3, 255, 256, 257, 0x10000, 0x10001, 0x80000000, 0x80000001, 0xffffffff};
    for (int newer = 0; newer < 2; newer++) {
        filled(&RING_OF_TWO, newer);
        for (size_t i = 0; i < sizeof none / sizeof *none; i++) {
            words[RULE_AT] = none[i];
            keep();
            test_unsound(kept);
        }
        for (uint32_t rule = 0; rule < 2; rule++) {
            words[RULE_AT] = rule;
            CHECK(yirbarn_column_number(words, NEEDED, 1, false, 0, 4) == YIRBARN_OK);
            CHECK(yirbarn_roll(words, NEEDED, out, OUT).number == YIRBARN_OK);
            CHECK(ask(PAIR, K3 | K4).found == !rule && words[RULE_AT] == rule);
        }
    }
}

/* --- Values of eight bytes and of sixteen. --- */

/* A store of either width for N and K: the bytes of its values, its words, and how many of them are lent. */
enum { WIDE_NEEDED = 6208 };
static uint32_t wide[WIDE_NEEDED + GUARD], wide_kept[WIDE_NEEDED + GUARD];
static size_t width, lent;

static void fresh_at(size_t bytes)
{
    width = bytes;
    lent = bytes == 16 ? WIDE_NEEDED : NEEDED;
    memset(wide, 0xa5, sizeof wide);
    memset(out, 0x5a, sizeof out);
    CHECK(yirbarn_start_with(wide, lent, N, K, width, false) == YIRBARN_OK && wide[VALUE_BYTES_AT] == width);
}

static void keep_wide(void)
{
    memcpy(wide_kept, wide, sizeof wide);
}

static bool wide_as_kept(void)
{
    return !memcmp(wide, wide_kept, sizeof wide);
}

/* Writes the value with this number, 0 to 15: no two bytes of all sixteen values are the same. */
static uint8_t *value(uint8_t *to, uint8_t number)
{
    for (size_t i = 0; i < width; i++)
        *to++ = (uint8_t)(16 * number + i);
    return to;
}

static uint8_t *hold_value(uint8_t *to, uint8_t kind, uint8_t number)
{
    *to++ = 0x02;
    *to++ = kind;
    return value(to, number);
}

static uint8_t *command(uint8_t *to, const uint8_t *bytes, size_t length)
{
    memcpy(to, bytes, length);
    return to + length;
}

#define COMMAND(to, ...) command((to), (const uint8_t[]){__VA_ARGS__}, sizeof((const uint8_t[]){__VA_ARGS__}))

/* Document 01's tape, with values of the width for 5, 6 and 7; its answers are ANSWERS at either width. */
static size_t write_tape(uint8_t *tape)
{
    uint8_t *to = COMMAND(tape, 0x01, 1, 0x01, 2);
    to = hold_value(hold_value(to, 1, 0), 2, 0);
    to = COMMAND(to, 0x09, 0x0a);
    to = COMMAND(hold_value(to, 1, 5), 0x03);
    to = COMMAND(hold_value(hold_value(to, 1, 6), 2, 7), 0x03);
    to = COMMAND(hold_value(hold_value(to, 1, 0), 2, 0), 0x0c);
    return (size_t)(to - tape);
}

static bool wide_answers(const uint8_t *tape, size_t tape_len, const uint8_t *expected, size_t expected_len)
{
    struct yirbarn_ran ran = yirbarn_run(wide, lent, tape, tape_len, out, OUT);
    return ran.stop == YIRBARN_OK && ran.read == tape_len && ran.written == expected_len &&
           !memcmp(out, expected, expected_len);
}

static void used_at(size_t bytes)
{
    uint8_t tape[256];
    fresh_at(bytes);
    CHECK(wide_answers(tape, write_tape(tape), ANSWERS, sizeof ANSWERS));
    memset(out, 0x5a, sizeof out);
}

/* Each length of the tape, and each room: what is done is done as in the whole run. */
static void test_cut_at(size_t bytes)
{
    uint8_t tape[256];
    fresh_at(bytes);
    size_t length = write_tape(tape);
    CHECK(length == 23 + 7 * bytes);
    for (size_t cut = 0; cut <= length; cut++) {
        fresh_at(bytes);
        struct yirbarn_ran ran = yirbarn_run(wide, lent, tape, cut, out, OUT);
        CHECK(ran.stop == (ran.read < cut ? YIRBARN_CUT : YIRBARN_OK));
        CHECK(!memcmp(out, ANSWERS, ran.written) && all(out, ran.written, OUT, 0x5a));
    }
    for (size_t room = 0; room < sizeof ANSWERS; room++) {
        fresh_at(bytes);
        struct yirbarn_ran ran = yirbarn_run(wide, lent, tape, length, out, room);
        CHECK(ran.stop == YIRBARN_NOROOM && ran.written <= room);
        CHECK(!memcmp(out, ANSWERS, ran.written) && all(out, ran.written, OUT, 0x5a));
        CHECK(wide_answers(tape + ran.read, length - ran.read, ANSWERS + ran.written, sizeof ANSWERS - ran.written));
    }
    CHECK(all(wide, 4 * lent, sizeof wide, 0xa5));
}

/* HOLD takes 1 + width bytes: with one fewer it is cut, and behind them comes the next command. */
static void test_hold_at(size_t bytes)
{
    uint8_t tape[32];
    const uint8_t reg[] = {0x01, 1}, told[] = {0, 0, 0, 0, 0, 0};
    fresh_at(bytes);
    CHECK(wide_answers(reg, sizeof reg, (const uint8_t[]){0, 1}, 2));
    keep_wide();
    uint8_t *to = hold_value(tape, 1, 15);
    *to++ = TALLY;
    for (size_t length = 1; length < 2 + bytes; length++) {
        struct yirbarn_ran ran = yirbarn_run(wide, lent, tape, length, out, OUT);
        CHECK(ran.stop == YIRBARN_CUT && ran.commands == 0 && ran.read == 0 && wide_as_kept());
    }
    CHECK(to - tape == (ptrdiff_t)(3 + bytes) && wide_answers(tape, 3 + bytes, told, sizeof told));
}

/* Registers sixteen kinds in a store for two entities, in the same words, and holds each with the value of its number. */
static void hold_sixteen(void)
{
    uint8_t tape[1024], *to = tape;
    lent = yirbarn_words_needed_with(2, 16, width);
    CHECK(yirbarn_start_with(wide, lent, 2, 16, width, false) == YIRBARN_OK);
    for (uint8_t kind = 0; kind < 16; kind++)
        to = COMMAND(to, 0x01, kind);
    for (int i = 0; i < 2; i++) {
        for (uint8_t kind = 16; kind-- > 0;)
            to = hold_value(to, kind, kind);
        if (i == 0)
            *to++ = 0x03;
    }
    struct yirbarn_ran ran = yirbarn_run(wide, lent, tape, (size_t)(to - tape), out, OUT);
    CHECK(ran.stop == YIRBARN_OK && ran.commands == 49 && ran.written == 16 * 2 + 16 + 9 + 16);
}

/* TAKE of sixteen kinds, held and then not. One byte short it has no room, of a dead entity too. */
static void test_take_at(size_t bytes, size_t length)
{
    const uint8_t take[] = {0x05, 0, 0, 0, 0, 1, 0, 0, 0}, none[] = {0x05, 0, 0, 0, 0, 2, 0, 0, 0};
    uint8_t taken[512], told[512], *to = told;
    fresh_at(bytes);
    hold_sixteen();
    memset(taken, 0x5a, sizeof taken);
    CHECK(yirbarn_run(wide, lent, none, sizeof none, taken, length - 1).stop == YIRBARN_NOROOM);
    CHECK(yirbarn_run(wide, lent, take, sizeof take, taken, length - 1).stop == YIRBARN_NOROOM);
    CHECK(all(taken, 0, sizeof taken, 0x5a));
    struct yirbarn_ran ran = yirbarn_run(wide, lent, none, sizeof none, taken, length);
    CHECK(ran.stop == YIRBARN_OK && ran.written == 1 && taken[0] == YIRBARN_DEAD);
    ran = yirbarn_run(wide, lent, take, sizeof take, taken, length);
    *to++ = 0;
    for (uint8_t kind = 16; kind-- > 0;) {
        *to++ = 1;
        to = value(to, kind);
    }
    CHECK(ran.stop == YIRBARN_OK && ran.written == length && to - told == (ptrdiff_t)length);
    CHECK(!memcmp(taken, told, length) && all(taken, length, sizeof taken, 0x5a));
}

/* TAKE of a kind that the entity does not hold: as many zeros as a value has bytes, behind a 0. */
static void test_take_none_at(size_t bytes)
{
    uint8_t tape[64], zeros[32] = {0};
    used_at(bytes);
    uint8_t *to = COMMAND(hold_value(tape, 2, 1), 0x05, 0, 0, 0, 0, 1, 0, 0, 0);
    CHECK(wide_answers(tape, (size_t)(to - tape), zeros, 1 + 1 + 1 + bytes));
}

/* Word i of the value with this number. */
static uint32_t value_word(uint8_t number, size_t i)
{
    uint8_t bytes[16];
    value(bytes, number);
    return number_at(bytes + 4 * i);
}

/* These words are the two values, one after the other. */
static bool are_values(const uint32_t *in, uint8_t first, uint8_t second)
{
    size_t each = width / 4;
    for (size_t i = 0; i < each; i++)
        if (in[i] != value_word(first, i) || in[each + i] != value_word(second, i))
            return false;
    return true;
}

/* A column in place and copied: two words an entity, width / 4 a value. */
static void test_column_at(size_t bytes)
{
    const uint32_t entities[] = {1, 1, 0, 1};
    uint32_t copy[9];
    size_t each = bytes / 4;
    used_at(bytes);
    size_t at = yirbarn_column_at(wide, lent, 1, false, 0, 2);
    CHECK(at > 0 && at <= lent - 4 && !memcmp(wide + at, entities, sizeof entities));
    at = yirbarn_column_at(wide, lent, 1, true, 0, 2);
    CHECK(at > 0 && at <= lent - 2 * each && are_values(wide + at, 6, 5));
    CHECK(yirbarn_column_at(wide, lent, 1, true, 1, 2) == at + each);
    CHECK(yirbarn_column_at(wide, lent, 1, true, 0, 3) == 0 && yirbarn_column_at(wide, lent, 3, true, 0, 0) == 0);
    memset(copy, 0x5a, sizeof copy);
    for (size_t room = 0; room < 2 * each; room++)
        CHECK(copies(yirbarn_column(wide, lent, 1, true, 0, 2, copy, room), YIRBARN_NOROOM, 0));
    CHECK(all(copy, 0, sizeof copy, 0x5a));
    CHECK(copies(yirbarn_column(wide, lent, 1, true, 0, 2, copy, 2 * each), YIRBARN_OK, 2 * each));
    CHECK(are_values(copy, 6, 5) && all(copy, 8 * each, sizeof copy, 0x5a));
    CHECK(copies(yirbarn_column(wide, lent, 1, false, 0, 2, copy, 4), YIRBARN_OK, 4));
    CHECK(!memcmp(copy, entities, sizeof entities));
    CHECK(copies(yirbarn_column(wide, lent, 1, true, 0, 3, copy, 9), YIRBARN_BEYOND, 0));
}

/* A value moves and is replaced as a whole: KILL puts the last row in the gap, PUT writes over one. */
static void test_moves_at(size_t bytes)
{
    const uint8_t made[] = {
        0, 1, 0, 0, 0, 0, 0, 0, 1, 0, 0, 0, 0, 0, 1, 0, 0, 0, 1, 0, 0, 0, 0, 0, 2, 0, 0, 0, 1, 0, 0, 0,
    };
    const uint8_t kill[] = {KILL_0};
    uint8_t tape[128], *to = COMMAND(tape, 0x01, 1);
    fresh_at(bytes);
    for (uint8_t number = 1; number <= 3; number++)
        to = COMMAND(hold_value(to, 1, number), 0x03);
    CHECK(wide_answers(tape, (size_t)(to - tape), made, sizeof made));
    size_t at = yirbarn_column_at(wide, lent, 1, true, 0, 3);
    CHECK(at > 0 && are_values(wide + at, 1, 2) && are_values(wide + at + bytes / 4, 2, 3));
    CHECK(wide_answers(kill, sizeof kill, (const uint8_t[]){0}, 1) && are_values(wide + at, 3, 2));
    to = COMMAND(hold_value(tape, 1, 14), 0x04, 1, 0, 0, 0, 1, 0, 0, 0);
    CHECK(wide_answers(tape, (size_t)(to - tape), (const uint8_t[]){0, 0}, 2) && are_values(wide + at, 3, 14));
    CHECK(yirbarn_column_at(wide, lent, 1, true, 0, 2) == at);
}

/* 4 bytes, 9 for each entity, 1 + width for each component; and every room. */
static void test_roll_at(size_t bytes, size_t length)
{
    uint8_t roll[128], *to = COMMAND(roll, 2, 0, 0, 0, 0, 0, 0, 0, 1, 0, 0, 0, 1, 1);
    used_at(bytes);
    to = COMMAND(value(to, 5), 1, 0, 0, 0, 1, 0, 0, 0, 2, 1);
    to = COMMAND(value(to, 6), 2);
    to = value(to, 7);
    CHECK(to - roll == (ptrdiff_t)length);
    for (size_t room = 0; room < length; room++) {
        struct yirbarn_rolled rolled = yirbarn_roll(wide, lent, out, room);
        CHECK(rolled.number == YIRBARN_NOROOM && rolled.written == 0 && all(out, 0, OUT, 0x5a));
    }
    struct yirbarn_rolled rolled = yirbarn_roll(wide, lent, out, length);
    CHECK(rolled.number == YIRBARN_OK && rolled.written == length);
    CHECK(!memcmp(out, roll, length) && all(out, length, OUT, 0x5a));
}

static void test_both_widths(void)
{
    for (size_t i = 0; i < 2; i++) {
        test_cut_at(WIDTHS[i]);
        test_hold_at(WIDTHS[i]);
        test_take_none_at(WIDTHS[i]);
        test_column_at(WIDTHS[i]);
        test_moves_at(WIDTHS[i]);
    }
    test_take_at(8, 145);
    test_take_at(16, 273);
    test_roll_at(8, 49);
    test_roll_at(16, 73);
}

/* The functions for held words, at sixteen bytes: a run of each length, and all that reads. */
static void test_held_wide(void)
{
    uint8_t tape[256], answered[OUT];
    uint32_t one[8], other[8];
    fresh_at(16);
    size_t length = write_tape(tape);
    for (size_t cut = 0; cut <= length; cut++) {
        fresh_at(16);
        keep_wide();
        memset(answered, 0x5a, sizeof answered);
        struct yirbarn_ran ran = yirbarn_run(wide, lent, tape, cut, out, OUT);
        CHECK(same_ran(ran, yirbarn_held_run(wide_kept, lent, tape, cut, answered, OUT)));
        CHECK(!memcmp(out, answered, OUT) && wide_as_kept());
    }
    CHECK(yirbarn_held_column_number(wide, lent, 1, true, 0, 3) == YIRBARN_BEYOND);
    CHECK(yirbarn_held_column_at(wide, lent, 1, true, 0, 2) == yirbarn_column_at(wide, lent, 1, true, 0, 2));
    CHECK(copies(yirbarn_column(wide, lent, 1, true, 0, 2, one, 8), YIRBARN_OK, 8));
    CHECK(copies(yirbarn_held_column(wide, lent, 1, true, 0, 2, other, 8), YIRBARN_OK, 8));
    CHECK(copies(yirbarn_held_column(wide, lent, 1, true, 0, 2, other, 7), YIRBARN_NOROOM, 0));
    CHECK(!memcmp(one, other, sizeof one));
    CHECK(yirbarn_roll(wide, lent, out, OUT).written == 73);
    CHECK(yirbarn_held_roll(wide, lent, answered, OUT).written == 73 && !memcmp(out, answered, 73));
}

/* No command changes the width, nor does a refused start; another start does. */
static void test_width_stays(void)
{
    const uint8_t tape[] = {0x08, TALLY, SETCALLER, 3, 0x0d, 0x0a, 0x01, 128};
    used_at(16);
    CHECK(wide_answers(tape, sizeof tape, (const uint8_t[]){0, 0, 0, 0, 0, 0, 0, 0, 0, YIRBARN_KIND}, 10));
    CHECK(wide[VALUE_BYTES_AT] == 16);
    CHECK(yirbarn_start(wide, lent, N, 129) == YIRBARN_SIZE && wide[VALUE_BYTES_AT] == 16);
    CHECK(yirbarn_start_with(wide, lent, N, K, 9, false) == YIRBARN_SIZE && wide[VALUE_BYTES_AT] == 16);
    CHECK(yirbarn_start(wide, lent, N, K) == YIRBARN_OK && wide[VALUE_BYTES_AT] == 8);
    CHECK(yirbarn_start_with(wide, lent, N, K, 16, true) == YIRBARN_OK && wide[VALUE_BYTES_AT] == 16);
}

/* No sound store has another number in the width's word. */
static void test_damaged_width(void)
{
    const uint32_t none[] = {0, 1, 4, 7, 9, 12, 15, 17, 32, 264, 0x80000010, 0xffffffff};
    for (size_t i = 0; i < 4; i++) {
        if (i % 2)
            used_at(WIDTHS[i / 2]);
        else
            fresh_at(WIDTHS[i / 2]);
        for (size_t j = 0; j < sizeof none / sizeof *none; j++) {
            wide[VALUE_BYTES_AT] = none[j];
            keep_wide();
            says_unsound(wide, lent);
            says_unsound(wide, WIDE_NEEDED + GUARD);
            CHECK(wide_as_kept());
        }
    }
}

/* A store for one kind, two entities with the values 1 and 2; as many words are lent as sixteen bytes take. */
static void one_kind(size_t bytes)
{
    uint8_t tape[64], *to = COMMAND(tape, 0x01, 1);
    fresh_at(bytes);
    lent = yirbarn_words_needed_with(N, 1, 16);
    CHECK(yirbarn_start_with(wide, lent, N, 1, width, false) == YIRBARN_OK);
    to = COMMAND(hold_value(to, 1, 1), 0x03);
    to = COMMAND(hold_value(to, 1, 2), 0x03);
    CHECK(yirbarn_run(wide, lent, tape, (size_t)(to - tape), out, OUT).commands == 5);
}

/* With the other width in their word, words are judged as a store of that: enough of them, and values of as many words. */
static void test_width_changed(void)
{
    const uint32_t entities[] = {0, 1, 1, 1};
    one_kind(8);
    wide[VALUE_BYTES_AT] = 16;
    says_unsound(wide, lent - 1);
    size_t at = yirbarn_column_at(wide, lent, 1, true, 0, 2);
    CHECK(at > 0 && are_values(wide + at, 1, 2) && all(wide + at + 4, 0, 16, 0));
    CHECK(yirbarn_column_at(wide, lent, 1, true, 1, 2) == at + 4);
    at = yirbarn_column_at(wide, lent, 1, false, 0, 2);
    CHECK(at > 0 && !memcmp(wide + at, entities, sizeof entities));
    CHECK(yirbarn_roll(wide, lent, out, OUT).written == 4 + 9 * 2 + 17 * 2);

    one_kind(16);
    wide[VALUE_BYTES_AT] = 8;
    at = yirbarn_column_at(wide, lent, 1, true, 0, 2);
    CHECK(at > 0 && are_values(wide + at, 1, 2));
    CHECK(yirbarn_column_at(wide, lent, 1, true, 1, 2) == at + 2);
    CHECK(yirbarn_roll(wide, lent, out, OUT).written == 4 + 9 * 2 + 9 * 2);

    /* With two kinds the second column is elsewhere at the other width, and no kind is found there. */
    used_at(8);
    wide[VALUE_BYTES_AT] = 16;
    says_unsound(wide, WIDE_NEEDED);
    used_at(16);
    wide[VALUE_BYTES_AT] = 8;
    says_unsound(wide, WIDE_NEEDED);
}

/* Each word of a store in use, damaged in several ways. */
static void test_damaged(void)
{
    static uint32_t sound[NEEDED + GUARD], damaged[NEEDED + GUARD];
    int refused = 0, still = 0;
    used();
    memcpy(sound, words, sizeof words);
    for (size_t at = 0; at < NEEDED; at++) {
        const uint32_t damages[] = {sound[at] + 1, sound[at] - 1, sound[at] ^ 0x80000000u, 0xffffffffu};
        for (size_t i = 0; i < sizeof damages / sizeof *damages; i++) {
            memcpy(words, sound, sizeof words);
            words[at] = damages[i];
            memcpy(damaged, words, sizeof words);
            if (yirbarn_column_number(words, NEEDED, 1, false, 0, 1) == YIRBARN_UNSOUND) {
                refused++;
                test_unsound(damaged);
                continue;
            }
            /* Sound, so a run answers and leaves it sound. */
            still++;
            struct yirbarn_ran ran = yirbarn_run(words, NEEDED, TAPE, sizeof TAPE, out, OUT);
            CHECK(ran.stop == YIRBARN_OK && ran.commands == 14);
            CHECK(yirbarn_roll(words, NEEDED, out, OUT).number != YIRBARN_UNSOUND);
        }
    }
    CHECK(refused > 100 && still > 100);
    printf("damaged words: %d refused, %d still sound\n", refused, still);
    memset(words, 0, sizeof words);
    memcpy(damaged, words, sizeof words);
    test_unsound(damaged);
}

static void test_version(void)
{
    char version[32];
    snprintf(version, sizeof version, "%d.%d.%d", YIRBARN_VERSION_MAJOR, YIRBARN_VERSION_MINOR, YIRBARN_VERSION_PATCH);
    CHECK(!strcmp(version, YIRBARN_VERSION));
}

int main(void)
{
    test_version();
    test_words_needed();
    test_start();
    test_run();
    test_tray();
    test_tray_is_news();
    test_tray_stops();
    test_callers();
    test_callers_in_a_run();
    test_no_caller();
    test_callers_stay();
    test_last_refusals();
    test_caller_stops();
    test_start_clears_callers();
    test_callers_do_not_show();
    test_sound_callers();
    test_words_needed_with();
    test_start_with_refused();
    test_no_widths();
    test_start_with();
    test_range_examples();
    test_every_range();
    test_range_without_bar();
    test_rule_stays();
    test_another_start();
    test_rule_does_not_show();
    test_sound_rules();
    test_column();
    test_copy();
    test_roll();
    test_held_runs();
    test_held_reads();
    test_both_widths();
    test_held_wide();
    test_width_stays();
    test_damaged_width();
    test_width_changed();
    test_damaged();
    printf("C: %d checks, %d failed\n", checks, failures);
    return failures != 0;
}
