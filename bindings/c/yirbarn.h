/* Card stores with nested groups, over 32-bit words that the caller lends.
 *
 * A store keeps up to 4,096 entities (an index and a version, 32 bits each) and their components: a value for each of
 * up to 128 kinds, of eight bytes, or in a store that is started so of sixteen. It lives in the words alone: no
 * allocation, no hidden state. A tape of commands changes it (docs/COMMANDS.md has all sixteen: their bytes, answers,
 * refusals and limits), and it is read by column and as a whole.
 *
 * What a caller owes, and nothing else: no pointer is null, also where its length is 0; each points to as many items as
 * the length after it says; what one call may write (`words` where not const, `out`) overlaps nothing else that the
 * call is given; and meanwhile no other thread writes any of it, or reads what the call may write. What the words hold
 * is free: a start (yirbarn_start, yirbarn_start_with) makes a store of any words, and every other function that is
 * given words first tests whether they hold a sound one. yirbarn_words_needed and yirbarn_words_needed_with are given
 * none. The functions for words that are held, yirbarn_held_.., test nothing, and who calls one owes more: it is said
 * where they stand, at the end.
 *
 * Numbers are those of the refusals below, 0 where nothing is refused. Link with libstore.a (`bindings/library`).
 */
#ifndef YIRBARN_H
#define YIRBARN_H

#include <stdbool.h>
#include <stddef.h>
#include <stdint.h>

/* Of this header and what it declares (CHANGELOG.md). */
#define YIRBARN_VERSION_MAJOR 0
#define YIRBARN_VERSION_MINOR 9
#define YIRBARN_VERSION_PATCH 0
#define YIRBARN_VERSION "0.9.0"

#ifdef __cplusplus
extern "C" {
#endif

enum yirbarn_number {
    YIRBARN_OK = 0,
    YIRBARN_SIZE = 1,     /* entities not 1 to 4,096, kinds not 1 to 128, or values not of 8 or 16 bytes */
    YIRBARN_SHORT = 2,    /* too few words */
    YIRBARN_UNSOUND = 3,  /* the words hold no sound store */
    YIRBARN_UNKNOWN = 4,  /* a byte that is no command */
    YIRBARN_CUT = 5,      /* the tape ends within a command */
    YIRBARN_NOROOM = 6,   /* no room for the accepted answer, the roll, or the copy of a column */
    YIRBARN_KIND = 7,     /* a kind above 127, or not registered */
    YIRBARN_KINDS = 8,    /* as many kinds are registered as the store takes */
    YIRBARN_AGAIN = 9,    /* the kind is in that list already */
    YIRBARN_HANDFUL = 10, /* the list has 16 kinds */
    YIRBARN_DEAD = 11,    /* the entity is not live */
    YIRBARN_FULL = 12,    /* no index is left, or for a tray too few */
    YIRBARN_WIDE = 13,    /* a group of more than 16 kinds: never, the list has 16 at most */
    YIRBARN_CLASH = 14,   /* the group shares kinds with more than one family, or with one that it is no chain with */
    YIRBARN_MANY = 15,    /* the draft has 64 groups */
    YIRBARN_BEYOND = 16,  /* rows that are not there */
    YIRBARN_CALLER = 19   /* a caller above 15; no refusal has 17 or 18 */
};

/* How many words a store for n entities and k kinds takes, its values of eight bytes: 1,024 + 16 n + k (8 + 6 n); 0
 * where a start would refuse n or k (YIRBARN_SIZE). */
size_t yirbarn_words_needed(size_t n, size_t k);

/* The same for values of value_bytes bytes: with d = value_bytes / 4, 1,024 + 16 n + k (8 + 4 n + d n), so that sixteen
 * bytes take 1,024 + 16 n + k (8 + 8 n); 0 where yirbarn_start_with would refuse n, k or value_bytes (YIRBARN_SIZE). */
size_t yirbarn_words_needed_with(size_t n, size_t k, size_t value_bytes);

/* Makes an empty store for n entities and k kinds, whatever the words held, for values of eight bytes and under the
 * older rule (below).
 * Number: YIRBARN_SIZE, YIRBARN_SHORT, in this order, or 0. Where it is not 0, no word changes. Words past the needed
 * ones never change, here and in every run. */
uint8_t yirbarn_start(uint32_t *words, size_t words_len, size_t n, size_t k);

/* The same, for values of value_bytes bytes, 8 or 16, and under the rule that it is told: the older where `newer` is
 * false, the newer where it is true. Told 8 and false, it makes the store that yirbarn_start makes. A store keeps both
 * for life: no run changes them, only another start over its words. A sound one has one of the two widths and one of the
 * two rules.
 * The width says how many bytes a value has: v = value_bytes. HOLD has 1 + v bytes of operands, TAKE answers
 * 1 + (1 + v) x hand bytes, a roll has v bytes for each value, a column v / 4 words. A tape does not tell its width: one
 * that was made for the other is read as bytes, and nothing tests for it. No function tells a store's width: it is word
 * 11, 8 or 16 (docs/WORDS.md). Words kept from before there were two widths have 0 there, and hold no sound store until
 * it is set to 8.
 * The rule says how RANGE reads a bar (excluded kinds); without one, RANGE is the same under both. "Without 3 and 4" is
 * to lack one or more of them under the older rule, and to have neither under the newer. For a bar of one kind that is
 * the same, and so is the answer. A bar of two kinds or more finds nothing under the newer rule: the entities with none
 * of them need not stand together.
 * Number: as of yirbarn_start, with YIRBARN_SIZE also for any other value_bytes; none is for the rule. */
uint8_t yirbarn_start_with(uint32_t *words, size_t words_len, size_t n, size_t k, size_t value_bytes, bool newer);

/* What a run answers. */
struct yirbarn_ran {
    uint8_t stop;    /* 0 at the tape's end */
    size_t commands; /* done, the refused ones among them */
    size_t read;     /* bytes of the tape that these took */
    size_t written;  /* bytes of answers */
};

/* Does the tape's commands one after the other, and writes their answers to the front of out: a 0 byte and what the
 * command tells, or a refusal's number (7 to 15, or 19) alone. A refused command adds one to the tally of the store's
 * caller, which TALLY tells, and changes no other word. The store's caller says whose commands these are: a number 0 to
 * 15, which SETCALLER sets for what follows, in later runs too; 0 after a start.
 * stop: YIRBARN_UNSOUND, with zeros beside it and nothing changed; or what stops the run before a command:
 * YIRBARN_UNKNOWN, YIRBARN_CUT, YIRBARN_NOROOM (judged by the accepted answer's length); or 0. The store stays sound.
 * A run of the tape from `read` on goes on where this one stopped. So a long tape can be fed in pieces, cut anywhere:
 * after each run, take its answers, and go on with the bytes from `read` on, the next piece behind them (YIRBARN_CUT:
 * the last command of the piece goes on in the next). Bytes of out past `written` stay. */
struct yirbarn_ran yirbarn_run(uint32_t *words, size_t words_len, const uint8_t *tape, size_t tape_len, uint8_t *out,
                               size_t out_len);

/* The number of the column with these operands: YIRBARN_UNSOUND, YIRBARN_KIND, YIRBARN_BEYOND (start above end, or end
 * above the column's length), in this order, or 0. */
uint8_t yirbarn_column_number(const uint32_t *words, size_t words_len, uint8_t kind, bool values, size_t start,
                              size_t end);

/* Where in the words the rows of a kind stand, from start to before end: with at = the answer, words[at] to
 * words[at + 2 (end - start) - 1] are their entities (index word, version word) in row order; or where `values` is true,
 * words[at] to words[at + d (end - start) - 1] their values, d words each, lowest first: 2 where values are of eight
 * bytes, 4 where they are of sixteen. 0 where yirbarn_column_number is not 0, and nowhere else, for no column stands
 * there: ask for the number only then. They stay there until the next run or start. Entities and values of one row have
 * the same number, counted from start. */
size_t yirbarn_column_at(const uint32_t *words, size_t words_len, uint8_t kind, bool values, size_t start, size_t end);

/* What a function that writes to out answers, but for a run and a roll. */
struct yirbarn_written {
    uint8_t number;
    size_t written; /* items of out; 0 where the number is not */
};

/* The same rows, copied to the front of out: 2 (end - start) words, or d (end - start) of values.
 * Number: that of yirbarn_column_number; where that is 0, YIRBARN_NOROOM if out has fewer words than the rows take; else
 * 0. Where it is not 0, nothing is copied. No rows (start = end) that are accepted are number 0 and 0 words. Words of
 * out past `written` stay. */
struct yirbarn_written yirbarn_column(const uint32_t *words, size_t words_len, uint8_t kind, bool values, size_t start,
                                      size_t end, uint32_t *out, size_t out_len);

/* What a roll answers. */
struct yirbarn_rolled {
    uint8_t number;
    size_t written; /* bytes; 0 where the number is not */
};

/* Writes the roll to the front of out: live count 4; then each live entity by rising index: index 4, version 4, number
 * of components 1; then each component by rising kind: kind 1, value 8, or 16 where values are of sixteen bytes. Numbers
 * are little-endian.
 * Number: YIRBARN_UNSOUND, YIRBARN_NOROOM, in this order, or 0. Where it is not 0, nothing is written. Bytes of out past
 * `written` stay. */
struct yirbarn_rolled yirbarn_roll(const uint32_t *words, size_t words_len, uint8_t *out, size_t out_len);

/* Words that are held.
 *
 * Each function below does what the one of its name without `held` does, to the last byte, on words that hold a sound
 * store. It does not test them, which saves time in proportion to the words. So who calls one vouches for them: a start
 * over words and words_len gave 0, or a run did not stop by YIRBARN_UNSOUND (one of an empty tape will do, and changes
 * nothing), and since then nothing has changed them but runs, of either form. Words that came from elsewhere, as from a
 * file or from another process, or that other code may have written, are tested first. On words that hold no sound store
 * the behaviour is undefined: any memory may be read and written. */
struct yirbarn_ran yirbarn_held_run(uint32_t *words, size_t words_len, const uint8_t *tape, size_t tape_len, uint8_t *out,
                                    size_t out_len);

uint8_t yirbarn_held_column_number(const uint32_t *words, size_t words_len, uint8_t kind, bool values, size_t start,
                                   size_t end);

size_t yirbarn_held_column_at(const uint32_t *words, size_t words_len, uint8_t kind, bool values, size_t start,
                              size_t end);

struct yirbarn_written yirbarn_held_column(const uint32_t *words, size_t words_len, uint8_t kind, bool values,
                                           size_t start, size_t end, uint32_t *out, size_t out_len);

struct yirbarn_rolled yirbarn_held_roll(const uint32_t *words, size_t words_len, uint8_t *out, size_t out_len);

#ifdef __cplusplus
}
#endif

#endif
