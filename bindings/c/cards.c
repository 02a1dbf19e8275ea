/* A personalisation line in one store: cards come in, one is spoiled, and the line asks who stands where.
 *
 * A card passes four stations: it gets a serial, a key, applets and a print, in this order. A station is a kind, what
 * it writes on the card is a value of eight bytes. Two groups are kept: the cards with serial and key, and among them
 * those with all four. So the two questions at the end need no search. (Values may be of sixteen bytes:
 * bindings/README.md has what differs.)
 *
 * Every answer is checked (docs/COMMANDS.md, "What a program must check"); at the first that is not as expected, the
 * program says which and ends with status 1. bindings/rust/examples/cards.rs does the same work, and both write what
 * bindings/cards.txt has.
 */
#include "yirbarn.h"

#include <inttypes.h>
#include <stdio.h>
#include <stdlib.h>

/* The store: so many cards at once, so many kinds. WORDS is the header's formula, for an array of fixed size;
 * start_store holds it to what the library says. */
enum { CARDS = 32, STATIONS = 4, WORDS = 1024 + 16 * CARDS + STATIONS * (8 + 6 * CARDS) };

/* The kinds: any numbers from 0 to 127. */
enum { SERIAL = 10, KEY = 20, APPLETS = 30, PRINT = 40 };

/* The stations in the line's order, and how many of them each group has: the first so many. */
static const uint8_t station_kind[STATIONS] = {SERIAL, KEY, APPLETS, PRINT};
static const char *const station_name[STATIONS] = {"serial", "key", "applets", "print"};
enum { WITH_KEY = 2, PRINTED = STATIONS };

/* The commands used here: byte, name, and the length of the accepted answer (docs/COMMANDS.md, "The sixteen
 * commands"). */
struct command {
    uint8_t byte;
    const char *name;
    size_t answer_len;
};

static const struct command REG = {0x01, "REG", 2};
static const struct command HOLD = {0x02, "HOLD", 1};
static const struct command NEW = {0x03, "NEW", 9};
static const struct command KILL = {0x07, "KILL", 1};
static const struct command GROUP = {0x09, "GROUP", 2};
static const struct command APPLY = {0x0A, "APPLY", 1};
static const struct command BAR = {0x0B, "BAR", 1};
static const struct command RANGE = {0x0C, "RANGE", 10};
static const struct command EMPTY = {0x0D, "EMPTY", 1};
static const struct command TALLY = {0x0E, "TALLY", 5};

/* Room for a tape and its answers: ten bytes for each byte of tape, and 144 more, are never too few (272 more, where
 * values are of sixteen bytes). */
enum { TAPE_BYTES = 512, TAPE_COMMANDS = 64, ANSWER_BYTES = 10 * TAPE_BYTES + 144 };

/* A roll is 4 bytes, 9 for each card and 9 for each of its values. */
enum { ROLL_BYTES = 4 + 9 * (CARDS + CARDS * STATIONS) };

/* A card's name in the store. The index alone will not do: a killed card's index comes again, with another version. */
struct card {
    uint32_t index;
    uint32_t version;
};

/* What the stations wrote on a card: the first `passed` of these values. */
struct order {
    size_t passed;
    uint64_t value[STATIONS];
};

static const struct order orders[] = {
    {1, {7001}},
    {2, {7002, 0xA200000000007002}},
    {4, {7003, 0xA300000000007003, 3, 901}},
    {1, {7004}},
    {3, {7005, 0xA500000000007005, 1}},
    {4, {7006, 0xA600000000007006, 3, 902}},
    {2, {7007, 0xA700000000007007}},
};
enum { ORDERS = sizeof orders / sizeof orders[0] };

/* Which of them is spoiled, and the one that is made in its stead. */
enum { SPOILED = 2 };
static const struct order remake = {2, {7008, 0xA800000000007008}};

/* A tape as bytes and as the list of its commands; then the answers, and where the answer of each command starts. */
struct tape {
    uint8_t bytes[TAPE_BYTES];
    size_t len;
    const struct command *command[TAPE_COMMANDS];
    size_t commands;
    uint8_t answers[ANSWER_BYTES];
    size_t answer_at[TAPE_COMMANDS];
};

/* From start to before end. */
struct range {
    size_t start;
    size_t end;
};

/* The lent words: the whole store is here. */
static uint32_t words[WORDS];
static struct tape tape;

/* Where something is not as expected: says what, with a number that helps, and ends the program. */
static _Noreturn void fail(const char *what, size_t number)
{
    fprintf(stderr, "cards: %s: %zu\n", what, number);
    exit(1);
}

/* What a refusal's number means, the header says; where it should be 0, nothing should have been refused. */
static void same(const char *what, size_t is, size_t should)
{
    if (is == should)
        return;
    fprintf(stderr, "cards: %s: %zu, should be %zu\n", what, is, should);
    exit(1);
}

/* --- Writing a tape: small helpers, one for each command. --- */

static void write_number(uint64_t number, size_t bytes)
{
    if (bytes > TAPE_BYTES - tape.len)
        fail("the tape takes more bytes than", TAPE_BYTES);
    for (size_t i = 0; i < bytes; i++)
        tape.bytes[tape.len++] = (uint8_t)(number >> (8 * i)); /* lowest byte first */
}

/* Writes a command's byte; its operands are to follow. Gives its number on this tape, to find its answer by. */
static size_t write_command(const struct command *command)
{
    if (tape.commands == TAPE_COMMANDS)
        fail("the tape has more commands than", TAPE_COMMANDS);
    write_number(command->byte, 1);
    tape.command[tape.commands] = command;
    return tape.commands++;
}

static size_t reg(uint8_t kind)
{
    size_t number = write_command(&REG);
    write_number(kind, 1);
    return number;
}

static void hold(uint8_t kind, uint64_t value)
{
    write_command(&HOLD);
    write_number(kind, 1);
    write_number(value, 8);
}

static size_t new_card(void)
{
    return write_command(&NEW);
}

static void kill_card(struct card card)
{
    write_command(&KILL);
    write_number(card.index, 4);
    write_number(card.version, 4);
}

static size_t group(void)
{
    return write_command(&GROUP);
}

static void apply(void)
{
    write_command(&APPLY);
}

static void bar(uint8_t kind)
{
    write_command(&BAR);
    write_number(kind, 1);
}

static size_t range(void)
{
    return write_command(&RANGE);
}

static void empty(void)
{
    write_command(&EMPTY);
}

static size_t tally(void)
{
    return write_command(&TALLY);
}

/* Holds the kinds of the first stations, for GROUP and RANGE, to which the values say nothing. */
static void hold_kinds(size_t stations)
{
    for (size_t i = 0; i < stations; i++)
        hold(station_kind[i], 0);
}

/* Holds what is on a card, and makes it. */
static size_t new_order(const struct order *order)
{
    for (size_t i = 0; i < order->passed; i++)
        hold(station_kind[i], order->value[i]);
    return new_card();
}

/* A fresh tape. Its EMPTY sees to it that no kind is left over in hand or bar. */
static void begin_tape(void)
{
    tape.len = 0;
    tape.commands = 0;
    empty();
}

/* --- Running it, and finding the answers. --- */

static _Noreturn void refused(size_t number, uint8_t refusal)
{
    fprintf(stderr, "cards: command %zu, %s: %d, should be 0\n", number, tape.command[number]->name, refusal);
    exit(1);
}

/* Goes through the commands and the answers side by side: each must begin with 0, for only then its length is known and
 * the next answer can be found. */
static void check_answers(size_t written)
{
    size_t at = 0;
    for (size_t i = 0; i < tape.commands; i++) {
        if (at >= written)
            fail("the answers end before command", i);
        if (tape.answers[at] != YIRBARN_OK)
            refused(i, tape.answers[at]);
        tape.answer_at[i] = at;
        at += tape.command[i]->answer_len;
    }
    same("bytes of answers", written, at);
}

static void run_tape(void)
{
    struct yirbarn_ran ran = yirbarn_run(words, WORDS, tape.bytes, tape.len, tape.answers, ANSWER_BYTES);
    same("the run's stop", ran.stop, YIRBARN_OK);
    same("commands done", ran.commands, tape.commands);
    same("bytes read", ran.read, tape.len);
    check_answers(ran.written);
}

/* Bytes as a number, lowest byte first. */
static uint64_t number_of(const uint8_t *bytes, size_t count)
{
    uint64_t number = 0;
    for (size_t i = 0; i < count; i++)
        number |= (uint64_t)bytes[i] << (8 * i);
    return number;
}

/* What a command told, behind the 0 of its answer. */
static const uint8_t *told(size_t command)
{
    return tape.answers + tape.answer_at[command] + 1;
}

/* REG and GROUP tell 1 where the kind or the group is new, RANGE where there is such a range. */
static void told_yes(const char *what, size_t command)
{
    same(what, told(command)[0], 1);
}

static struct card told_card(size_t command)
{
    struct card card;
    card.index = (uint32_t)number_of(told(command), 4);
    card.version = (uint32_t)number_of(told(command) + 4, 4);
    return card;
}

static struct range told_range(size_t command)
{
    struct range rows;
    told_yes("such a range", command);
    rows.start = (size_t)number_of(told(command) + 1, 4);
    rows.end = (size_t)number_of(told(command) + 5, 4);
    return rows;
}

/* --- Printing. --- */

static const char *name_of(uint8_t kind)
{
    for (size_t i = 0; i < STATIONS; i++)
        if (station_kind[i] == kind)
            return station_name[i];
    fail("a kind that is no station's", kind);
}

/* Keys are written in hexadecimal, all else in decimal. */
static void print_value(uint8_t kind, uint64_t value)
{
    if (kind == KEY)
        printf(" %s %016" PRIX64, name_of(kind), value);
    else
        printf(" %s %" PRIu64, name_of(kind), value);
}

static void print_card(struct card card)
{
    printf("  card %" PRIu32 " version %" PRIu32 ":", card.index, card.version);
}

static void print_order(struct card card, const struct order *order)
{
    print_card(card);
    for (size_t i = 0; i < order->passed; i++)
        print_value(station_kind[i], order->value[i]);
    printf("\n");
}

/* --- The work. --- */

static void start_store(void)
{
    size_t needed = yirbarn_words_needed(CARDS, STATIONS);
    same("words needed", needed, WORDS);
    same("start", yirbarn_start(words, WORDS, CARDS, STATIONS), YIRBARN_OK);
    printf("store: %d cards, %d kinds, %d words\n", CARDS, STATIONS, WORDS);
}

/* Registers the kinds, then builds the two groups of one family, the smaller first, and puts them in force. */
static void lay_out(void)
{
    size_t regs[STATIONS];
    begin_tape();
    for (size_t i = 0; i < STATIONS; i++)
        regs[i] = reg(station_kind[i]);
    hold_kinds(WITH_KEY);
    size_t with_key = group();
    hold_kinds(PRINTED);
    size_t printed = group();
    apply();
    run_tape();
    for (size_t i = 0; i < STATIONS; i++)
        told_yes("a new kind", regs[i]);
    told_yes("the smaller group added", with_key);
    told_yes("the larger group added", printed);
    printf("groups: serial key; serial key applets print\n");
}

/* All cards come in, in one run. `made` gets their names. */
static void cards_in(struct card made[ORDERS])
{
    size_t news[ORDERS];
    begin_tape();
    for (size_t i = 0; i < ORDERS; i++)
        news[i] = new_order(&orders[i]);
    run_tape();
    printf("in:\n");
    for (size_t i = 0; i < ORDERS; i++) {
        made[i] = told_card(news[i]);
        print_order(made[i], &orders[i]);
    }
}

/* One card goes, and the one made in its stead takes its index, with the next version. */
static void replace_card(struct card spoiled)
{
    begin_tape();
    kill_card(spoiled);
    size_t command = new_order(&remake);
    run_tape();
    struct card card = told_card(command);
    same("the new card's index", card.index, spoiled.index);
    same("the new card's version", card.version, spoiled.version + 1);
    printf("killed:\n");
    print_order(spoiled, &orders[SPOILED]);
    printf("in its stead:\n");
    print_order(card, &remake);
}

/* Two words to a value, the low one first. */
static uint64_t value_of(const uint32_t *row)
{
    return (uint64_t)row[0] | (uint64_t)row[1] << 32;
}

/* Reading a column, first way: in place. Nothing is copied; the rows are good until the next run or start. No column
 * stands at word 0: that says refused, and only then the number is asked for. */
static const uint32_t *rows_in_place(uint8_t kind, bool values, struct range rows)
{
    size_t at = yirbarn_column_at(words, WORDS, kind, values, rows.start, rows.end);
    if (at == 0)
        fail("a column is refused", yirbarn_column_number(words, WORDS, kind, values, rows.start, rows.end));
    return words + at;
}

/* Second way: a copy, which stays as it is whatever the line does next. */
static void copy_rows(uint8_t kind, bool values, struct range rows, uint32_t out[2 * CARDS])
{
    struct yirbarn_written copied = yirbarn_column(words, WORDS, kind, values, rows.start, rows.end, out, 2 * CARDS);
    same("a column's copy", copied.number, YIRBARN_OK);
    same("words copied", copied.written, 2 * (rows.end - rows.start));
}

/* Serial and key side by side. The range is one of both columns: row i of the one and row i of the other are of the
 * same card. That is what the library is proved to keep; the check costs little and shows it. The serials are read in
 * place and the keys copied, to show both ways. */
static void print_rows(struct range rows)
{
    static uint32_t key_cards[2 * CARDS], keys[2 * CARDS];
    const uint32_t *cards = rows_in_place(SERIAL, false, rows);
    const uint32_t *serials = rows_in_place(SERIAL, true, rows);
    copy_rows(KEY, false, rows, key_cards);
    copy_rows(KEY, true, rows, keys);
    for (size_t i = 0; i < 2 * (rows.end - rows.start); i += 2) {
        struct card card = {cards[i], cards[i + 1]};
        same("the key's card, its index", key_cards[i], card.index);
        same("the key's card, its version", key_cards[i + 1], card.version);
        print_card(card);
        print_value(SERIAL, value_of(serials + i));
        print_value(KEY, value_of(keys + i));
        printf("\n");
    }
}

/* Two questions in one run. The hand is the smaller group; the bar is what the larger one has besides. It leaves out
 * the cards that hold all of it: these are the printed ones, for print is the last station. A card that has applets and
 * no print stays in the range. */
static void ask(void)
{
    begin_tape();
    hold_kinds(WITH_KEY);
    size_t both = range();
    hold_kinds(WITH_KEY);
    for (size_t i = WITH_KEY; i < PRINTED; i++)
        bar(station_kind[i]);
    size_t unprinted = range();
    run_tape();
    struct range rows = told_range(both);
    printf("serial and key: places %zu to %zu\n", rows.start, rows.end);
    print_rows(rows);
    rows = told_range(unprinted);
    printf("serial and key, not yet printed: places %zu to %zu\n", rows.start, rows.end);
    print_rows(rows);
}

/* --- The roll. --- */

/* Takes the next number off the roll, and never reads past its end. */
static uint64_t take_number(const uint8_t *roll, size_t len, size_t *at, size_t bytes)
{
    if (bytes > len - *at)
        fail("the roll ends too early, at byte", len);
    uint64_t number = number_of(roll + *at, bytes);
    *at += bytes;
    return number;
}

static void print_roll(const uint8_t *roll, size_t len)
{
    size_t at = 0;
    uint64_t live = take_number(roll, len, &at, 4);
    printf("roll: %zu bytes, %" PRIu64 " cards\n", len, live);
    for (uint64_t i = 0; i < live; i++) {
        struct card card;
        card.index = (uint32_t)take_number(roll, len, &at, 4);
        card.version = (uint32_t)take_number(roll, len, &at, 4);
        print_card(card);
        uint64_t parts = take_number(roll, len, &at, 1);
        for (uint64_t part = 0; part < parts; part++) {
            uint8_t kind = (uint8_t)take_number(roll, len, &at, 1);
            print_value(kind, take_number(roll, len, &at, 8));
        }
        printf("\n");
    }
    same("bytes of roll", len, at);
}

static void call_roll(void)
{
    static uint8_t roll[ROLL_BYTES];
    struct yirbarn_rolled rolled = yirbarn_roll(words, WORDS, roll, ROLL_BYTES);
    same("the roll", rolled.number, YIRBARN_OK);
    print_roll(roll, rolled.written);
}

/* How many commands were refused since start: none, for each answer was checked. */
static void check_tally(void)
{
    begin_tape();
    size_t command = tally();
    run_tape();
    size_t count = (size_t)number_of(told(command), 4);
    same("commands refused", count, 0);
    printf("refused: %zu\n", count);
}

int main(void)
{
    struct card made[ORDERS];
    start_store();
    lay_out();
    cards_in(made);
    replace_card(made[SPOILED]);
    ask();
    call_roll();
    check_tally();
    if (fflush(stdout) != 0 || ferror(stdout)) {
        perror("cards: standard output");
        return 1;
    }
    return 0;
}
