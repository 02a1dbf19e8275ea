/* Runs a tape file on a fresh store and prints the roll: roll TAPE [ENTITIES KINDS [WIDTH]]
 *
 * WIDTH is the bytes of a value, 8 or 16. A tape does not tell it: it is to be the one that the tape was made for. */
#include "yirbarn.h"

#include <inttypes.h>
#include <stdio.h>
#include <stdlib.h>
#include <string.h>

static uint64_t number(const uint8_t *bytes, int width)
{
    uint64_t number = 0;
    while (width-- > 0)
        number = number << 8 | bytes[width];
    return number;
}

/* The whole file, and its length; nothing where it cannot be read. */
static uint8_t *load(const char *name, size_t *length)
{
    FILE *file = fopen(name, "rb");
    if (!file)
        return NULL;
    size_t room = 4096;
    uint8_t *bytes = malloc(room);
    *length = 0;
    while (bytes) {
        size_t read = fread(bytes + *length, 1, room - *length, file);
        *length += read;
        if (read == 0)
            break;
        if (*length == room)
            bytes = realloc(bytes, room *= 2);
    }
    fclose(file);
    return bytes;
}

/* The bytes of the widest value, and the digits of the largest. */
enum { WIDEST = 16, DIGITS = 39 };

/* Takes the last digit off a number in bytes, lowest first. */
static char last_digit(uint8_t *bytes, size_t width)
{
    unsigned rest = 0;
    while (width-- > 0) {
        rest = rest << 8 | bytes[width];
        bytes[width] = (uint8_t)(rest / 10);
        rest %= 10;
    }
    return (char)('0' + rest);
}

/* A value in decimal. One of sixteen bytes is no number of C, so it goes by its bytes. */
static void print_value(const uint8_t *value, size_t width)
{
    uint8_t left[WIDEST];
    char digits[DIGITS + 1] = "";
    memcpy(left, value, width);
    for (size_t i = DIGITS; i-- > 0;)
        digits[i] = last_digit(left, width);
    size_t zeros = strspn(digits, "0");
    printf("%s", digits + (zeros < DIGITS ? zeros : DIGITS - 1));
}

static void print_roll(const uint8_t *roll, size_t width)
{
    uint32_t live = (uint32_t)number(roll, 4);
    printf("%" PRIu32 " live\n", live);
    roll += 4;
    while (live-- > 0) {
        printf("entity %" PRIu64 " version %" PRIu64 ":", number(roll, 4), number(roll + 4, 4));
        int components = roll[8];
        for (roll += 9; components > 0; components--, roll += 1 + width) {
            printf(" %d=", roll[0]);
            print_value(roll + 1, width);
        }
        printf("\n");
    }
}

int main(int count, char **words)
{
    if (count != 2 && count != 4 && count != 5) {
        fprintf(stderr, "roll TAPE [ENTITIES KINDS [WIDTH]]\n");
        return 2;
    }
    size_t entities = count >= 4 ? strtoul(words[2], NULL, 10) : 64;
    size_t kinds = count >= 4 ? strtoul(words[3], NULL, 10) : 8;
    size_t width = count == 5 ? strtoul(words[4], NULL, 10) : 8;
    size_t length;
    uint8_t *tape = load(words[1], &length);
    if (!tape) {
        perror(words[1]);
        return 2;
    }

    size_t needed = yirbarn_words_needed_with(entities, kinds, width);
    /* No byte of a tape has more than 31 bytes of answer; no entity of a roll more than 9 bytes and 1 + width a kind. */
    size_t room = 31 * length + 4 + entities * (9 + (1 + width) * kinds);
    uint32_t *store = malloc(4 * needed + 4);
    uint8_t *out = malloc(room);
    uint8_t refused = store && out ? yirbarn_start_with(store, needed, entities, kinds, width, false) : YIRBARN_SHORT;
    if (refused) {
        fprintf(stderr, "start: %d\n", refused);
        return 1;
    }

    struct yirbarn_ran ran = yirbarn_run(store, needed, tape, length, out, room);
    printf("stop %d, %zu commands, %zu bytes read, %zu written\n", ran.stop, ran.commands, ran.read, ran.written);
    struct yirbarn_rolled rolled = yirbarn_roll(store, needed, out, room);
    if (rolled.number) {
        fprintf(stderr, "roll: %d\n", rolled.number);
        return 1;
    }
    print_roll(out, width);
    free(out);
    free(store);
    free(tape);
    return 0;
}
