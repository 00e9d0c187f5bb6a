/* hours DECK NAME RESULT VALUE.. : runs a deck of lines once for each value of NAME and prints RESULT, the halt and the first statement
 * that lost digits, or 0. Five digits.
 *
 *     cc -Iinclude examples/hours.c target/staticlib/libcalls.a -o hours
 *     ./hours examples/gale-hours.txt KNOTS KUBE 46 47
 */
#include <stdint.h>
#include <stdio.h>
#include <stdlib.h>
#include <string.h>

#include "luvinqata.h"

enum { CARD = LUVINQATA_CARD, CARDS = 512, ENTRY = 20, NAME = 8 };

static uint8_t deck[CARDS * CARD], object[LUVINQATA_LONGEST_OBJECT], table[LUVINQATA_LONGEST_TABLE];
/* The hours' decks read no card and print no line. */
static uint8_t no_cards[1], no_lines[1];
static int64_t store[LUVINQATA_CELLS];

static int fail(const char *what, const char *words)
{
    fprintf(stderr, "hours: %s: %s\n", what, words);
    exit(2);
}

/* A card for each line; how many bytes. */
static size_t punch(const char *file)
{
    char line[CARD + 3];
    size_t length = 0;
    FILE *lines = fopen(file, "r");
    if (!lines)
        fail(file, "cannot be read");
    while (fgets(line, sizeof line, lines)) {
        size_t columns = strcspn(line, "\r\n");
        if (columns > CARD || length == sizeof deck)
            fail(file, "a line of over 80 columns, or over 512 lines");
        memset(deck + length, ' ', CARD);
        memcpy(deck + length, line, columns);
        length += CARD;
    }
    fclose(lines);
    return length;
}

/* The cell of a plain name. */
static uint32_t cell(const char *name, size_t names)
{
    char filled[NAME + 1];
    snprintf(filled, sizeof filled, "%-8s", name);
    for (const uint8_t *entry = table; entry < table + names; entry += ENTRY)
        if (!memcmp(entry, filled, NAME))
            return entry[NAME] | (uint32_t)entry[NAME + 1] << 8;
    fail(name, "the deck has no such name");
    return 0;
}

int main(int count, char **arguments)
{
    if (count < 5)
        fail("usage", "hours DECK NAME RESULT VALUE..");
    size_t cards = punch(arguments[1]);
    struct luvinqata_written compiled = luvinqata_compile(5, deck, cards, object, sizeof object);
    if (compiled.number) {
        fprintf(stderr, "refused %u at %u\n", (unsigned)compiled.number, (unsigned)compiled.place);
        return 2;
    }
    struct luvinqata_written names = luvinqata_map(object, compiled.length, table, sizeof table);
    uint32_t given = cell(arguments[2], names.length), result = cell(arguments[3], names.length);
    for (int hour = 4; hour < count; hour++) {
        int64_t places[LUVINQATA_STACK] = {0};
        uint32_t index = 0, height = 0, mark = 0;
        memset(store, 0, sizeof store);
        store[given] = strtoll(arguments[hour], NULL, 10);
        struct luvinqata_ran ran = luvinqata_run(object, compiled.length, store, LUVINQATA_CELLS, &index, &height, &mark, places, no_cards, 0,
                                                 no_lines, 0, 1000000);
        if (ran.number)
            printf("%s refused %u\n", arguments[hour], (unsigned)ran.number);
        else
            printf("%s %lld halt %u lost %u\n", arguments[hour], (long long)store[result], (unsigned)ran.halt, (unsigned)ran.sequence);
    }
    return 0;
}
