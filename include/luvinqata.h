/* The proved calls as C sees them. Each takes any bytes, any numbers and any state, and a refusal changes nothing that was lent.
 *
 * What a caller owes, for no compiler looks after it:
 *
 * - A pointer is never NULL, with a length of 0 too, and as many bytes or cells as the length after it says can be read there, and written where it is not
 *   const. places has forty cells; index, height and mark are one word each.
 * - Cells and words are aligned as int64_t and uint32_t are.
 * - What is lent to be changed (output, table, store, index, height, mark, places, lines) overlaps nothing else that is lent to the call.
 * - What is lent holds still during the call: an object that another thread or process changes while it runs is read past its end. Copy
 *   it first.
 * - The thread has a stack of 1 MiB or more.
 *
 * Any number of calls may go on at once, in any threads: they share nothing. docs/GUIDE.md tells what the numbers mean.
 */
#ifndef LUVINQATA_H
#define LUVINQATA_H

#include <stddef.h>
#include <stdint.h>

#ifdef __cplusplus
extern "C" {
#endif

/* Bytes of the longest object, of the longest table of names, of a card, of a line; cells of the largest store; places of a stack. */
#define LUVINQATA_LONGEST_OBJECT 68056
#define LUVINQATA_LONGEST_TABLE 2000
#define LUVINQATA_CARD 80
#define LUVINQATA_LINE 132
#define LUVINQATA_CELLS 4096
#define LUVINQATA_STACK 40

/* number is 0 if the call was not refused; place is a card for 3 to 5, a statement for 6 and 10 to 25, an entry of the body kind for 42
 * and 43, else 0. */
struct luvinqata_refusal {
    uint32_t number;
    uint32_t place;
    uint32_t kind;
};

/* sequence is the first statement that lost digits, or 0; cards is how many were taken, lines how many were written. */
struct luvinqata_ran {
    uint32_t number;
    uint32_t place;
    uint32_t kind;
    uint32_t halt;
    uint32_t steps;
    uint32_t sequence;
    size_t cards;
    size_t lines;
};

/* length is how many bytes were written. */
struct luvinqata_written {
    uint32_t number;
    uint32_t place;
    uint32_t kind;
    uint32_t length;
};

/* Compiles a deck of 80-byte cards for numbers of k digits: refuses by 1 to 25 and 30. */
struct luvinqata_written luvinqata_compile(uint32_t k, const uint8_t *deck, size_t deck_length, uint8_t *output,
                                           size_t output_length);

/* Checks an object: refuses by 40 to 44. */
struct luvinqata_refusal luvinqata_check(const uint8_t *object, size_t object_length);

/* Checks an object and runs it from a state: refuses by 40 to 44 and 50 to 52. A fresh state is all zeros. READ takes the cards, every whole
 * 80 bytes one; PRINT writes from the front of lines, where every whole 132 bytes are room for one, and what it does not write stays. A
 * run that goes on is lent the rest: the cards after those taken, and the room after the lines written. */
struct luvinqata_ran luvinqata_run(const uint8_t *object, size_t object_length, int64_t *store, size_t store_length, uint32_t *index,
                                   uint32_t *height, uint32_t *mark, int64_t places[LUVINQATA_STACK], const uint8_t *cards,
                                   size_t cards_length, uint8_t *lines, size_t lines_length, uint32_t allowance);

/* Runs an object that need not pass the check, from a fresh state: refuses by 40, 41, 50 and 51. */
struct luvinqata_ran luvinqata_bench(const uint8_t *object, size_t object_length, int64_t *store, size_t store_length, uint32_t *index,
                                     uint32_t *height, uint32_t *mark, int64_t places[LUVINQATA_STACK], const uint8_t *cards,
                                     size_t cards_length, uint8_t *lines, size_t lines_length, uint32_t allowance);

/* Checks an object and writes its names, twenty bytes each: eight of name, then first cell, rows and columns as words, the low byte
 * first. Refuses by 40 to 44 and 30. */
struct luvinqata_written luvinqata_map(const uint8_t *object, size_t object_length, uint8_t *table, size_t table_length);

#ifdef __cplusplus
}
#endif

#endif
