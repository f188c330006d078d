/* Check from C, on marked case 1: a byte read from memory became a variable. Then the
 * same with a memory of 16-bit addresses and 16-bit cells, by a sort table.
 *
 *   tools/build gilfrunt > staticlib.log 2>&1
 *   gcc -std=c99 -Iinclude examples/check.c target/staticlib/libgilfrunt.a -o target/check && target/check
 *
 * The first command proves and builds the library, once. The second prints `0 0 0`
 * (number, place, detail) for each and ends with 0; a refusal ends with 1.
 *
 * gilfrunt_strict_check and gilfrunt_strict_check_with_sorts take the same lists, and
 * refuse a root of more than one bit.
 */
#include <inttypes.h>
#include <stdio.h>

#include "gilfrunt.h"

#define LIST(a) a, sizeof a / sizeof *a

static void print(gilfrunt_answer a)
{
    printf("%" PRIu64 " %" PRIu64 " %" PRIu64 "\n", a.number, a.place, a.detail);
}

int main(void)
{
    /* Row 0 is an address, row 1 the byte of array 7 there, row 2 is true. */
    uint64_t source[] = {
        GILFRUNT_TAG_VAR,    32, 0, 0, 0,
        GILFRUNT_TAG_SELECT, 7,  0, 0, 0,
        GILFRUNT_TAG_EQ,     1,  1, 0, 0,
    };
    /* The byte became a variable, which the read table owns. */
    uint64_t target[] = {
        GILFRUNT_TAG_VAR, 32, 0, 0,
        GILFRUNT_TAG_VAR, 8,  0, 0,
        GILFRUNT_TAG_EQ,  1,  1, 0,
    };
    const uint64_t roots[] = {2};
    const uint64_t map[] = {0, 1, 2};
    const uint64_t reads[] = {1, 7, 0}; /* variable row, array, index row */

    /* An empty list has length 0, but its pointer may not be null. */
    const uint64_t none[1] = {0};
    const uint8_t no_bits[1] = {0};

    uint64_t source_widths[3], target_widths[3], classes[3], entries[3];

    gilfrunt_answer a = gilfrunt_check(
        LIST(source), no_bits, 0, none, 0, LIST(roots), LIST(map),
        LIST(reads), none, 0, none, 0, LIST(target), no_bits, 0, LIST(roots),
        LIST(source_widths), LIST(target_widths), LIST(classes), LIST(entries));

    print(a);

    /* Array 7 has other widths now, and so have the address and the cell. */
    const uint64_t sorts[] = {7, 16, 16}; /* array, index width, cell width */
    source[1] = target[1] = 16;
    target[GILFRUNT_TARGET_ROW + 1] = 16;

    gilfrunt_answer b = gilfrunt_check_with_sorts(
        LIST(source), no_bits, 0, none, 0, LIST(roots), LIST(map),
        LIST(reads), none, 0, none, 0, LIST(target), no_bits, 0, LIST(roots), LIST(sorts),
        LIST(source_widths), LIST(target_widths), LIST(classes), LIST(entries));

    print(b);
    return a.number != GILFRUNT_ACCEPTED || b.number != GILFRUNT_ACCEPTED;
}
