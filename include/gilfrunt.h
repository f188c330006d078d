/* The functions of libgilfrunt.a, C99 or C++. docs/REFERENCE.md says what rows,
 * tags, tables, widths and books are; docs/ANSWERS.md has the answers in one table.
 *
 * Every array has indices of 32 bits and cells of 8 bits, unless there is a sort table:
 * then it has the widths that are listed there, and one that is not listed has none. The
 * functions with_sorts take such a table, and a book of the second edition holds one;
 * the functions on books find the edition themselves.
 *
 * A word is an unsigned 64-bit number. A list is a pointer and the number of its
 * elements; pointers are aligned and not null, also for an empty list, and no
 * other list overlaps one that is written. Nothing else is asked of the caller: each
 * function answers on every input and keeps nothing from one call to the next.
 *
 * A list that a function writes is lent to it. It needs so many words, and may have
 * more:
 *
 *   gilfrunt_source_widths  widths                           source_len / 5
 *   gilfrunt_target_widths  widths                           target_len / 4
 *   gilfrunt_values         widths, values                   target_len / 4
 *   gilfrunt_check,         source_widths                    source_len / 5
 *   gilfrunt_strict_check   target_widths, classes, entries  target_len / 4
 *   gilfrunt_judge,         source_widths                    section 1's bytes / 40
 *   gilfrunt_strict_judge   target_widths, classes, entries  section 9's bytes / 32
 *                           words                            bytes of all sections
 *                                                            but 2 and 10, / 8
 *
 * A function with_sorts needs as many as the one without. For any book, book_len / 32
 * words for each of gilfrunt_judge's first four lists and book_len / 8 for the fifth are
 * enough.
 */
#ifndef GILFRUNT_H
#define GILFRUNT_H

#include <stddef.h>
#include <stdint.h>

#ifdef __cplusplus
extern "C" {
#endif

/* In a map: no image. */
#define GILFRUNT_MAX UINT64_MAX

/* The most bits that a row may have. A row that would have more is not well formed, so
 * every width that a function leaves in a list is between 1 and this.
 */
#define GILFRUNT_CEILING 4096

/* Words of a row, words of an entry. */
#define GILFRUNT_SOURCE_ROW 5
#define GILFRUNT_TARGET_ROW 4
#define GILFRUNT_READ_ENTRY 3
#define GILFRUNT_CALL_ENTRY 4
#define GILFRUNT_SORT_ENTRY 3

/* Bytes of a book's table of contents, where its first section starts: of the first
 * edition, of the second.
 */
#define GILFRUNT_CONTENTS 176
#define GILFRUNT_SECOND_CONTENTS 192

/* A row's first word. Select and Call stand in sources only. */
enum gilfrunt_tag {
    GILFRUNT_TAG_VAR = 0,
    GILFRUNT_TAG_CONST = 1,
    GILFRUNT_TAG_ADD = 2,
    GILFRUNT_TAG_SUB = 3,
    GILFRUNT_TAG_MUL = 4,
    GILFRUNT_TAG_UDIV = 5,
    GILFRUNT_TAG_UREM = 6,
    GILFRUNT_TAG_AND = 7,
    GILFRUNT_TAG_OR = 8,
    GILFRUNT_TAG_XOR = 9,
    GILFRUNT_TAG_SHL = 10,
    GILFRUNT_TAG_LSHR = 11,
    GILFRUNT_TAG_ASHR = 12,
    GILFRUNT_TAG_ROTR = 13,
    GILFRUNT_TAG_EXTRACT = 14,
    GILFRUNT_TAG_CONCAT = 15,
    GILFRUNT_TAG_ZERO_EXT = 16,
    GILFRUNT_TAG_SIGN_EXT = 17,
    GILFRUNT_TAG_ITE = 18,
    GILFRUNT_TAG_EQ = 19,
    GILFRUNT_TAG_NE = 20,
    GILFRUNT_TAG_ULT = 21,
    GILFRUNT_TAG_ULE = 22,
    GILFRUNT_TAG_UGT = 23,
    GILFRUNT_TAG_UGE = 24,
    GILFRUNT_TAG_SLT = 25,
    GILFRUNT_TAG_SLE = 26,
    GILFRUNT_TAG_SGT = 27,
    GILFRUNT_TAG_SGE = 28,
    GILFRUNT_TAG_NOT = 29,
    GILFRUNT_TAG_BOOL_AND = 30,
    GILFRUNT_TAG_BOOL_OR = 31,
    GILFRUNT_TAG_BV_NOT = 32,
    GILFRUNT_TAG_NEG = 33,
    GILFRUNT_TAG_ROTL = 34,
    GILFRUNT_TAG_SDIV = 35,
    GILFRUNT_TAG_SREM = 36,
    GILFRUNT_TAG_SELECT = 37,
    GILFRUNT_TAG_CALL = 38
};

/* An answer's number. */
enum gilfrunt_number {
    GILFRUNT_ACCEPTED = 0,
    GILFRUNT_EXT = 1,
    GILFRUNT_CORE = 2,
    GILFRUNT_MAP_LENGTH = 3,
    GILFRUNT_MAP_OUT_OF_RANGE = 4,
    GILFRUNT_READ_TABLE = 5,
    GILFRUNT_CALL_TABLE = 6,
    GILFRUNT_VAR_CLASS = 7,
    GILFRUNT_CONST_MISMATCH = 8,
    GILFRUNT_NODE_MISMATCH = 9,
    GILFRUNT_CHAIN_MISMATCH = 10,
    GILFRUNT_CALL_MISMATCH = 11,
    GILFRUNT_ROOT_MISMATCH = 12,
    GILFRUNT_CONGRUENCE_MISMATCH = 13,
    GILFRUNT_DEAD_ENTRY = 14,
    GILFRUNT_ROW_COUNT = 15,
    GILFRUNT_BAD_ROW = 16,
    GILFRUNT_BAD_BIT = 17,
    GILFRUNT_WORK_SHORT = 18,
    GILFRUNT_BAD_ROOT = 19,
    GILFRUNT_BOOK_SHAPE = 20,
    GILFRUNT_TOO_WIDE = 21,
    GILFRUNT_VALUE_COUNT = 22,
    GILFRUNT_VALUE_RANGE = 23,
    GILFRUNT_NO_SECTION = 24,
    GILFRUNT_SORT_TABLE = 28
};

/* The sections of a book; the sorts in the second edition only. */
enum gilfrunt_section_number {
    GILFRUNT_SECTION_SOURCE = 1,
    GILFRUNT_SECTION_SOURCE_BITS = 2,
    GILFRUNT_SECTION_PAIRS_AND_ARGUMENTS = 3,
    GILFRUNT_SECTION_SOURCE_ROOTS = 4,
    GILFRUNT_SECTION_MAP = 5,
    GILFRUNT_SECTION_READS = 6,
    GILFRUNT_SECTION_CALLS = 7,
    GILFRUNT_SECTION_CALL_ARGUMENTS = 8,
    GILFRUNT_SECTION_TARGET = 9,
    GILFRUNT_SECTION_TARGET_BITS = 10,
    GILFRUNT_SECTION_TARGET_ROOTS = 11,
    GILFRUNT_SECTION_SORTS = 12
};

/* Number 0 is acceptance. A place or detail not named below is 0. */
typedef struct gilfrunt_answer {
    uint64_t number;
    uint64_t place;
    uint64_t detail;
} gilfrunt_answer;

/* The widths of a source graph's rows. Answers the first of these that applies:
 *
 *   15  place 1            source_len is no multiple of 5
 *   18  place 1            widths_len is below the number of rows
 *   16  place row,         first row with an unknown tag, or with a field that
 *       detail 1           its tag does not use and that is not 0
 *   17  place position,    first byte of bits above 1
 *       detail 1
 *    1  place row          first row that is not well formed, also one that
 *                          would have more than GILFRUNT_CEILING bits
 *    0                     accepted
 *
 * 0 leaves the width of each row, 1 to GILFRUNT_CEILING, in widths and zeros after
 * the last row. 15 and 18 write nothing; every other refusal sets the whole list to
 * 0. The other lists are only read.
 */
gilfrunt_answer gilfrunt_source_widths(
    const uint64_t *source, size_t source_len,
    const uint8_t *bits, size_t bits_len,
    const uint64_t *side, size_t side_len,
    uint64_t *widths, size_t widths_len);

/* As gilfrunt_source_widths, with a sort table: sorts has entries of three words, array,
 * index width and cell width, strictly rising by array. A Select's index and the indices
 * of its pairs have its array's index width, their values and the Select itself its cell
 * width. A Select whose array is not listed is not well formed; an empty list means that
 * no array is listed. Answers the first of these that applies:
 *
 *   15, 18, 16, 17         as by gilfrunt_source_widths
 *   28  place entry        first entry of sorts that is cut (the last, of fewer than 3
 *                          words), whose array is not above that of the entry before,
 *                          or that has a width of 0
 *    1  place row          first row that is not well formed, also a Select of an
 *                          array that is not listed, or whose cell width is above
 *                          GILFRUNT_CEILING
 *    0                     accepted
 *
 * widths is left as by gilfrunt_source_widths, by 28 with zeros. The other lists are only
 * read.
 */
gilfrunt_answer gilfrunt_source_widths_with_sorts(
    const uint64_t *source, size_t source_len,
    const uint8_t *bits, size_t bits_len,
    const uint64_t *side, size_t side_len,
    const uint64_t *sorts, size_t sorts_len,
    uint64_t *widths, size_t widths_len);

/* The widths of a target graph's rows. Answers the first of these that applies:
 *
 *   15  place 2            target_len is no multiple of 4
 *   18  place 2            widths_len is below the number of rows
 *   16  place row,         first row with an unknown tag (37 and 38 are unknown
 *       detail 2           here), or with an unused field that is not 0
 *   17  place position,    first byte of bits above 1
 *       detail 2
 *    2  place row          first row that is not well formed, also one that
 *                          would have more than GILFRUNT_CEILING bits
 *    0                     accepted
 *
 * widths is left as by gilfrunt_source_widths. The other lists are only read.
 */
gilfrunt_answer gilfrunt_target_widths(
    const uint64_t *target, size_t target_len,
    const uint8_t *bits, size_t bits_len,
    uint64_t *widths, size_t widths_len);

/* Whether every root names a row of width 1, given the widths of the rows:
 *
 *   19  place position     first root that is widths_len or more, or whose
 *                          width is not 1
 *    0                     accepted
 *
 * Both lists are only read.
 */
gilfrunt_answer gilfrunt_roots(
    const uint64_t *widths, size_t widths_len,
    const uint64_t *roots, size_t roots_len);

/* The values of a target graph's rows, with a word given for each row. Those
 * of variables (tag 0) are their values, the others are ignored. Operators mean
 * what they mean in SMT-LIB; rotations take their amount modulo the width.
 * Answers the first of these that applies:
 *
 *   15  place 2            target_len is no multiple of 4
 *   18  place 1            widths_len is below the number of rows
 *   18  place 2            values_len is
 *   16  place row,         as by gilfrunt_target_widths
 *       detail 2
 *   17  place position,    first byte of bits above 1
 *       detail 2
 *    2  place row          first row that is not well formed, as by
 *                          gilfrunt_target_widths
 *   21  place row          first row wider than 64 bits
 *   22  place rows,        given_len is not the number of rows: place is that
 *       detail given_len   number
 *   23  place row          first variable whose word has a one bit at its width
 *                          or above
 *    0                     accepted
 *
 * 0 leaves the width of each row in widths, its value in values, and zeros
 * after the last row in both. 15 and 18 write nothing; every other refusal sets
 * both whole lists to 0. The other lists are only read.
 */
gilfrunt_answer gilfrunt_values(
    const uint64_t *target, size_t target_len,
    const uint8_t *bits, size_t bits_len,
    const uint64_t *given, size_t given_len,
    uint64_t *widths, size_t widths_len,
    uint64_t *values, size_t values_len);

/* Whether the target graph is the lowering of the source graph. The eleven lists
 * that are read are those of ordeal's check_sliver_lowering, in its order: source
 * rows, their bits, side list and roots; the map; the read table (in threes), the
 * call table (in fours), its argument list; target rows, their bits and roots.
 * Answers the first of these that applies:
 *
 *   15  place 1, 2         source_len is no multiple of 5, target_len none of 4
 *   18  place 1 to 4       source_widths, target_widths, classes or entries has
 *                          fewer words than its graph has rows
 *   16  place row,         badly encoded row, of the source (1), then the
 *       detail 1, 2        target (2)
 *   17  place position,    byte above 1, likewise
 *       detail 1, 2
 *    1  place row          source row that is not well formed, also one that would
 *                          have more than GILFRUNT_CEILING bits
 *    2  place row          target row that is not well formed, likewise
 *    3  place expected,    map_len is not the number of source rows
 *       detail found
 *    5  place entry        bad read entry
 *    6  place entry        bad call entry, also one whose function and argument
 *                          rows an earlier entry has. A function is its number,
 *                          its count, the widths of its arguments and of its
 *                          result, all together
 *    4, 7 to 11            source row that is mapped past the target, or does not
 *       place row          match its image: variable, constant, other row,
 *                          Select, Call
 *   14  place variable     entry that no source row reaches
 *   12  place position     source root whose image is not the target's root there
 *   13  place position     target root that is not the congruence root due there:
 *                          one for each two reads of one array, but not for
 *                          unequal constant indices, and for each two calls of
 *                          one function
 *   12  place 0            target roots left over
 *    0                     accepted: source and target are satisfiable together,
 *                          and leave the same values of mapped variables open
 *
 * 0 leaves both graphs' widths, the classes and the entry offsets of the target's
 * rows, and zeros after the last row. 15 and 18 write nothing; every other refusal
 * sets all four lists to 0. The other lists are only read.
 */
gilfrunt_answer gilfrunt_check(
    const uint64_t *source, size_t source_len,
    const uint8_t *source_bits, size_t source_bits_len,
    const uint64_t *side, size_t side_len,
    const uint64_t *source_roots, size_t source_roots_len,
    const uint64_t *map, size_t map_len,
    const uint64_t *reads, size_t reads_len,
    const uint64_t *calls, size_t calls_len,
    const uint64_t *args, size_t args_len,
    const uint64_t *target, size_t target_len,
    const uint8_t *target_bits, size_t target_bits_len,
    const uint64_t *target_roots, size_t target_roots_len,
    uint64_t *source_widths, size_t source_widths_len,
    uint64_t *target_widths, size_t target_widths_len,
    uint64_t *classes, size_t classes_len,
    uint64_t *entries, size_t entries_len);

/* As gilfrunt_check, with the rule of SMT-LIB that an asserted term is Bool: each root
 * must name a row of one bit, and is true only as such a row with value 1. The lists
 * are those of gilfrunt_check. Answers the first of these that applies:
 *
 *   15, 18, 16, 17, 1, 2   as by gilfrunt_check
 *   19  place position,    first source root (1) that is past the rows or whose row's
 *       detail 1, 2        width is not 1, then first such target root (2)
 *    3, 5, 6 and the rest  as by gilfrunt_check
 *    0                     accepted: each root is a row of one bit, and source and
 *                          target are satisfiable together, and leave the same
 *                          values of mapped variables open
 *
 * What it accepts, gilfrunt_check accepts, and both leave the same in the lists. 19
 * sets all four lists to 0.
 */
gilfrunt_answer gilfrunt_strict_check(
    const uint64_t *source, size_t source_len,
    const uint8_t *source_bits, size_t source_bits_len,
    const uint64_t *side, size_t side_len,
    const uint64_t *source_roots, size_t source_roots_len,
    const uint64_t *map, size_t map_len,
    const uint64_t *reads, size_t reads_len,
    const uint64_t *calls, size_t calls_len,
    const uint64_t *args, size_t args_len,
    const uint64_t *target, size_t target_len,
    const uint8_t *target_bits, size_t target_bits_len,
    const uint64_t *target_roots, size_t target_roots_len,
    uint64_t *source_widths, size_t source_widths_len,
    uint64_t *target_widths, size_t target_widths_len,
    uint64_t *classes, size_t classes_len,
    uint64_t *entries, size_t entries_len);

/* As gilfrunt_check, with a sort table, as in gilfrunt_source_widths_with_sorts: a Select
 * and a read entry have the widths of their array. An empty list means that no array is
 * listed, not that each has 32 and 8 as in gilfrunt_check. Answers the first of these
 * that applies:
 *
 *   15, 18, 16, 17         as by gilfrunt_check
 *   28  place entry        first bad entry of sorts, as by
 *                          gilfrunt_source_widths_with_sorts
 *    1  place row          source row that is not well formed, as there
 *    2, 3                  as by gilfrunt_check
 *    5  place entry        bad read entry, also one whose array is not listed, whose
 *                          variable is not of the array's cell width, or whose index
 *                          row is not of its index width
 *    6 and the rest        as by gilfrunt_check
 *    0                     accepted: source and target are satisfiable together, with
 *                          arrays of the widths that are listed, and leave the same
 *                          values of mapped variables open
 *
 * The lists are left as by gilfrunt_check; 28 sets all four to 0.
 */
gilfrunt_answer gilfrunt_check_with_sorts(
    const uint64_t *source, size_t source_len,
    const uint8_t *source_bits, size_t source_bits_len,
    const uint64_t *side, size_t side_len,
    const uint64_t *source_roots, size_t source_roots_len,
    const uint64_t *map, size_t map_len,
    const uint64_t *reads, size_t reads_len,
    const uint64_t *calls, size_t calls_len,
    const uint64_t *args, size_t args_len,
    const uint64_t *target, size_t target_len,
    const uint8_t *target_bits, size_t target_bits_len,
    const uint64_t *target_roots, size_t target_roots_len,
    const uint64_t *sorts, size_t sorts_len,
    uint64_t *source_widths, size_t source_widths_len,
    uint64_t *target_widths, size_t target_widths_len,
    uint64_t *classes, size_t classes_len,
    uint64_t *entries, size_t entries_len);

/* As gilfrunt_strict_check, with a sort table: 15, 18, 16, 17, 28, 1 and 2 as by
 * gilfrunt_check_with_sorts, then 19 as by gilfrunt_strict_check, then 3, 5, 6 and the
 * rest as by gilfrunt_check_with_sorts.
 */
gilfrunt_answer gilfrunt_strict_check_with_sorts(
    const uint64_t *source, size_t source_len,
    const uint8_t *source_bits, size_t source_bits_len,
    const uint64_t *side, size_t side_len,
    const uint64_t *source_roots, size_t source_roots_len,
    const uint64_t *map, size_t map_len,
    const uint64_t *reads, size_t reads_len,
    const uint64_t *calls, size_t calls_len,
    const uint64_t *args, size_t args_len,
    const uint64_t *target, size_t target_len,
    const uint8_t *target_bits, size_t target_bits_len,
    const uint64_t *target_roots, size_t target_roots_len,
    const uint64_t *sorts, size_t sorts_len,
    uint64_t *source_widths, size_t source_widths_len,
    uint64_t *target_widths, size_t target_widths_len,
    uint64_t *classes, size_t classes_len,
    uint64_t *entries, size_t entries_len);

/* Whether a book has a section of this number, 1 to 11, in the second edition to 12.
 * A book's first word, where section 1 starts, tells its edition: 176 the first, 192
 * the second. Answers the first of these that applies:
 *
 *   24                     number is outside 1 to 12
 *   20  place 0            book_len is under 176, or the first word is 192 and it is
 *                          under 192
 *       place 1            the first word is neither 176 nor 192
 *       place 1 to 11,     first section that does not start where the last ended,
 *       in the second      runs past the end, or is no whole words (2 and 10, the
 *       edition to 12      bits, need not be)
 *       place 12, in the   bytes left over after the last section
 *       second edition 14
 *   24                     number is 12 and the book is a first edition
 *    0                     accepted
 */
gilfrunt_answer gilfrunt_section_answer(
    const uint8_t *book, size_t book_len,
    uint64_t number);

/* Where that section stands in the book; 0 and 0 where gilfrunt_section_answer
 * refuses. The section is the stretch of the caller's book, not a copy.
 */
typedef struct gilfrunt_stretch {
    uint64_t start;
    uint64_t length;
} gilfrunt_stretch;

gilfrunt_stretch gilfrunt_section(
    const uint8_t *book, size_t book_len,
    uint64_t number);

/* The verdict on a book: 20 as above, or the answer of gilfrunt_check on the
 * lists that the book holds, for a second edition of gilfrunt_check_with_sorts. The
 * first four lists are gilfrunt_check's; words takes the words of the book's sections,
 * one section after the other (2 and 10 have none), and is the fifth place of 18,
 * after gilfrunt_check's own 15 and 18.
 *
 * 0 leaves in the first four what gilfrunt_check leaves, in words the book's
 * words, and zeros after them. 15 and 18 write nothing; every other refusal sets
 * all five lists to 0. The book is only read.
 */
gilfrunt_answer gilfrunt_judge(
    const uint8_t *book, size_t book_len,
    uint64_t *source_widths, size_t source_widths_len,
    uint64_t *target_widths, size_t target_widths_len,
    uint64_t *classes, size_t classes_len,
    uint64_t *entries, size_t entries_len,
    uint64_t *words, size_t words_len);

/* The strict verdict on a book: 20, or the answer of gilfrunt_strict_check on the lists
 * that the book holds, for a second edition of gilfrunt_strict_check_with_sorts. All
 * lists are as in gilfrunt_judge.
 */
gilfrunt_answer gilfrunt_strict_judge(
    const uint8_t *book, size_t book_len,
    uint64_t *source_widths, size_t source_widths_len,
    uint64_t *target_widths, size_t target_widths_len,
    uint64_t *classes, size_t classes_len,
    uint64_t *entries, size_t entries_len,
    uint64_t *words, size_t words_len);

#ifdef __cplusplus
}
#endif

#endif
