/* The verdict on a book of any size and either edition, from a file.
 *
 *   tools/build gilfrunt > staticlib.log 2>&1
 *   gcc -std=c99 -Iinclude examples/book.c target/staticlib/libgilfrunt.a -o target/book && target/book samples/reply.book
 *
 * The first command proves and builds the library, once. The second prints what
 * verdict prints, `accepted` or `refused` with number, place and detail. Exit status:
 * 0 accepted, 1 refused, 2 not done, with a message. verdict itself takes books of at
 * most 65,536 bytes; this program sizes its lists by the book. With --strict before the
 * file it prints what strict_verdict prints: every root must have one bit.
 *
 * The answer comes from the proved library. What stands in this file is not proved.
 */
#include <inttypes.h>
#include <stdio.h>
#include <stdlib.h>
#include <string.h>

#include "gilfrunt.h"

/* A byte or word more than asked for, so that an empty list has a pointer too. */
static void *room(size_t count, size_t size)
{
    return count < SIZE_MAX / size ? malloc((count + 1) * size) : NULL;
}

/* The whole of a file, and how many bytes that is; NULL if it cannot be read. */
static uint8_t *read_file(const char *path, size_t *length)
{
    FILE *file = fopen(path, "rb");
    size_t space = 1 << 16, used = 0;
    uint8_t *bytes = room(space, 1);

    while (file != NULL && bytes != NULL) {
        used += fread(bytes + used, 1, space - used, file);
        if (used < space)
            break;
        uint8_t *more = space <= SIZE_MAX / 2 ? realloc(bytes, space * 2) : NULL;
        if (more == NULL)
            free(bytes);
        bytes = more;
        space *= 2;
    }
    if (file == NULL || bytes == NULL || ferror(file)) {
        free(bytes);
        bytes = NULL;
    }
    if (file != NULL)
        fclose(file);
    *length = used;
    return bytes;
}

/* The bytes of a section; 0 in a book of bad shape, which is refused anyway. */
static size_t section_length(const uint8_t *book, size_t length, uint64_t number)
{
    return (size_t)gilfrunt_section(book, length, number).length;
}

/* How many words a book's sections have, all but those of the bits. A first edition has
 * no section of sorts, so that counts 0 there. */
static size_t word_count(const uint8_t *book, size_t length)
{
    size_t bytes = 0;
    for (uint64_t number = GILFRUNT_SECTION_SOURCE; number <= GILFRUNT_SECTION_SORTS; number++)
        if (number != GILFRUNT_SECTION_SOURCE_BITS && number != GILFRUNT_SECTION_TARGET_BITS)
            bytes += section_length(book, length, number);
    return bytes / 8;
}

/* Lends lists of the sizes that the book needs. WorkShort (18) says that there was
 * no memory for them: nothing was judged. */
static gilfrunt_answer judge(const uint8_t *book, size_t length, int strict)
{
    size_t source_rows = section_length(book, length, GILFRUNT_SECTION_SOURCE) / (8 * GILFRUNT_SOURCE_ROW);
    size_t target_rows = section_length(book, length, GILFRUNT_SECTION_TARGET) / (8 * GILFRUNT_TARGET_ROW);
    size_t sizes[5] = {source_rows, target_rows, target_rows, target_rows, word_count(book, length)};
    uint64_t *lists[5];
    gilfrunt_answer a = {GILFRUNT_WORK_SHORT, 0, 0};
    int all = 1;

    for (int k = 0; k < 5; k++) {
        lists[k] = room(sizes[k], sizeof(uint64_t));
        all = all && lists[k] != NULL;
    }
    if (all)
        a = (strict ? gilfrunt_strict_judge : gilfrunt_judge)(
            book, length, lists[0], sizes[0], lists[1], sizes[1],
            lists[2], sizes[2], lists[3], sizes[3], lists[4], sizes[4]);
    for (int k = 0; k < 5; k++)
        free(lists[k]);
    return a;
}

int main(int argc, char **argv)
{
    int strict = argc == 3 && strcmp(argv[1], "--strict") == 0;
    if (argc != 2 + strict) {
        fprintf(stderr, "usage: book [--strict] FILE\n");
        return 2;
    }
    const char *path = argv[1 + strict];
    size_t length;
    uint8_t *book = read_file(path, &length);
    if (book == NULL) {
        fprintf(stderr, "book: cannot read %s\n", path);
        return 2;
    }
    gilfrunt_answer a = judge(book, length, strict);
    free(book);
    if (a.number == GILFRUNT_WORK_SHORT) {
        fprintf(stderr, "book: no memory for %s\n", path);
        return 2;
    }
    if (a.number == GILFRUNT_ACCEPTED)
        printf("accepted\n");
    else
        printf("refused %" PRIu64 " %" PRIu64 " %" PRIu64 "\n", a.number, a.place, a.detail);
    if (fflush(stdout) != 0) {
        perror("book");
        return 2;
    }
    return a.number != GILFRUNT_ACCEPTED;
}
