/*
 * A day's measurements matched together, by the matcher's C interface alone:
 *
 *     batch LIBRARY K QUERIES
 *
 * LIBRARY is a library file, QUERIES a file of queries one behind the other, each of as many records as the library
 * has dimensions. The library is loaded and its codes are packed once; then the queries are taken in and matched, 64 at
 * a time, on the readings that are there: lost and over-age ones count for nothing, as long as four others are there,
 * or all where d is below four. A line for each query, numbered from 0, has how many vectors were read, then the
 * number, settings and distance of each of the K nearest; or the number of the refusal:
 *
 *     0: read 7; 28 1503 1417; 24 1404 139251
 *     1: refused 18
 *
 * A query that is refused does not stop the others. But where a byte in a record's place is no reading's kind, nothing
 * tells where the next query begins: its line is the last, and the fault is told.
 *
 * A library or a K that is refused is told by the one line "refused" and the number.
 *
 * Every buffer is static and has the largest size that the limits allow: no heap is used.
 *
 * Exit status: 0; 1 if anything was refused; 2 for a command line or a file that is no good.
 */
#include "matcher.h"

#include <errno.h>
#include <inttypes.h>
#include <stdio.h>
#include <stdlib.h>
#include <string.h>

/* A library as a workshop keeps it. */
static struct {
    size_t d, b, n;
    int32_t marks[MATCHER_MAX_MARKS];
    uint32_t settings[MATCHER_MAX_VECTORS];
    int32_t vectors[MATCHER_MAX_COMPONENTS];
    uint8_t codes[MATCHER_MAX_CODES];
} library;

/* Queries that are matched together, those that the intake refuses left out. */
static size_t m;
static int32_t queries[MATCHER_MAX_QUERIES * MATCHER_MAX_DIMENSIONS];
static uint32_t words[MATCHER_MAX_QUERIES];

/* What comes of them. */
static struct matcher_answer answers[MATCHER_MAX_QUERIES];
static struct matcher_entry entries[MATCHER_MAX_QUERIES * MATCHER_MAX_NEIGHBOURS];
static uint32_t reads[MATCHER_MAX_QUERIES * MATCHER_MAX_VECTORS];

/* A library file, with room for one byte too many; or the records of a query. */
static uint8_t bytes[MATCHER_MAX_LIBRARY + 1];

/* Says what is wrong with a file or an argument, and ends. */
static void fail(const char *name, const char *fault)
{
    fflush(stdout);
    fprintf(stderr, "batch: %s: %s\n", name, fault);
    exit(2);
}

/* Opens a file. */
static FILE *opened(const char *name)
{
    FILE *file = fopen(name, "rb");
    if (file == NULL)
        fail(name, strerror(errno));
    return file;
}

/* Loads the library and packs the codes of its vectors. */
static uint32_t load(const char *name)
{
    size_t used;
    FILE *file = opened(name);
    size_t length = fread(bytes, 1, sizeof bytes, file);
    if (ferror(file))
        fail(name, "cannot be read");
    fclose(file);
    uint32_t number = matcher_load(bytes, length, library.marks, MATCHER_MAX_MARKS, library.settings,
                                   MATCHER_MAX_VECTORS, library.vectors, MATCHER_MAX_COMPONENTS, &library.d, &library.b,
                                   &library.n, &used);
    if (number != MATCHER_ACCEPTED)
        return number;
    if (used != length)
        fail(name, "bytes after the library");
    return matcher_pack_vectors(library.d, library.b, library.n, library.vectors, library.n * library.d, library.marks,
                                MATCHER_MARKS(library.d, library.b), library.codes,
                                MATCHER_CODES(library.b, library.n));
}

/* The kinds of a reading's record, and how many bytes of it stand behind the kind. */
enum { FRESH = 5, HELD = 6, LOST = 7 };
static const size_t behind_kind[] = { [FRESH] = 4, [HELD] = 5, [LOST] = 0 };

/*
 * Reads the records of the next query, as far as they go, and gives how many bytes they are: 0 at the end of the file.
 * A kind that is no reading's is the last byte that is read.
 */
static size_t read_query(FILE *file, const char *name, int *known)
{
    size_t length = 0;
    *known = 1;
    for (size_t j = 0; j < library.d && *known; j++) {
        int kind = getc(file);
        if (kind == EOF)
            break;
        bytes[length++] = (uint8_t)kind;
        *known = kind >= FRESH && kind <= LOST;
        if (*known)
            length += fread(bytes + length, 1, behind_kind[kind], file);
    }
    if (ferror(file))
        fail(name, "cannot be read");
    return length;
}

/* Takes in a query behind those that are there. */
static uint32_t take_in(size_t length)
{
    uint32_t number = matcher_query_present(library.d, bytes, length, queries + m * library.d, library.d, words + m);
    if (number == MATCHER_ACCEPTED)
        m++;
    return number;
}

/* Searches for the k nearest vectors of each query that was taken in. */
static uint32_t match(size_t k)
{
    return matcher_batch(library.d, library.b, library.n, k, m, queries, m * library.d, words, m, library.marks,
                         MATCHER_MARKS(library.d, library.b), library.codes, MATCHER_CODES(library.b, library.n),
                         library.vectors, library.n * library.d, answers, m, entries, m * k, reads, m * library.n);
}

/* Prints a refusal, and gives the exit status. */
static int refused(uint32_t number)
{
    printf("refused %" PRIu32 "\n", number);
    return 1;
}

/* Prints what comes of query i of those taken in, and gives the exit status. */
static int answered(size_t i, size_t k)
{
    if (answers[i].status != MATCHER_ACCEPTED)
        return refused(answers[i].status);
    printf("read %zu", answers[i].count);
    for (const struct matcher_entry *entry = entries + i * k; entry < entries + (i + 1) * k; entry++)
        printf("; %" PRIu32 " %" PRIu32 " %" PRIu64, entry->number, library.settings[entry->number], entry->distance);
    printf("\n");
    return 0;
}

/* Matches all queries of a file, 64 at a time, and gives the exit status. */
static int match_all(const char *name, size_t k)
{
    FILE *file = opened(name);
    size_t first = 0, count;
    int status = 0, known = 1;
    do {
        /* what the intake says of each */
        uint32_t numbers[MATCHER_MAX_QUERIES];
        size_t length;
        m = 0;
        for (count = 0; count < MATCHER_MAX_QUERIES && known; count++) {
            length = read_query(file, name, &known);
            if (length == 0)
                break;
            numbers[count] = take_in(length);
        }
        uint32_t number = match(k);
        if (number != MATCHER_ACCEPTED)
            return refused(number);
        for (size_t i = 0, taken = 0; i < count; i++) {
            printf("%zu: ", first + i);
            status |= numbers[i] == MATCHER_ACCEPTED ? answered(taken++, k) : refused(numbers[i]);
        }
        first += count;
    } while (count == MATCHER_MAX_QUERIES);
    if (!known)
        fail(name, "a record of no known kind, or in a wrong place: no query behind it can be told");
    fclose(file);
    return status;
}

/* The number that an argument is: k. */
static size_t to_k(const char *argument)
{
    char *end;
    unsigned long k = strtoul(argument, &end, 10);
    if (end == argument || *end != '\0')
        fail(argument, "no number");
    return k;
}

int main(int argc, char **argv)
{
    if (argc != 4) {
        fprintf(stderr, "usage: batch LIBRARY K QUERIES\n");
        return 2;
    }
    uint32_t number = load(argv[1]);
    if (number != MATCHER_ACCEPTED)
        return refused(number);
    size_t k = to_k(argv[2]);
    /* there is no room for more entries than vectors */
    if (k == 0 || k > library.n)
        return refused(MATCHER_NEIGHBOURS);
    return match_all(argv[3], k);
}
