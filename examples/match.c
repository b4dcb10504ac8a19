/*
 * The nearest tractors of a library, by the matcher's C interface alone:
 *
 *     match LIBRARY K QUERY..
 *
 * LIBRARY is a library file, each QUERY a file with the records of a query. The library is loaded and its codes are
 * packed once; then each query is taken in and searched for, on the readings that are there: lost and over-age ones
 * count for nothing, as long as four others are there, or all where d is below four. What comes out for it is what the
 * kit program writes: K and how many vectors were read, then the number, settings and distance of each of the K
 * nearest; or "refused" and the number.
 *
 * Every buffer is static and has the largest size that the limits allow: no heap is used.
 *
 * Exit status: 0; 1 if anything was refused; 2 for a command line or a file that is no good.
 */
#include "matcher.h"

#include <errno.h>
#include <inttypes.h>
#include <stdio.h>
#include <stdlib.h>
#include <string.h>

/* A library as a kit keeps it. */
static struct {
    size_t d, b, n;
    int32_t marks[MATCHER_MAX_MARKS];
    uint32_t settings[MATCHER_MAX_VECTORS];
    int32_t vectors[MATCHER_MAX_COMPONENTS];
    uint8_t codes[MATCHER_MAX_CODES];
} library;

/* An answer. */
static struct matcher_entry entries[MATCHER_MAX_VECTORS];
static uint32_t reads[MATCHER_MAX_VECTORS];

/* A file, with room for one byte too many. */
static uint8_t bytes[MATCHER_MAX_LIBRARY + 1];

/* Says what is wrong with a file or an argument, and ends. */
static void fail(const char *name, const char *fault)
{
    fprintf(stderr, "match: %s: %s\n", name, fault);
    exit(2);
}

/* Reads a file of at most this many bytes, and gives how many there are; one more stands for any number above. */
static size_t read_file(const char *name, size_t most)
{
    FILE *file = fopen(name, "rb");
    if (file == NULL)
        fail(name, strerror(errno));
    size_t length = fread(bytes, 1, most + 1, file);
    if (ferror(file))
        fail(name, "cannot be read");
    fclose(file);
    return length;
}

/* Loads the library and packs the codes of its vectors. */
static uint32_t load(const char *name)
{
    size_t used;
    size_t length = read_file(name, MATCHER_MAX_LIBRARY);
    uint32_t number = matcher_load(bytes, length, library.marks, MATCHER_MAX_MARKS, library.settings,
                                   MATCHER_MAX_VECTORS, library.vectors, MATCHER_MAX_COMPONENTS, &library.d, &library.b,
                                   &library.n, &used);
    if (number != MATCHER_ACCEPTED)
        return number;
    if (used != length)
        fail(name, "bytes after the library");
    return matcher_pack_vectors(library.d, library.b, library.n, library.vectors, library.n * library.d, library.marks,
                                MATCHER_MARKS(library.d, library.b), library.codes,
                                MATCHER_CODES(library.b, library.n));
}

/*
 * Takes in a query, and searches for its k nearest vectors; how many were read is put in its place. As k stands before
 * the query in a match, it is tested first, so that of two faults the kit program's is told.
 */
static uint32_t search(const char *name, size_t k, size_t *count)
{
    int32_t query[MATCHER_MAX_DIMENSIONS];
    uint32_t word;
    size_t length = read_file(name, MATCHER_MAX_QUERY);
    if (k == 0 || k > library.n)
        return MATCHER_NEIGHBOURS;
    uint32_t number = matcher_query_present(library.d, bytes, length, query, library.d, &word);
    if (number != MATCHER_ACCEPTED)
        return number;
    return matcher_search(library.d, library.b, library.n, k, word, query, library.d, library.marks,
                          MATCHER_MARKS(library.d, library.b), library.codes, MATCHER_CODES(library.b, library.n),
                          library.vectors, library.n * library.d, entries, k, reads, library.n, count);
}

/* Prints a refusal, and gives the exit status. */
static int refused(uint32_t number)
{
    printf("refused %" PRIu32 "\n", number);
    return 1;
}

/* Prints the answer, and gives the exit status. */
static int answered(size_t k, size_t count)
{
    printf("%zu %zu\n", k, count);
    for (size_t i = 0; i < k; i++)
        printf("%" PRIu32 " %" PRIu32 " %" PRIu64 "\n", entries[i].number, library.settings[entries[i].number],
               entries[i].distance);
    return 0;
}

/* The number that an argument is: k. */
static size_t to_k(const char *argument)
{
    char *end;
    unsigned long k = strtoul(argument, &end, 10);
    if (end == argument || *end != '\0')
        fail(argument, "no number");
    return k;
}

int main(int argc, char **argv)
{
    if (argc < 4) {
        fprintf(stderr, "usage: match LIBRARY K QUERY..\n");
        return 2;
    }
    uint32_t number = load(argv[1]);
    if (number != MATCHER_ACCEPTED)
        return refused(number);
    size_t k = to_k(argv[2]);
    int status = 0;
    for (int i = 3; i < argc; i++) {
        size_t count;
        number = search(argv[i], k, &count);
        status |= number == MATCHER_ACCEPTED ? answered(k, count) : refused(number);
    }
    return status;
}
