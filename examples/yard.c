/*
 * A measured tractor added to a library file, or one removed from it, by the matcher's C interface alone:
 *
 *     yard add LIBRARY QUERY SETTINGS
 *     yard remove LIBRARY NUMBER
 *
 * LIBRARY is a library file with nothing behind the library, QUERY a file with the records of a query. As a stored
 * tractor has all its components, each reading has to be good. An added tractor comes last, with this settings number;
 * where the one of a number is removed, those behind it move down by one. The marks stay as they are.
 *
 * The new library is written to LIBRARY.new. Only when that file is whole and on the disk is it renamed over LIBRARY;
 * if anything is wrong, LIBRARY stays as it was. LIBRARY.new is made before LIBRARY is read and must not be there: so
 * of two runs at a time one is turned away. A run that was cut off may leave it behind, to be removed by hand.
 *
 * Every buffer is static and has the largest size that the limits allow: no heap is used.
 *
 * Exit status: 0; 1 if anything was refused, and then the number and the cause are printed; 2 for a command line or a
 * file that is no good.
 */
#define _POSIX_C_SOURCE 200809L

#include "matcher.h"

#include <errno.h>
#include <inttypes.h>
#include <stdio.h>
#include <stdlib.h>
#include <string.h>
#include <sys/stat.h>
#include <unistd.h>

/* What stays. */
static size_t d, b;
static int32_t marks[MATCHER_MAX_MARKS];

/*
 * What changes, before and after. There is room for one vector more than a library can have, since a call tests the
 * lengths before it refuses to add to a full one.
 */
enum { ROOM = MATCHER_MAX_VECTORS + 1 };

static struct stock {
    size_t n;
    int32_t vectors[ROOM * MATCHER_MAX_DIMENSIONS];
    uint32_t settings[ROOM];
    uint8_t codes[MATCHER_CODES(MATCHER_MAX_DIMENSION_BITS * MATCHER_MAX_DIMENSIONS, ROOM)];
} before, after;

/* A file, with room for one byte too many. */
static uint8_t bytes[MATCHER_MAX_LIBRARY + 1];

/* The old file, as the system has it: what it is, and who may read and write it. */
static struct stat old_file;

/* The new file: its name, and whether it is there. */
static char new_name[FILENAME_MAX];
static FILE *new_file;
static int begun;

/* Ends, and leaves no new file behind. */
static void end(int status)
{
    if (begun)
        remove(new_name);
    exit(status);
}

/* Says what is wrong with a file or an argument, and ends. */
static void fail(const char *name, const char *fault)
{
    fprintf(stderr, "yard: %s: %s\n", name, fault);
    end(2);
}

/* The causes for which the calls below are refused, in words. */
static const char *const causes[] = {
    [MATCHER_DIMENSION] = "the number of dimensions is not 1 to 32",
    [MATCHER_BITS] = "the codes have more than 6 bits a dimension",
    [MATCHER_COUNT] = "the number of tractors is not 1 to 512",
    [MATCHER_COMPONENT] = "a component beyond the last dimension is not zero",
    [MATCHER_MARK] = "a mark is out of range, or below the one before it",
    [MATCHER_OUTSIDE] = "a tractor lies outside the marks",
    [MATCHER_KIND] = "a record is of no known kind",
    [MATCHER_TRUNCATED] = "the file ends inside a record, or before the next",
    [MATCHER_STALE] = "a reading is lost, or older than 2 seconds",
    [MATCHER_NOT_A_NUMBER] = "the value of a reading is not a number",
    [MATCHER_OUT_OF_RANGE] = "the value of a reading is out of range",
    [MATCHER_TRAILING] = "there is more than the readings",
    [MATCHER_MISPLACED] = "a record stands in a wrong place",
    [MATCHER_FULL] = "there are 512 tractors, and no room for another",
    [MATCHER_NOT_REMOVABLE] = "no tractor has this number, or it is the only one",
};

/* Goes on if a call was not refused; else prints the number and the cause, and ends. */
static void check(uint32_t number, const char *name)
{
    if (number == MATCHER_ACCEPTED)
        return;
    int known = number < sizeof causes / sizeof causes[0] && causes[number] != NULL;
    printf("refused %" PRIu32 ": %s: %s\n", number, name, known ? causes[number] : "matcher.h has the cause");
    end(1);
}

/* Makes the new file, which must not be there. The old one is no link: the new one would only take the link's place. */
static void begin(const char *library)
{
    if (lstat(library, &old_file) != 0)
        fail(library, strerror(errno));
    if (!S_ISREG(old_file.st_mode))
        fail(library, "no plain file");
    int length = snprintf(new_name, sizeof new_name, "%s.new", library);
    if (length < 0 || (size_t)length >= sizeof new_name)
        fail(library, "the name is too long");
    new_file = fopen(new_name, "wbx");
    if (new_file == NULL)
        fail(new_name, strerror(errno));
    begun = 1;
}

/* Reads a file of at most this many bytes, and gives how many there are; one more stands for any number above. */
static size_t read_file(const char *name, size_t most)
{
    FILE *file = fopen(name, "rb");
    if (file == NULL)
        fail(name, strerror(errno));
    size_t length = fread(bytes, 1, most + 1, file);
    if (ferror(file))
        fail(name, "cannot be read");
    fclose(file);
    return length;
}

/* Loads the library and packs the codes of its vectors, which the file does not hold. */
static void load(const char *library)
{
    size_t used;
    size_t length = read_file(library, MATCHER_MAX_LIBRARY);
    check(matcher_load(bytes, length, marks, MATCHER_MAX_MARKS, before.settings, MATCHER_MAX_VECTORS, before.vectors,
                       MATCHER_MAX_COMPONENTS, &d, &b, &before.n, &used),
          library);
    if (used != length)
        fail(library, "bytes after the library");
    check(matcher_pack_vectors(d, b, before.n, before.vectors, before.n * d, marks, MATCHER_MARKS(d, b), before.codes,
                               MATCHER_CODES(b, before.n)),
          library);
}

/* Adds the tractor of a query, taken in by the first intake: a reading that is lost or over age is refused. */
static void add(const char *library, const char *query, uint32_t setting)
{
    int32_t vector[MATCHER_MAX_DIMENSIONS];
    size_t length = read_file(query, MATCHER_MAX_QUERY);
    check(matcher_query(d, bytes, length, vector, d), query);
    after.n = before.n + 1;
    check(matcher_add(d, b, before.n, marks, MATCHER_MARKS(d, b), before.codes, MATCHER_CODES(b, before.n),
                      before.settings, before.n, before.vectors, before.n * d, vector, d, setting, after.vectors,
                      after.n * d, after.settings, after.n, after.codes, MATCHER_CODES(b, after.n)),
          library);
}

/* Removes the tractor of a number. */
static void take_out(const char *library, size_t number)
{
    after.n = before.n - 1;
    check(matcher_remove(d, b, before.n, marks, MATCHER_MARKS(d, b), before.codes, MATCHER_CODES(b, before.n),
                         before.settings, before.n, before.vectors, before.n * d, number, after.vectors, after.n * d,
                         after.settings, after.n, after.codes, MATCHER_CODES(b, after.n)),
          library);
}

/* Writes the new file, with the permissions of the old one, sees it on the disk, and renames it over the old one. */
static void replace(const char *library)
{
    size_t length = MATCHER_LIBRARY(d, b, after.n);
    check(matcher_write(d, b, after.n, marks, MATCHER_MARKS(d, b), after.settings, after.n, after.vectors,
                        after.n * d, bytes, length),
          library);
    if (fwrite(bytes, 1, length, new_file) != length || fflush(new_file) != 0
        || fchmod(fileno(new_file), old_file.st_mode & (S_IRWXU | S_IRWXG | S_IRWXO)) != 0
        || fsync(fileno(new_file)) != 0 || fclose(new_file) != 0 || rename(new_name, library) != 0)
        fail(new_name, strerror(errno));
    begun = 0;
}

/* The number that an argument is: digits alone, of at most 32 bits. */
static uint32_t to_number(const char *argument)
{
    uint64_t number = 0;
    size_t digits = strspn(argument, "0123456789");
    if (digits == 0 || argument[digits] != '\0')
        fail(argument, "no number");
    for (size_t i = 0; i < digits; i++) {
        number = 10 * number + (uint64_t)(argument[i] - '0');
        if (number > UINT32_MAX)
            fail(argument, "too large a number");
    }
    return (uint32_t)number;
}

int main(int argc, char **argv)
{
    int adds = argc == 5 && strcmp(argv[1], "add") == 0;
    int removes = argc == 4 && strcmp(argv[1], "remove") == 0;
    if (!adds && !removes) {
        fprintf(stderr, "usage: yard add LIBRARY QUERY SETTINGS\n       yard remove LIBRARY NUMBER\n");
        return 2;
    }
    const char *library = argv[2];
    uint32_t last = to_number(argv[argc - 1]);
    begin(library);
    load(library);
    if (adds)
        add(library, argv[3], last);
    else
        take_out(library, last);
    replace(library);
    if (adds)
        printf("added %zu with settings %" PRIu32 "; tractors: %zu\n", before.n, last, after.n);
    else
        printf("removed %" PRIu32 " with settings %" PRIu32 "; tractors: %zu\n", last, before.settings[last], after.n);
    return 0;
}
