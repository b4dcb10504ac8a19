/*
 * Prints how many bytes of stack each call of the matcher uses on an input of the program, which is read from standard
 * input, and what the call gives. A call runs in a thread whose stack is painted before it and looked through after it.
 */
#define _POSIX_C_SOURCE 200809L

#include "matcher.h"

#include <pthread.h>
#include <stdio.h>
#include <stdlib.h>
#include <string.h>

enum { STACK = 1 << 20, PAINT = 0xA5 };

static _Alignas(4096) unsigned char stack[STACK];

/* what the calls are given */
static uint8_t input[MATCHER_MAX_MATCH], file[MATCHER_MAX_LIBRARY], output[MATCHER_MAX_TEXT];
static size_t length, d, b, n, used, place, bits;
static int32_t marks[MATCHER_MAX_MARKS], made[MATCHER_MAX_MARKS], vectors[MATCHER_MAX_COMPONENTS];
static int32_t query[MATCHER_MAX_DIMENSIONS], component;
static uint32_t word, present;
static uint32_t settings[MATCHER_MAX_VECTORS], reads[MATCHER_MAX_VECTORS];
static struct matcher_entry entries[MATCHER_MAX_VECTORS];
static uint64_t distance, lowers[MATCHER_MAX_VECTORS], uppers[MATCHER_MAX_VECTORS];
static uint8_t codes[MATCHER_MAX_CODES], regions[MATCHER_MAX_COMPONENTS];
static int32_t new_vectors[MATCHER_MAX_COMPONENTS];
static uint32_t new_settings[MATCHER_MAX_VECTORS];
static uint8_t new_codes[MATCHER_MAX_CODES];
static int32_t queries[MATCHER_MAX_QUERIES * MATCHER_MAX_DIMENSIONS];
static uint32_t words[MATCHER_MAX_QUERIES], batch_reads[MATCHER_MAX_QUERIES * MATCHER_MAX_VECTORS];
static struct matcher_answer answers[MATCHER_MAX_QUERIES];
static struct matcher_entry batch_entries[MATCHER_MAX_QUERIES * MATCHER_MAX_NEIGHBOURS];

#define MARKS marks, MATCHER_MARKS(d, b)
#define VECTORS vectors, n * d
#define CODES codes, MATCHER_CODES(b, n)
#define NEW(count) new_vectors, (count) * d, new_settings, (count), new_codes, MATCHER_CODES(b, count)

/* A thread that makes one call and keeps what it gives. */
static size_t given;

#define CALL(name, ...) \
    static void *run_##name(void *argument) \
    { \
        given = (size_t)matcher_##name(__VA_ARGS__); \
        return argument; \
    }

CALL(load, input, length, marks, MATCHER_MAX_MARKS, settings, MATCHER_MAX_VECTORS,
     vectors, MATCHER_MAX_COMPONENTS, &d, &b, &n, &used)
CALL(query, d, input + used + 2, length - used - 2, query, d)
CALL(query_present, d, input + used + 2, length - used - 2, query, d, &word)
CALL(library_length, d, b, n, &place)
CALL(write, d, b, n, MARKS, settings, n, VECTORS, file, MATCHER_LIBRARY(d, b, n))
CALL(fresh, 0x3F800000, &component)
CALL(fresh_value, 1.0F, &component)
CALL(held, 0x3F800000, 20, &component)
CALL(held_value, 1.0F, 20, &component)
CALL(lost, &component)
CALL(fresh_present, 0x3F800000, &component, &present)
CALL(fresh_value_present, 1.0F, &component, &present)
CALL(held_present, 0x3F800000, 20, &component, &present)
CALL(held_value_present, 1.0F, 20, &component, &present)
CALL(lost_present, &component, &present)
CALL(stretch, d, b, d, &place, &bits)
CALL(check_marks, d, b, MARKS)
CALL(check_part, d, b, MARKS, d)
CALL(part_length, d, b, MARKS, d)
CALL(part_at, d, b, MARKS, d, 1)
CALL(region_of, d, b, MARKS, d, vectors[d - 1], &place)
CALL(region, marks, ((size_t)1 << (b / d)) + 1, (size_t)1 << (b / d), vectors[0], &place)
CALL(make_marks, d, b, n, VECTORS, made, MATCHER_MARKS(d, b))
CALL(regions, d, b, n, VECTORS, MARKS, regions, n * d)
CALL(pack_vectors, d, b, n, VECTORS, MARKS, CODES)
CALL(pack, d, b, n, regions, n * d, CODES)
CALL(unpack, d, b, n, CODES, regions, n * d)
CALL(check_codes, d, b, n, MARKS, CODES)
/* the last vector is added to the others, whose codes are whole bytes; the first is removed */
CALL(add, d, b, n - 1, MARKS, codes, MATCHER_CODES(b, n - 1), settings, n - 1, vectors, (n - 1) * d,
     vectors + (n - 1) * d, d, settings[n - 1], NEW(n))
CALL(remove, d, b, n, MARKS, CODES, settings, n, VECTORS, 0, NEW(n - 1))
CALL(distance, query, d, vectors, d, &distance)
CALL(bounds, d, b, n, word, query, d, MARKS, CODES, lowers, n, uppers, n)
CALL(scan, d, n, n, word, query, d, VECTORS, entries, n)
CALL(search, d, b, n, n, word, query, d, MARKS, CODES, VECTORS, entries, n, reads, n, &place)
/* as many queries as there can be, each the one of the input */
CALL(batch, d, b, n, n, MATCHER_MAX_QUERIES, queries, MATCHER_MAX_QUERIES * d, words, MATCHER_MAX_QUERIES, MARKS, CODES,
     VECTORS, answers, MATCHER_MAX_QUERIES, batch_entries, MATCHER_MAX_QUERIES * n, batch_reads,
     MATCHER_MAX_QUERIES * n)
CALL(match, input, length, output, MATCHER_MAX_TEXT, &place)

static void *run_nothing(void *argument)
{
    return argument;
}

/* The bytes of the stack that are not as they were painted. */
static size_t painted_over(void *(*run)(void *))
{
    pthread_attr_t attributes;
    pthread_t thread;
    memset(stack, PAINT, STACK);
    if (pthread_attr_init(&attributes) != 0 || pthread_attr_setstack(&attributes, stack, STACK) != 0
        || pthread_create(&thread, &attributes, run, NULL) != 0 || pthread_join(thread, NULL) != 0)
        exit(2);
    size_t deepest = 0;
    while (deepest < STACK && stack[deepest] == PAINT)
        deepest++;
    return STACK - deepest;
}

/* The call's own: what a thread that does nothing uses is left out, and what is only done at a first call. */
static size_t measured(void *(*run)(void *))
{
    painted_over(run);
    size_t all = painted_over(run);
    return all - painted_over(run_nothing);
}

/* The call's name, its bytes of stack, and what it gives. */
static void measure(const char *name, void *(*run)(void *))
{
    size_t bytes = measured(run);
    printf("matcher_%s %zu %zu\n", name, bytes, given);
}

#define MEASURE(name) measure(#name, run_##name)

int main(void)
{
    length = fread(input, 1, sizeof input, stdin);
    painted_over(run_nothing);
    MEASURE(load);
    MEASURE(query);
    MEASURE(query_present);
    MEASURE(library_length);
    MEASURE(write);
    MEASURE(fresh);
    MEASURE(fresh_value);
    MEASURE(held);
    MEASURE(held_value);
    MEASURE(lost);
    MEASURE(fresh_present);
    MEASURE(fresh_value_present);
    MEASURE(held_present);
    MEASURE(held_value_present);
    MEASURE(lost_present);
    MEASURE(stretch);
    MEASURE(check_marks);
    MEASURE(check_part);
    MEASURE(part_length);
    MEASURE(part_at);
    MEASURE(region_of);
    MEASURE(region);
    MEASURE(make_marks);
    MEASURE(regions);
    MEASURE(pack_vectors);
    MEASURE(pack);
    MEASURE(unpack);
    MEASURE(check_codes);
    MEASURE(add);
    MEASURE(remove);
    MEASURE(distance);
    MEASURE(bounds);
    MEASURE(scan);
    MEASURE(search);
    for (size_t i = 0; i < MATCHER_MAX_QUERIES; i++) {
        memcpy(queries + i * d, query, d * sizeof query[0]);
        words[i] = word;
    }
    MEASURE(batch);
    for (size_t i = 0; i < MATCHER_MAX_QUERIES; i++)
        if (answers[i].status != 0 || answers[i].count != n)
            return 2;
    MEASURE(match);
    return 0;
}
