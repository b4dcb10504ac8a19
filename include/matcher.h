/*
 * The tractor matcher, for C (C99 or later): target/staticlib/libmatcher.a, built for x86-64 and for no other machine.
 * Of C's library it asks for memcpy and memset and nothing else.
 *
 * A MATCH, CALL BY CALL
 *
 * 1. The library. matcher_load takes it from the bytes of a library file, marks and all; what it fills is handed on
 *    with the exact lengths of the calls below. Or there are vectors: matcher_make_marks makes marks for them, and
 *    matcher_write the bytes of a file.
 * 2. Its codes, which are in no file: matcher_pack_vectors makes them, once for a library.
 * 3. The query. matcher_query_present takes in the bytes of its readings, and gives its components and its presence
 *    word. Or a call for each reading: matcher_fresh_present, matcher_held_present, matcher_lost_present.
 * 4. The answer: matcher_search, or matcher_batch for up to MATCHER_MAX_QUERIES queries. matcher_scan gives the same
 *    entries and wants neither marks nor codes.
 *
 * matcher_match is all of it in one call, from bytes to the text of the kit program. matcher_add and matcher_remove
 * change a library, for matcher_write and for the next search. examples/match.c, batch.c and yard.c show each in use.
 *
 * WORDS
 *
 * A vector is a stored tractor: d components, whole numbers of 1/256 from -32768 to 32767. Vectors count from 0. A
 * query is the measured tractor, d components too. Dimensions count from 1; d is 1 to 32.
 *
 * The b bits of a code are dealt out to the dimensions: dimension j has b / d, and one more if j <= b % d. With w
 * bits, at most 6, a dimension has 2^w regions, numbered from 0, and 2^w + 1 marks, which lie in -32768 to 32768 and
 * never fall. A value v is in region r exactly if mark r <= v < mark (r + 1); equal neighbours make an empty region.
 * The marks buffer has the marks of dimension 1, then those of dimension 2, and so on.
 *
 * Who makes a library chooses b. One bit more a dimension doubles the regions and makes codes longer, and a search
 * reads fewer vectors: of 512 that are spread evenly, for one neighbour, with 1 to 6 bits a dimension, 112, 20, 5.4,
 * 2.5, 1.4 and 1.2 at 8 dimensions, and 508, 123, 18, 4.5, 2.2 and 1.6 at 32. A good start is b = 4 d. Where vectors lie
 * in narrow clusters a search reads about a whole cluster with up to 4 bits; there, and where a vector is dear to read,
 * b = 6 d pays.
 *
 * A code is a vector's region numbers joined, dimension 1 first, high bit first. Codes follow each other with no
 * gap, filling bytes from the high bit; the spare bits of the last byte are zero. A code's cell is every vector
 * whose components lie, each, in the region that the code names. The distance of two vectors is the sum of the
 * squared differences of their components.
 *
 * A reading that is lost, or held for longer than MATCHER_AGE_LIMIT, can be taken as absent. The presence word of a
 * query says which dimensions are present: bit j - 1 is that of dimension j, and MATCHER_FULL_WORD(d) has all of them.
 * With a word, a distance and a cell's least and greatest distance are sums over the present dimensions only. At least
 * four dimensions have to be present, or all d where d is below four. The query has d components all the same: what
 * stands for an absent one is a component too, and counts for nothing.
 *
 * THE CALLS
 *
 * A buffer is passed as a pointer and its length in elements. The pointer is aligned for its type and leads to that
 * many elements, a pointer with no length to one. It is never NULL and always aligned, that of an empty buffer too,
 * through which nothing is read or written: the address of any object of its type will do. What a call writes must not
 * overlap anything else that it is given.
 *
 * A call gives 0, or it is refused and gives the number of a refusal. The numbers that a call can give stand with it
 * under "Refusals", in the order in which their causes are tested. It gives the first whose cause holds, and a number
 * for no other reason. A refused call sets what stands with it under "Counts" to 0, and leaves all else that it was to
 * write as it was. A call that is not refused writes every element of a buffer that it is to fill, unless another rule
 * stands with it.
 *
 * The calls use no heap, keep nothing from one call to the next, and do no input or output. So they can run at the
 * same time, each on what it is given. A call uses at most 69 KiB of stack, matcher_batch at most 93 KiB,
 * matcher_match at most 160 KiB.
 */
#ifndef MATCHER_H
#define MATCHER_H

#include <stddef.h>
#include <stdint.h>

#ifdef __cplusplus
extern "C" {
#endif

/*
 * ---- version
 *
 * The major number is that of the specification that the matcher was written from. The minor number is that of the
 * last request to change it that is built in: it moves with each, and docs/changes has a page for each. A request adds
 * calls, numbers of refusals or limits, and may give a call another parameter, so what was compiled with the header of
 * another version is to be compiled anew. The archive does not tell its version: it goes with the header beside it.
 */

#define MATCHER_VERSION_MAJOR 1
#define MATCHER_VERSION_MINOR 5
#define MATCHER_VERSION (100 * MATCHER_VERSION_MAJOR + MATCHER_VERSION_MINOR) /* the two in one, to be compared */

/* ---- refusals */

enum matcher_refusal {
    MATCHER_ACCEPTED = 0,         /* not refused */
    MATCHER_DIMENSION = 1,        /* d not 1 to 32, or a dimension number not 1 to d */
    MATCHER_BITS = 2,             /* b above 6 d, or a number of regions other than 1, 2, 4, 8, 16, 32 or 64 */
    MATCHER_COUNT = 3,            /* n not 1 to 512 */
    MATCHER_NEIGHBOURS = 4,       /* k is 0 or above n */
    MATCHER_LENGTH = 5,           /* the length of a buffer is not the exact one */
    MATCHER_COMPONENT = 6,        /* a component out of range, or not zero beyond d */
    MATCHER_MARK = 7,             /* a mark out of range, or below the one before it in its dimension */
    MATCHER_OUTSIDE = 8,          /* a vector, or a value whose region is sought, outside the marks */
    MATCHER_CODE = 9,             /* a code naming an empty region, a region number past the last, a spare bit set */
    MATCHER_CELL = 10,            /* the search reads a vector that is not in its code's cell */
    MATCHER_KIND = 11,            /* a kind byte not 1 to 7 */
    MATCHER_TRUNCATED = 12,       /* the input ends inside a record, or before the next */
    MATCHER_STALE = 13,           /* a reading is lost, or its age above 20 */
    MATCHER_NOT_A_NUMBER = 14,    /* a value is NaN */
    MATCHER_OUT_OF_RANGE = 15,    /* a value is infinite, or its component out of range */
    MATCHER_TRAILING = 16,        /* bytes after a query */
    MATCHER_MISPLACED = 17,       /* a record of a known kind in a wrong place */
    MATCHER_TOO_FEW_PRESENT = 18, /* fewer than four dimensions present, or fewer than d where d is below four */
    MATCHER_PRESENCE_BIT = 19,    /* a bit of the presence word at or above d */
    MATCHER_FULL = 20,            /* adding to a library of 512 vectors */
    MATCHER_NOT_REMOVABLE = 21,   /* removing a number that is not stored, or the only vector */
    MATCHER_TOO_MANY_QUERIES = 22 /* a batch of more than 64 queries */
};

/* ---- limits */

#define MATCHER_MAX_DIMENSIONS 32      /* d is 1 to this */
#define MATCHER_MAX_DIMENSION_BITS 6   /* b is 0 to this times d */
#define MATCHER_MAX_VECTORS 512        /* n is 1 to this; k is 1 to n */
#define MATCHER_MAX_NEIGHBOURS 512     /* k is 1 to n, and never above this */
#define MATCHER_MAX_QUERIES 64         /* a batch has 0 to this */
#define MATCHER_KIT_VECTORS 512        /* the most vectors of matcher_match's library */
#define MATCHER_LEAST_COMPONENT (-32768)
#define MATCHER_GREATEST_COMPONENT 32767
#define MATCHER_LEAST_MARK (-32768)
#define MATCHER_GREATEST_MARK 32768
#define MATCHER_UNIT 256               /* a component of 1 is a reading of 1/256 */
#define MATCHER_AGE_LIMIT 20           /* tenths of a second: a held reading is good up to this age */
#define MATCHER_LEAST_PRESENT 4        /* so many dimensions have to be present, or all where d is below this */

/* ---- the presence word of d dimensions, d within its limit, that are all present */

#define MATCHER_FULL_WORD(d) ((uint32_t)0xFFFFFFFF >> (MATCHER_MAX_DIMENSIONS - (d)))

/*
 * ---- lengths, in elements. Counts are within the limits, and n may be one off them, 0 or 513, as it is where a vector
 * is added or removed; an argument is evaluated more than once.
 */

#define MATCHER_MARKS(d, b) ((d) + ((d) + (b) % (d)) * ((size_t)1 << (b) / (d)))
#define MATCHER_CODES(b, n) (((size_t)(n) * (b) + 7) / 8)
#define MATCHER_LIBRARY(d, b, n) (5 + 5 * MATCHER_MARKS(d, b) + 69 * (size_t)(n) + 1)

/* the largest */
#define MATCHER_MAX_MARKS 2080
#define MATCHER_MAX_COMPONENTS 16384
#define MATCHER_MAX_CODES 12288
#define MATCHER_MAX_LIBRARY 45734
#define MATCHER_MAX_QUERY 192
#define MATCHER_MAX_MATCH 45928
#define MATCHER_MAX_TEXT 14344 /* no text is longer */

/* ---- readings */

/*
 * The component of a fresh reading, whose binary32 value has these 32 bits: 256 times the value, to the nearest
 * whole number, halves to even.
 * Refusals: 14, 15.
 */
uint32_t matcher_fresh(uint32_t bits, int32_t *component);

/*
 * The same for a float.
 * Refusals: 14, 15.
 */
uint32_t matcher_fresh_value(float value, int32_t *component);

/*
 * The same for a held reading, of an age in tenths of a second.
 * Refusals: 13, 14, 15.
 */
uint32_t matcher_held(uint32_t bits, uint8_t age, int32_t *component);

/*
 * The same for a held reading of a float.
 * Refusals: 13, 14, 15.
 */
uint32_t matcher_held_value(float value, uint8_t age, int32_t *component);

/*
 * The same for a lost reading, which has no component.
 * Refusals: 13. It is always refused.
 */
uint32_t matcher_lost(int32_t *component);

/*
 * ---- readings, by the second intake: a reading that is lost or over age is absent, and no fault
 *
 * A call sets present to 1 and gives the component; or the reading is absent, and it sets present to 0 and the
 * component to 0, a filler; or it is refused, sets present to 0 and leaves the component as it was.
 */

/*
 * A fresh reading, whose binary32 value has these 32 bits. It is never absent.
 * Counts: present.
 * Refusals: 14, 15.
 */
uint32_t matcher_fresh_present(uint32_t bits, int32_t *component, uint32_t *present);

/*
 * The same for a float.
 * Counts: present.
 * Refusals: 14, 15.
 */
uint32_t matcher_fresh_value_present(float value, int32_t *component, uint32_t *present);

/*
 * A held reading, of an age in tenths of a second. Above MATCHER_AGE_LIMIT it is absent, whatever its value.
 * Counts: present.
 * Refusals: 14, 15.
 */
uint32_t matcher_held_present(uint32_t bits, uint8_t age, int32_t *component, uint32_t *present);

/*
 * The same for a held reading of a float.
 * Counts: present.
 * Refusals: 14, 15.
 */
uint32_t matcher_held_value_present(float value, uint8_t age, int32_t *component, uint32_t *present);

/*
 * A lost reading, which is absent. It is never refused.
 * Counts: present.
 */
uint32_t matcher_lost_present(int32_t *component, uint32_t *present);

/* ---- marks and regions */

/*
 * The index of dimension j's first mark in the marks buffer, and its number of bits.
 * Refusals: 1 (d or j), 2.
 */
uint32_t matcher_stretch(size_t d, size_t b, size_t j, size_t *offset, size_t *bits);

/*
 * Whether these can be the marks of d dimensions with b bits in all.
 * Lengths: marks MATCHER_MARKS(d, b).
 * Refusals: 1, 2, 5, 7.
 */
uint32_t matcher_check_marks(size_t d, size_t b, const int32_t *marks, size_t marks_len);

/*
 * The same, and whether there is a dimension j: what the two calls below would be refused for.
 * Lengths: marks MATCHER_MARKS(d, b).
 * Refusals: 1 (d or j), 2, 5, 7.
 */
uint32_t matcher_check_part(size_t d, size_t b, const int32_t *marks, size_t marks_len, size_t j);

/*
 * Gives the number of dimension j's marks, or 0 where matcher_check_part refuses.
 */
size_t matcher_part_length(size_t d, size_t b, const int32_t *marks, size_t marks_len, size_t j);

/*
 * Gives mark i of dimension j, from 0, or 0 past the last and where matcher_check_part refuses.
 */
int32_t matcher_part_at(size_t d, size_t b, const int32_t *marks, size_t marks_len, size_t j, size_t i);

/*
 * The region of a value, any number of 32 bits, in dimension j's marks.
 * Lengths: marks MATCHER_MARKS(d, b).
 * Refusals: 1 (d or j), 2, 5, 7, 8.
 */
uint32_t matcher_region_of(size_t d, size_t b, const int32_t *marks, size_t marks_len, size_t j, int32_t v,
                           size_t *region);

/*
 * The region of a value, any number of 32 bits, in one dimension's marks.
 * Lengths: marks regions + 1.
 * Refusals: 2, 5, 7, 8.
 */
uint32_t matcher_region(const int32_t *marks, size_t marks_len, size_t regions, int32_t v, size_t *region);

/*
 * Marks made from n vectors: a dimension's first mark is MATCHER_LEAST_MARK, its last MATCHER_GREATEST_MARK, and inner
 * mark i, of 2^w regions, the component at place (i n) / 2^w, from 0, of its components in non-falling order. So every
 * component lies inside them, those of vectors that are not among the n too.
 * Lengths: vectors n d, one after the other; marks MATCHER_MARKS(d, b).
 * Refusals: 1, 2, 3, 5, 6.
 */
uint32_t matcher_make_marks(size_t d, size_t b, size_t n, const int32_t *vectors, size_t vectors_len, int32_t *marks,
                            size_t marks_len);

/*
 * The region numbers of n vectors, vector by vector.
 * Lengths: vectors n d; marks MATCHER_MARKS(d, b); regions n d.
 * Refusals: 1, 2, 3, 5, 6, 7, 8.
 */
uint32_t matcher_regions(size_t d, size_t b, size_t n, const int32_t *vectors, size_t vectors_len, const int32_t *marks,
                         size_t marks_len, uint8_t *regions, size_t regions_len);

/* ---- codes */

/*
 * The codes of n vectors. A search wants these, made once for a library.
 * Lengths: vectors n d; marks MATCHER_MARKS(d, b); codes MATCHER_CODES(b, n).
 * Refusals: 1, 2, 3, 5, 6, 7, 8.
 */
uint32_t matcher_pack_vectors(size_t d, size_t b, size_t n, const int32_t *vectors, size_t vectors_len,
                              const int32_t *marks, size_t marks_len, uint8_t *codes, size_t codes_len);

/*
 * The codes of n rows of d region numbers.
 * Lengths: regions n d; codes MATCHER_CODES(b, n).
 * Refusals: 1, 2, 3, 5, 9 (a region number past its dimension's last).
 */
uint32_t matcher_pack(size_t d, size_t b, size_t n, const uint8_t *regions, size_t regions_len, uint8_t *codes,
                      size_t codes_len);

/*
 * The n rows of d region numbers that codes name.
 * Lengths: codes MATCHER_CODES(b, n); regions n d.
 * Refusals: 1, 2, 3, 5, 9 (a spare bit set).
 */
uint32_t matcher_unpack(size_t d, size_t b, size_t n, const uint8_t *codes, size_t codes_len, uint8_t *regions,
                        size_t regions_len);

/*
 * Whether these can be the codes of n vectors inside these marks.
 * Lengths: marks MATCHER_MARKS(d, b); codes MATCHER_CODES(b, n).
 * Refusals: 1, 2, 3, 5, 7, 9 (an empty region named, a spare bit set).
 */
uint32_t matcher_check_codes(size_t d, size_t b, size_t n, const int32_t *marks, size_t marks_len, const uint8_t *codes,
                             size_t codes_len);

/*
 * ---- a vector added to a library, or removed from it
 *
 * The marks are kept, and stand for the new library too. The old library is only read; the new one's vectors, settings
 * and codes fill buffers of their own, whose lengths are exact for its n + 1 or n - 1 vectors. The bits of the codes
 * are moved to their new places, a byte at a time, and not looked up again: where the old codes are the vectors' own,
 * as matcher_pack_vectors makes them, so are the new ones, and where they are not, they stay what they are.
 */

/*
 * The library with one vector more, which comes last and has the number n, with its settings and its code. With marks
 * that begin and end at the ends of the scale in every dimension, as matcher_make_marks makes them, no vector lies
 * outside, and adding is never refused with 8.
 * Lengths: marks MATCHER_MARKS(d, b); codes MATCHER_CODES(b, n); settings n; vectors n d; vector d; newvectors
 * (n + 1) d; newsettings n + 1; newcodes MATCHER_CODES(b, n + 1). They are exact for 513 too, where n is 512.
 * Refusals: 1, 2, 3, 5, 20, 6 (the old vectors and the new one), 7, 8 (the old vectors and the new one), 9 (an empty
 * region named, a spare bit set).
 */
uint32_t matcher_add(size_t d, size_t b, size_t n, const int32_t *marks, size_t marks_len, const uint8_t *codes,
                     size_t codes_len, const uint32_t *settings, size_t settings_len, const int32_t *vectors,
                     size_t vectors_len, const int32_t *vector, size_t vector_len, uint32_t setting,
                     int32_t *newvectors, size_t newvectors_len, uint32_t *newsettings, size_t newsettings_len,
                     uint8_t *newcodes, size_t newcodes_len);

/*
 * The library without the vector of this number, from 0: later vectors move down by one, with their settings and codes.
 * Lengths: marks MATCHER_MARKS(d, b); codes MATCHER_CODES(b, n); settings n; vectors n d; newvectors (n - 1) d;
 * newsettings n - 1; newcodes MATCHER_CODES(b, n - 1). They are exact where n is 1 too: 0, 0 and 0.
 * Refusals: 1, 2, 3, 5, 21, 6, 7, 8, 9 (an empty region named, a spare bit set).
 */
uint32_t matcher_remove(size_t d, size_t b, size_t n, const int32_t *marks, size_t marks_len, const uint8_t *codes,
                        size_t codes_len, const uint32_t *settings, size_t settings_len, const int32_t *vectors,
                        size_t vectors_len, size_t number, int32_t *newvectors, size_t newvectors_len,
                        uint32_t *newsettings, size_t newsettings_len, uint8_t *newcodes, size_t newcodes_len);

/* ---- distances */

/*
 * The distance of a vector from a query, every dimension present. The query's length is d.
 * Lengths: query d; vector d.
 * Refusals: 1, 5, 6 (query and vector).
 */
uint32_t matcher_distance(const int32_t *query, size_t query_len, const int32_t *vector, size_t vector_len,
                          uint64_t *distance);

/*
 * For each of n codes, the least and the greatest distance from a query that a vector in its cell can have, over the
 * dimensions that the word has present.
 * Lengths: query d; marks MATCHER_MARKS(d, b); codes MATCHER_CODES(b, n); lowers n; uppers n.
 * Refusals: 1, 2, 3, 19, 18, 5, 6 (query, absent components too), 7, 9 (any code).
 */
uint32_t matcher_bounds(size_t d, size_t b, size_t n, uint32_t word, const int32_t *query, size_t query_len,
                        const int32_t *marks, size_t marks_len, const uint8_t *codes, size_t codes_len,
                        uint64_t *lowers, size_t lowers_len, uint64_t *uppers, size_t uppers_len);

/* ---- the nearest vectors */

/*
 * A vector's number and its distance from the query, over the dimensions that the word has present. Between the two lie
 * 4 bytes that mean nothing: compare entries field by field, never by memcmp.
 */
struct matcher_entry {
    uint32_t number;
    uint64_t distance;
};

/*
 * The k of n vectors that are nearest to a query, nearest first and of equally near ones the lower number first. The
 * word says which dimensions are present: distances are sums over these. The scan looks at every vector.
 * Lengths: query d; vectors n d; entries k.
 * Refusals: 1, 3, 4, 19, 18, 5, 6 (query and vectors, absent components too).
 */
uint32_t matcher_scan(size_t d, size_t n, size_t k, uint32_t word, const int32_t *query, size_t query_len,
                      const int32_t *vectors, size_t vectors_len, struct matcher_entry *entries, size_t entries_len);

/*
 * The same from the codes. Where the codes are the vectors' own, as matcher_pack_vectors makes them, the entries are
 * the scan's, and no vector is read that could be left out, but for those whose cell has one distance: with some other
 * vector of its cell in its place alone, a number or a distance of the answer would be another. Both hold for every
 * word that is not refused; a cell's distances, too, are over the present dimensions.
 *
 * The search reads vectors in order of the least distance of their cells, of equal ones the lower number first. It
 * reads the next while fewer than k have been read, or while the pair of that least distance and the number is below
 * the pair of distance and number of the k-th best read so far, pairs being ordered by the first, then by the
 * second. The front of reads is filled with the numbers of the vectors read, in reading order, and keeps its content
 * past the count of them.
 *
 * The components of a vector that is not read are not looked at.
 * Counts: count, of the vectors read.
 * Lengths: query d; marks MATCHER_MARKS(d, b); codes MATCHER_CODES(b, n); vectors n d; entries k; reads n.
 * Refusals: 1, 2, 3, 4, 19, 18, 5, 6 (query, absent components too), 7, 9 (any code), 10 (in any dimension). A
 * refusal with 10 leaves the buffers as they were, too.
 */
uint32_t matcher_search(size_t d, size_t b, size_t n, size_t k, uint32_t word, const int32_t *query, size_t query_len,
                        const int32_t *marks, size_t marks_len, const uint8_t *codes, size_t codes_len,
                        const int32_t *vectors, size_t vectors_len, struct matcher_entry *entries, size_t entries_len,
                        uint32_t *reads, size_t reads_len, size_t *count);

/*
 * What a batch gives for one of its queries: 0 or the number of its refusal, and the count of the vectors read. Between
 * the two lie 4 bytes that mean nothing, as in an entry.
 */
struct matcher_answer {
    uint32_t status;
    size_t count;
};

/*
 * The search for each of m queries, 0 to MATCHER_MAX_QUERIES, with one k. Each query has its part of the buffers, and
 * the parts stand one behind the other. Those of query i, from 0:
 *
 *     queries    d from element i d on: its components
 *     words      element i: its presence word
 *     answers    element i: its status and its count
 *     entries    k from element i k on
 *     reads      n from element i n on: its read list
 *
 * The call is refused for what is wrong with the library, with k or with a length, and then it writes nothing. Else it
 * gives 0, and each query has what matcher_search gives for it with its parts as buffers, whatever the other queries
 * are. An answered query has the status 0, its count, its k entries and the front of its read list, which keeps its
 * content past the count. A refused one has its number as the status and the count 0, and its entries and its read
 * list stay as they were. With m 0 nothing is written; the library, k and the lengths are tested all the same.
 * Lengths: queries m d; words m; marks MATCHER_MARKS(d, b); codes MATCHER_CODES(b, n); vectors n d; answers m;
 * entries m k; reads m n.
 * Refusals: 22, 1, 2, 3, 4, 5, 7, 9 (any code). Those of a query, in its status: 19, 18, 6 (its components, absent
 * ones too), 10 (in any dimension).
 */
uint32_t matcher_batch(size_t d, size_t b, size_t n, size_t k, size_t m, const int32_t *queries, size_t queries_len,
                       const uint32_t *words, size_t words_len, const int32_t *marks, size_t marks_len,
                       const uint8_t *codes, size_t codes_len, const int32_t *vectors, size_t vectors_len,
                       struct matcher_answer *answers, size_t answers_len, struct matcher_entry *entries,
                       size_t entries_len, uint32_t *reads, size_t reads_len);

/*
 * ---- the library file and a query from bytes
 *
 * A record is one byte of kind, then a body whose length the kind fixes; numbers come lowest byte first.
 *
 *     1 head     d (1 byte), b (1), n (2)
 *     2 mark     signed (4)
 *     3 vector   settings (4), 32 signed components (2 each), those beyond d zero
 *     4 end      nothing
 *     5 fresh    value, the bits of a binary32 (4)
 *     6 held     value (4), age in tenths of a second (1)
 *     7 lost     nothing
 *
 * A library is one head, its marks in the order of the marks buffer, n vectors, one end. A query is d records of
 * kinds 5 to 7. The bytes are tested from the left, record by record: 12 for an end before the kind, 11, 17, 12 for
 * an end inside the body, then the body's own refusals.
 */

/*
 * How many bytes a library of these counts has, MATCHER_LIBRARY(d, b, n).
 * Counts: length.
 * Refusals: 1, 2, 3.
 */
uint32_t matcher_library_length(size_t d, size_t b, size_t n, size_t *length);

/*
 * The bytes of a library.
 * Lengths: marks MATCHER_MARKS(d, b); settings n; components n d; bytes MATCHER_LIBRARY(d, b, n).
 * Refusals: 1, 2, 3, 5, 6, 7, 8.
 */
uint32_t matcher_write(size_t d, size_t b, size_t n, const int32_t *marks, size_t marks_len, const uint32_t *settings,
                       size_t settings_len, const int32_t *components, size_t components_len, uint8_t *bytes,
                       size_t bytes_len);

/*
 * The library that the bytes begin with: its d, b and n, and how many of the bytes it is; what follows is not looked
 * at. The fronts of the buffers are filled, with MATCHER_MARKS(d, b) marks, n settings and n d components; past them
 * they keep their content.
 * Counts: d, b, n, used.
 * Lengths: bytes any; marks MATCHER_MAX_MARKS; settings MATCHER_MAX_VECTORS; components MATCHER_MAX_COMPONENTS.
 * Refusals: 5; then from the left 12, 11, 17, 12 for each record, with 1, 2, 3 at the head, 7 at each mark, 6 (not
 * zero beyond d), 8 at each vector.
 */
uint32_t matcher_load(const uint8_t *bytes, size_t bytes_len, int32_t *marks, size_t marks_len, uint32_t *settings,
                      size_t settings_len, int32_t *components, size_t components_len, size_t *d, size_t *b, size_t *n,
                      size_t *used);

/*
 * The components of a query's readings.
 * Lengths: bytes any; components d.
 * Refusals: 1, 5; then from the left 12, 11, 17, 12, 13, 14, 15 for each record; 16.
 */
uint32_t matcher_query(size_t d, const uint8_t *bytes, size_t bytes_len, int32_t *components, size_t components_len);

/*
 * The same by the second intake: the components of a query's readings, 0 where a reading is absent, and its presence
 * word.
 * Counts: word.
 * Lengths: bytes any; components d.
 * Refusals: 1, 5; then from the left 12, 11, 17, 12, 14, 15 for each record; 16; 18.
 */
uint32_t matcher_query_present(size_t d, const uint8_t *bytes, size_t bytes_len, int32_t *components,
                               size_t components_len, uint32_t *word);

/* ---- the whole program */

/*
 * What the kit program writes for a match: a library, k (2 bytes), a query, which is taken in by the second intake: it
 * is matched on the readings that are present, and never refused with 13. The text goes into the front of the
 * output, which keeps its content past it, and the count is its length. It is "refused " and the number of the
 * match's first fault from the left (4 behind k, 12 for an end inside it); or, on line one, k and how many vectors
 * were read, then a line for each of the k nearest: number, settings, distance. Numbers are decimal, with single
 * spaces between them, and each line ends with byte 10. No match longer than MATCHER_MAX_MATCH is answered.
 * Counts: count.
 * Lengths: input any; output MATCHER_MAX_TEXT.
 * Refusals: 5. What is wrong with the match stands in the text.
 */
uint32_t matcher_match(const uint8_t *input, size_t input_len, uint8_t *output, size_t output_len, size_t *count);

#ifdef __cplusplus
}
#endif

#endif
