/*
 * How C lays out an entry and an answer: the sizes and offsets that the interface relies on. The tests read them off
 * the arrays below.
 */
#include "matcher.h"

#include <stddef.h>

_Static_assert(sizeof(struct matcher_entry) == 16, "an entry has 16 bytes");
_Static_assert(_Alignof(struct matcher_entry) == 8, "an entry begins at a multiple of 8");
_Static_assert(offsetof(struct matcher_entry, number) == 0, "the number comes first");
_Static_assert(offsetof(struct matcher_entry, distance) == 8, "the distance begins at byte 8");

_Static_assert(sizeof(struct matcher_answer) == 16, "an answer has 16 bytes");
_Static_assert(_Alignof(struct matcher_answer) == 8, "an answer begins at a multiple of 8");
_Static_assert(offsetof(struct matcher_answer, status) == 0, "the status comes first");
_Static_assert(offsetof(struct matcher_answer, count) == 8, "the count begins at byte 8");

extern const size_t layout_entry[6];
extern const size_t layout_answer[6];

/* Size, alignment, and each field's offset and size. */
const size_t layout_entry[6] = {
    sizeof(struct matcher_entry),
    _Alignof(struct matcher_entry),
    offsetof(struct matcher_entry, number),
    sizeof(((struct matcher_entry *)0)->number),
    offsetof(struct matcher_entry, distance),
    sizeof(((struct matcher_entry *)0)->distance),
};

const size_t layout_answer[6] = {
    sizeof(struct matcher_answer),
    _Alignof(struct matcher_answer),
    offsetof(struct matcher_answer, status),
    sizeof(((struct matcher_answer *)0)->status),
    offsetof(struct matcher_answer, count),
    sizeof(((struct matcher_answer *)0)->count),
};

/* Whether a scan from C of three vectors of one component, for the two nearest to 5, gives the entries (1, 1) and (2, 4). */
int layout_scan_from_c(void);
int layout_scan_from_c(void) {
    const int32_t query[1] = {5};
    const int32_t vectors[3] = {9, 4, 7};
    struct matcher_entry entries[2] = {{7, 7}, {7, 7}};
    if (matcher_scan(1, 3, 2, MATCHER_FULL_WORD(1), query, 1, vectors, 3, entries, 2) != 0) {
        return 0;
    }
    return entries[0].number == 1 && entries[0].distance == 1 && entries[1].number == 2 && entries[1].distance == 4;
}

/*
 * Whether a batch from C over the same vectors in one cell, for the nearest to 5, for a query whose word is wrong, and
 * for the nearest to 9, gives the entry (1, 1) with all three read, the refusal 19, and the entry (0, 0) with the first
 * read.
 */
int layout_batch_from_c(void);
int layout_batch_from_c(void) {
    const int32_t queries[3] = {5, 5, 9};
    const uint32_t words[3] = {1, 3, 1};
    const int32_t marks[2] = {4, 10};
    const uint8_t codes[1] = {0};
    const int32_t vectors[3] = {9, 4, 7};
    struct matcher_answer answers[3] = {{7, 7}, {7, 7}, {7, 7}};
    struct matcher_entry entries[3] = {{7, 7}, {7, 7}, {7, 7}};
    uint32_t reads[9] = {7, 7, 7, 7, 7, 7, 7, 7, 7};
    if (matcher_batch(1, 0, 3, 1, 3, queries, 3, words, 3, marks, 2, codes, 0, vectors, 3, answers, 3, entries, 3,
                      reads, 9) != 0) {
        return 0;
    }
    return answers[0].status == 0 && answers[0].count == 3 && answers[1].status == 19 && answers[1].count == 0
        && answers[2].status == 0 && answers[2].count == 1 && entries[0].number == 1 && entries[0].distance == 1
        && entries[1].number == 7 && entries[1].distance == 7 && entries[2].number == 0 && entries[2].distance == 0
        && reads[2] == 2 && reads[3] == 7 && reads[6] == 0 && reads[7] == 7;
}
