/* What the tests share: checks that are printed and counted, and short ways to write texts. */
#ifndef CHECK_H
#define CHECK_H

#include <bsi.h>
#include <stdio.h>
#include <stdlib.h>
#include <string.h>

static int failed;

/* Prints whether a check holds, and counts it if it does not. */
static inline void check(bool holds, const char *text) {
    printf("%s %s\n", holds ? "ok" : "FAILED", text);
    failed += !holds;
}

/* The fields of a query, which are separated by single spaces. They point into the text. */
typedef struct {
    bsi_text at[64];
    size_t len;
} fields;

static inline fields fields_of(const char *text) {
    fields found = {.len = 0};
    while (*text && found.len < 64) {
        size_t len = strcspn(text, " ");
        found.at[found.len++] = (bsi_text){(const uint8_t *)text, len};
        text += len + (text[len] == ' ');
    }
    return found;
}

static inline uint32_t ask(bsi_index *index, const char *text, bsi_answer *answer, bsi_place *places, size_t room) {
    fields of = fields_of(text);
    return bsi_ask(index, of.at, of.len, answer, places, room);
}

static inline uint32_t answer_line(bsi_index *index, const char *text, char *line, size_t room, size_t *size) {
    fields of = fields_of(text);
    return bsi_answer_line(index, of.at, of.len, (uint8_t *)line, room, size);
}

static inline uint32_t group_by(bsi_index *index, const char *text, const char *name, bsi_group *groups, size_t room, size_t *count) {
    fields of = fields_of(text);
    return bsi_group_by(index, of.at, of.len, (const uint8_t *)name, strlen(name), groups, room, count);
}

static inline uint32_t group_by_two(bsi_index *index, const char *text, const char *first, const char *second, bsi_pair *pairs,
                                    size_t room, size_t *count) {
    fields of = fields_of(text);
    return bsi_group_by_two(index, of.at, of.len, (const uint8_t *)first, strlen(first), (const uint8_t *)second, strlen(second),
                            pairs, room, count);
}

static inline uint32_t distinct(bsi_index *index, const char *text, const char *name, uint64_t *count) {
    fields of = fields_of(text);
    return bsi_distinct(index, of.at, of.len, (const uint8_t *)name, strlen(name), count);
}

static inline uint32_t quantile(bsi_index *index, const char *text, const char *name, uint64_t part, uint64_t whole,
                                bsi_entry *number) {
    fields of = fields_of(text);
    return bsi_quantile(index, of.at, of.len, (const uint8_t *)name, strlen(name), part, whole, number);
}

static inline uint32_t ranks(bsi_index *index, const char *text, const char *name, const uint64_t *wanted, size_t len,
                             bsi_entry *numbers, size_t room) {
    fields of = fields_of(text);
    return bsi_ranks(index, of.at, of.len, (const uint8_t *)name, strlen(name), wanted, len, numbers, room);
}

static inline uint32_t top(bsi_index *index, const char *text, const char *name, bool least, bsi_row *rows, size_t room,
                           size_t *count) {
    fields of = fields_of(text);
    return bsi_top(index, of.at, of.len, (const uint8_t *)name, strlen(name), least, rows, room, count);
}

static inline uint32_t selects(bsi_index *index, const char *text, uint64_t *words, size_t room) {
    fields of = fields_of(text);
    return bsi_select(index, of.at, of.len, words, room);
}

static inline uint32_t opens(bsi_index *index, const char *schema, uint32_t feeders, uint64_t *bad) {
    return bsi_open(index, (const uint8_t *)schema, strlen(schema), feeders, bad);
}

/* Numbers that look random, the same ones in each run. */
static uint64_t seed = 88172645463325252ull;

static inline uint64_t next(void) {
    seed ^= seed << 13;
    seed ^= seed >> 7;
    return seed ^= seed << 17;
}

#endif
