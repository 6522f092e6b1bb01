/* A grammar that is put together row by row, children first: for the examples. */
#include <stdio.h>
#include <string.h>

#include "arvedun.h"

typedef struct {
    uint32_t rules[4 * 16], rows[4 * 64];
    char text[256];
    uint32_t rule_count, row_count, text_length;
} Grammar;

static inline uint32_t put(Grammar *g, const char *s) {
    uint32_t from = g->text_length;
    memcpy(g->text + from, s, strlen(s));
    g->text_length += (uint32_t)strlen(s);
    return from;
}

/* The next rule: its rows follow. */
static inline void rule(Grammar *g, const char *name, uint32_t type) {
    uint32_t *r = g->rules + 4 * g->rule_count++;
    r[0] = put(g, name), r[1] = (uint32_t)strlen(name), r[2] = type, r[3] = 0;
}

static inline void row(Grammar *g, uint32_t kind, uint32_t x, uint32_t y, uint32_t size) {
    uint32_t *r = g->rows + 4 * g->row_count++;
    r[0] = kind, r[1] = x, r[2] = y, r[3] = size;
    g->rules[4 * (g->rule_count - 1) + 3]++;
}

static inline void literal(Grammar *g, uint32_t kind, const char *s) {
    uint32_t from = put(g, s);
    row(g, kind, from, (uint32_t)strlen(s), 1);
}

/* One child, which is the last row. */
static inline void one(Grammar *g, uint32_t kind, uint32_t x) {
    row(g, kind, x, 0, 1 + g->rows[4 * (g->row_count - 1) + 3]);
}

/* Two children, of which the right one is the last row. */
static inline void two(Grammar *g, uint32_t kind) {
    uint32_t right = g->rows[4 * (g->row_count - 1) + 3], left = g->rows[4 * (g->row_count - 1 - right) + 3];
    row(g, kind, 0, 0, 1 + left + right);
}

static inline void digits(Grammar *g) {
    row(g, ARVEDUN_RANGE, '0', '9', 1);
}

static inline void name(const Grammar *g, uint32_t rule) {
    printf("%.*s", (int)g->rules[4 * rule + 1], g->text + g->rules[4 * rule]);
}
