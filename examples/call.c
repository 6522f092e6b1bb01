/* Two of the worked examples, called from C: W1, whose three strings become one, and W5's rule that its own skip list meets. */
#include <stdio.h>

#include "arvedun.h"

static uint32_t out_rules[ARVEDUN_RULE_WORDS], a_rules[ARVEDUN_RULE_WORDS], b_rules[ARVEDUN_RULE_WORDS];
static uint32_t out_rows[ARVEDUN_ROW_WORDS], a_rows[ARVEDUN_ROW_WORDS], b_rows[ARVEDUN_ROW_WORDS];
static uint8_t out_text[ARVEDUN_TEXT_BYTES], a_text[ARVEDUN_TEXT_BYTES], b_text[ARVEDUN_TEXT_BYTES];
static uint32_t marks[ARVEDUN_MARK_WORDS];

static void call(const char *name, const uint32_t *rules, size_t rules_len, const uint32_t *rows, size_t rows_len, const char *text,
                 size_t text_len) {
    ArvedunAnswer a = arvedun_optimize(
        rules, rules_len, rows, rows_len, (const uint8_t *)text, text_len,
        out_rules, ARVEDUN_RULE_WORDS, out_rows, ARVEDUN_ROW_WORDS, out_text, ARVEDUN_TEXT_BYTES,
        a_rules, ARVEDUN_RULE_WORDS, a_rows, ARVEDUN_ROW_WORDS, a_text, ARVEDUN_TEXT_BYTES,
        b_rules, ARVEDUN_RULE_WORDS, b_rows, ARVEDUN_ROW_WORDS, b_text, ARVEDUN_TEXT_BYTES,
        marks, ARVEDUN_MARK_WORDS);
    if (a.number != ARVEDUN_DONE) {
        printf("%s: refused, %u\n", name, (unsigned)a.number);
        return;
    }
    printf("%s: text %.*s\n", name, (int)a.text, (const char *)out_text);
    for (size_t i = 0; i < a.rules; i++) {
        const uint32_t *r = out_rules + 4 * i;
        printf("rule %u %u %u %u\n", (unsigned)r[0], (unsigned)r[1], (unsigned)r[2], (unsigned)r[3]);
    }
    for (size_t i = 0; i < a.rows; i++) {
        const uint32_t *r = out_rows + 4 * i;
        printf("row %u %u %u %u\n", (unsigned)r[0], (unsigned)r[1], (unsigned)r[2], (unsigned)r[3]);
    }
    printf("report");
    for (int i = 0; i < ARVEDUN_STEPS; i++) {
        printf(" %u>%u", (unsigned)a.report[2 * i], (unsigned)a.report[2 * i + 1]);
    }
    printf("\n");
}

int main(void) {
    /* r = @{ ("a" ~ "b") ~ "c" } */
    static const uint32_t w1_rules[] = {0, 1, ARVEDUN_ATOMIC, 5};
    static const uint32_t w1_rows[] = {
        ARVEDUN_STR, 1, 1, 1, ARVEDUN_STR, 2, 1, 1, ARVEDUN_SEQ, 0, 0, 3, ARVEDUN_STR, 3, 1, 1, ARVEDUN_SEQ, 0, 0, 5,
    };
    /* r = @{ (!x ~ ANY)* }  x = { "a" | x } */
    static const uint32_t w5_rules[] = {0, 1, ARVEDUN_ATOMIC, 5, 1, 1, ARVEDUN_NORMAL, 3};
    static const uint32_t w5_rows[] = {
        ARVEDUN_IDENT, 1, 1, 1, ARVEDUN_NEG_PRED, 0, 0, 2, ARVEDUN_IDENT, 3, 3, 1, ARVEDUN_SEQ, 0, 0, 4, ARVEDUN_REP, 0, 0, 5,
        ARVEDUN_STR, 2, 1, 1, ARVEDUN_IDENT, 1, 1, 1, ARVEDUN_CHOICE, 0, 0, 3,
    };
    call("W1", w1_rules, 4, w1_rows, 20, "rabc", 4);
    call("W5", w5_rules, 8, w5_rows, 32, "rxaANY", 6);
    return 0;
}
