/* Why loops of an order-entry grammar stay loops, in words. */
#include "grammar.h"

/* (!e ~ ANY)* over the last row, which is e */
static void until(Grammar *g) {
    one(g, ARVEDUN_NEG_PRED, 0), literal(g, ARVEDUN_IDENT, "ANY"), two(g, ARVEDUN_SEQ), one(g, ARVEDUN_REP, 0);
}

static void over(Grammar *g, const char *rule_name, uint32_t type, const char *list) {
    rule(g, rule_name, type), literal(g, ARVEDUN_IDENT, list), until(g);
}

/* comment = @{ (!line_end ~ ANY)* }  note = { (!line_end ~ ANY)* }  value = @{ (!mark ~ ANY)* }  tail = @{ (!ring ~ ANY)* }
   rest = @{ (!bar ~ ANY)* }  digits = @{ '0'..'9'* }
   line_end = { "\n" | "\r\n" }  mark = { ("<" | ">") | "&" }  ring = { ";" | back }  back = { "," | ring } */
static void order_entry(Grammar *g) {
    over(g, "comment", ARVEDUN_ATOMIC, "line_end");
    over(g, "note", ARVEDUN_NORMAL, "line_end");
    over(g, "value", ARVEDUN_ATOMIC, "mark");
    over(g, "tail", ARVEDUN_ATOMIC, "ring");
    over(g, "rest", ARVEDUN_ATOMIC, "bar");
    rule(g, "digits", ARVEDUN_ATOMIC), digits(g), one(g, ARVEDUN_REP, 0);
    rule(g, "line_end", ARVEDUN_NORMAL), literal(g, ARVEDUN_STR, "\n"), literal(g, ARVEDUN_STR, "\r\n"), two(g, ARVEDUN_CHOICE);
    rule(g, "mark", ARVEDUN_NORMAL), literal(g, ARVEDUN_STR, "<"), literal(g, ARVEDUN_STR, ">"), two(g, ARVEDUN_CHOICE);
    literal(g, ARVEDUN_STR, "&"), two(g, ARVEDUN_CHOICE);
    rule(g, "ring", ARVEDUN_NORMAL), literal(g, ARVEDUN_STR, ";"), literal(g, ARVEDUN_IDENT, "back"), two(g, ARVEDUN_CHOICE);
    rule(g, "back", ARVEDUN_NORMAL), literal(g, ARVEDUN_STR, ","), literal(g, ARVEDUN_IDENT, "ring"), two(g, ARVEDUN_CHOICE);
}

static uint32_t first_row(const Grammar *g, uint32_t rule) {
    uint32_t first = 0;
    for (uint32_t i = 0; i < rule; i++)
        first += g->rules[4 * i + 3];
    return first;
}

static void explain(const Grammar *g, uint32_t rule, uint32_t row) {
    static uint32_t list[ARVEDUN_OPEN_WORDS], marks[ARVEDUN_MARK_WORDS];
    static const char *const reasons[] = {
        "it becomes a skip", "it is no loop", "it has to be regrouped first", "its rule is not atomic", "it repeats no sequence",
        "its sequence does not begin with !", "its sequence does not end with ANY", "a name of no rule", "no list", "a rule that is already being read",
    };
    ArvedunExplained e = arvedun_explain(g->rules, 4 * g->rule_count, g->rows, 4 * g->row_count, (const uint8_t *)g->text, g->text_length, row,
        list, ARVEDUN_OPEN_WORDS, marks, ARVEDUN_MARK_WORDS);
    if (e.number != ARVEDUN_DONE) {
        printf("refused, %u\n", (unsigned)e.number);
        return;
    }
    name(g, rule);
    printf(", row %u: ", (unsigned)(row - first_row(g, rule)));
    if (e.answer >= ARVEDUN_UNKNOWN) {
        printf("row %u of ", (unsigned)(e.at - first_row(g, e.rule)));
        name(g, e.rule);
        printf(" is ");
    }
    printf("%s", reasons[e.answer]);
    if (e.answer == ARVEDUN_MET_AGAIN) {
        printf(": ");
        name(g, e.met);
        printf(", on the way through");
        for (uint32_t i = 0; i < e.open; i++) {
            printf(" ");
            name(g, list[i]);
        }
    }
    printf("\n");
}

int main(void) {
    static Grammar g;
    order_entry(&g);
    for (uint32_t rule = 0, row = 0; rule < g.rule_count; rule++)
        for (uint32_t end = row + g.rules[4 * rule + 3]; row < end; row++)
            if (g.rows[4 * row] == ARVEDUN_REP)
                explain(&g, rule, row);
    return 0;
}
