/* What changes when a venue's new order-entry grammar is switched on, in words. */
#include "grammar.h"

static void cancel(Grammar *g) {
    rule(g, "cancel", ARVEDUN_NORMAL);
    literal(g, ARVEDUN_STR, "CXL "), literal(g, ARVEDUN_IDENT, "id"), two(g, ARVEDUN_SEQ);
}

static void order(Grammar *g, uint32_t type) {
    rule(g, "order", type);
    literal(g, ARVEDUN_STR, "NEW "), literal(g, ARVEDUN_IDENT, "side"), literal(g, ARVEDUN_IDENT, "price"), two(g, ARVEDUN_SEQ);
    two(g, ARVEDUN_SEQ);
}

static void id(Grammar *g) {
    rule(g, "id", ARVEDUN_ATOMIC);
    row(g, ARVEDUN_RANGE, 'A', 'Z', 1), digits(g), two(g, ARVEDUN_CHOICE), one(g, ARVEDUN_REP_EXACT, 8);
}

static void price(Grammar *g, const char *point) {
    rule(g, "price", ARVEDUN_ATOMIC);
    digits(g), one(g, ARVEDUN_REP_ONCE, 0), literal(g, ARVEDUN_STR, point), digits(g), one(g, ARVEDUN_REP_EXACT, 2), two(g, ARVEDUN_SEQ);
    two(g, ARVEDUN_SEQ);
}

/* mass_cancel = { "CXL *" }  order = { "NEW " ~ side ~ price }  cancel = { "CXL " ~ id }  side = @{ "B" | "S" }
   price = @{ '0'..'9'+ ~ "." ~ '0'..'9'{2} }  id = @{ ('A'..'Z' | '0'..'9'){8} } */
static void before(Grammar *g) {
    rule(g, "mass_cancel", ARVEDUN_NORMAL), literal(g, ARVEDUN_STR, "CXL *");
    order(g, ARVEDUN_NORMAL);
    cancel(g);
    rule(g, "side", ARVEDUN_ATOMIC), literal(g, ARVEDUN_STR, "B"), literal(g, ARVEDUN_STR, "S"), two(g, ARVEDUN_CHOICE);
    price(g, ".");
    id(g);
}

/* id as before, first  cancel = { ("CXL " ~ id)? }  side = @{ "B" | "S" | "SS" }  price with ","  order = _{ .. }  replace = { "RPL " ~ id } */
static void after(Grammar *g) {
    id(g);
    cancel(g), one(g, ARVEDUN_OPT, 0);
    rule(g, "side", ARVEDUN_ATOMIC), literal(g, ARVEDUN_STR, "B"), literal(g, ARVEDUN_STR, "S"), literal(g, ARVEDUN_STR, "SS");
    two(g, ARVEDUN_CHOICE), two(g, ARVEDUN_CHOICE);
    price(g, ",");
    order(g, ARVEDUN_SILENT);
    rule(g, "replace", ARVEDUN_NORMAL), literal(g, ARVEDUN_STR, "RPL "), literal(g, ARVEDUN_IDENT, "id"), two(g, ARVEDUN_SEQ);
}

static const char *const kinds[] = {
    "a string", "a string in any case", "a range", "a name", "PEEK", "PEEK", "&", "!", "~", "|", "?", "*", "+", "{n}", "{n,}", "{,n}", "{m,n}", "a skip",
    "PUSH",
};

/* A row of a rule: a literal's bytes, else the sign of its kind. */
static void shown(const Grammar *left, const Grammar *right, uint32_t side, uint32_t rule, uint32_t row) {
    const Grammar *g = side == ARVEDUN_LEFT ? left : right;
    ArvedunLiteral l = arvedun_shown(
        left->rules, 4 * left->rule_count, left->rows, 4 * left->row_count, (const uint8_t *)left->text, left->text_length,
        right->rules, 4 * right->rule_count, right->rows, 4 * right->row_count, (const uint8_t *)right->text, right->text_length,
        side, rule, row);
    if (l.found) {
        printf("\"%.*s\"", (int)l.length, g->text + l.offset);
    } else if (row == g->rules[4 * rule + 3]) {
        printf("nothing more");
    } else {
        uint32_t first = 0;
        for (uint32_t i = 0; i < rule; i++)
            first += g->rules[4 * i + 3];
        printf("%s", kinds[g->rows[4 * (first + row)]]);
    }
}

static void compare(const Grammar *left, const Grammar *right) {
    static uint32_t list[ARVEDUN_LIST_WORDS], left_marks[ARVEDUN_MARK_WORDS], right_marks[ARVEDUN_MARK_WORDS];
    static const char *const types[] = {"normal", "silent", "atomic", "compound atomic", "non-atomic"};
    ArvedunCompared c = arvedun_compare(
        left->rules, 4 * left->rule_count, left->rows, 4 * left->row_count, (const uint8_t *)left->text, left->text_length,
        right->rules, 4 * right->rule_count, right->rows, 4 * right->row_count, (const uint8_t *)right->text, right->text_length,
        list, ARVEDUN_LIST_WORDS, left_marks, ARVEDUN_MARK_WORDS, right_marks, ARVEDUN_MARK_WORDS);
    if (c.number != ARVEDUN_DONE) {
        printf("refused, %u: the %s grammar\n", (unsigned)c.number, c.side == ARVEDUN_LEFT ? "old" : "new");
        return;
    }
    printf("differences: %u\n", (unsigned)c.count);
    for (uint32_t i = 0; i < c.count; i++) {
        const uint32_t *e = list + 4 * i;
        name(e[0] == ARVEDUN_ONLY_RIGHT ? right : left, e[0] == ARVEDUN_ONLY_RIGHT ? e[2] : e[1]);
        switch (e[0]) {
        case ARVEDUN_ONLY_LEFT:
            printf(": only in the old grammar\n");
            break;
        case ARVEDUN_OTHER_TYPE:
            printf(": was %s, is %s\n", types[left->rules[4 * e[1] + 2]], types[right->rules[4 * e[2] + 2]]);
            break;
        case ARVEDUN_OTHER_TREE:
            printf(": row %u was ", (unsigned)e[3]);
            shown(left, right, ARVEDUN_LEFT, e[1], e[3]);
            printf(", is ");
            shown(left, right, ARVEDUN_RIGHT, e[2], e[3]);
            printf("\n");
            break;
        default:
            printf(": only in the new grammar\n");
        }
    }
}

int main(void) {
    static Grammar old, new, twice;
    before(&old);
    after(&new);
    cancel(&twice), cancel(&twice);
    compare(&old, &new);
    compare(&old, &old);
    compare(&old, &twice);
    return 0;
}
