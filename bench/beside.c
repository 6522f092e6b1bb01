/* Compares two tables on a thread whose stack is filled first, and prints the answer and how much stack was written:  beside LEFT RIGHT
   callgrind sees the call by --toggle-collect=arvedun_compare. */
#include "arvedun.h"
#include <pthread.h>
#include <stdio.h>
#include <string.h>

#define STACK (1 << 20)
#define FILL 0xA5

typedef struct {
    uint32_t counts[4], rules[ARVEDUN_RULE_WORDS], rows[ARVEDUN_ROW_WORDS];
    uint8_t text[ARVEDUN_TEXT_BYTES];
} Table;

static Table left, right;
static uint32_t list[ARVEDUN_LIST_WORDS], left_marks[ARVEDUN_MARK_WORDS], right_marks[ARVEDUN_MARK_WORDS];
static uint8_t stack[STACK] __attribute__((aligned(4096)));
static ArvedunCompared answer;

static int take(Table *t, const char *file) {
    FILE *in = fopen(file, "rb");
    int good = in && fread(t->counts, 4, 4, in) == 4 && t->counts[0] <= ARVEDUN_RULE_WORDS && t->counts[1] <= ARVEDUN_ROW_WORDS
        && t->counts[2] <= ARVEDUN_TEXT_BYTES && fread(t->rules, 4, t->counts[0], in) == t->counts[0]
        && fread(t->rows, 4, t->counts[1], in) == t->counts[1] && fread(t->text, 1, t->counts[2], in) == t->counts[2];
    if (in)
        fclose(in);
    return good;
}

static void *call(void *unused) {
    answer = arvedun_compare(left.rules, left.counts[0], left.rows, left.counts[1], left.text, left.counts[2],
        right.rules, right.counts[0], right.rows, right.counts[1], right.text, right.counts[2],
        list, ARVEDUN_LIST_WORDS, left_marks, ARVEDUN_MARK_WORDS, right_marks, ARVEDUN_MARK_WORDS);
    return unused;
}

static void *nothing(void *unused) {
    return unused;
}

/* How much of the stack a thread writes. */
static size_t used(void *(*run)(void *)) {
    pthread_t thread;
    pthread_attr_t words;
    memset(stack, FILL, STACK);
    pthread_attr_init(&words);
    if (pthread_attr_setstack(&words, stack, STACK) || pthread_create(&thread, &words, run, NULL) || pthread_join(thread, NULL))
        return 0;
    size_t i = 0;
    while (i < STACK && stack[i] == FILL)
        i++;
    return STACK - i;
}

int main(int argc, char **argv) {
    if (argc != 3 || !take(&left, argv[1]) || !take(&right, argv[2]))
        return 1;
    size_t before = used(nothing), with = used(call);
    printf("number %u side %u entries %u, stack %zu\n", (unsigned)answer.number, (unsigned)answer.side, (unsigned)answer.count, with - before);
    return 0;
}
