/* Explains a row of a table on a thread whose stack is filled first, and prints the answer and how much stack was written:  explain TABLE ROW
   callgrind sees the call by --toggle-collect=arvedun_explain. */
#include "arvedun.h"
#include <pthread.h>
#include <stdio.h>
#include <stdlib.h>
#include <string.h>

#define STACK (1 << 20)
#define FILL 0xA5

static uint32_t counts[4], rules[ARVEDUN_RULE_WORDS], rows[ARVEDUN_ROW_WORDS], list[ARVEDUN_OPEN_WORDS], marks[ARVEDUN_MARK_WORDS];
static uint8_t text[ARVEDUN_TEXT_BYTES];
static uint8_t stack[STACK] __attribute__((aligned(4096)));
static uint64_t row;
static ArvedunExplained e;

static void *call(void *unused) {
    e = arvedun_explain(rules, counts[0], rows, counts[1], text, counts[2], row, list, ARVEDUN_OPEN_WORDS, marks, ARVEDUN_MARK_WORDS);
    return unused;
}

static void *nothing(void *unused) {
    return unused;
}

/* How much of the stack a thread writes. */
static size_t used(void *(*run)(void *)) {
    pthread_t thread;
    pthread_attr_t words;
    memset(stack, FILL, STACK);
    pthread_attr_init(&words);
    if (pthread_attr_setstack(&words, stack, STACK) || pthread_create(&thread, &words, run, NULL) || pthread_join(thread, NULL))
        return 0;
    size_t i = 0;
    while (i < STACK && stack[i] == FILL)
        i++;
    return STACK - i;
}

int main(int argc, char **argv) {
    FILE *in = argc == 3 ? fopen(argv[1], "rb") : NULL;
    if (!in || fread(counts, 4, 4, in) != 4 || counts[0] > ARVEDUN_RULE_WORDS || counts[1] > ARVEDUN_ROW_WORDS || counts[2] > ARVEDUN_TEXT_BYTES
        || fread(rules, 4, counts[0], in) != counts[0] || fread(rows, 4, counts[1], in) != counts[1] || fread(text, 1, counts[2], in) != counts[2])
        return 1;
    row = strtoull(argv[2], NULL, 10);
    size_t before = used(nothing), with = used(call);
    printf("number %u answer %u open %u, stack %zu\n", (unsigned)e.number, (unsigned)e.answer, (unsigned)e.open, with - before);
    return 0;
}
