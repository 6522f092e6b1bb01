/* The stack that one call takes: reads a case from standard input, calls on a thread whose stack is filled with a pattern first, and
   prints how much of it was written, in bytes. */
#include "arvedun.h"
#include <pthread.h>
#include <stdio.h>
#include <string.h>
#include <sys/mman.h>

#define STACK ((size_t)8 << 20)
static uint32_t counts[4], rules[ARVEDUN_RULE_WORDS], rows[ARVEDUN_ROW_WORDS];
static uint8_t text[ARVEDUN_TEXT_BYTES];
static uint32_t work_rules[3][ARVEDUN_RULE_WORDS], work_rows[3][ARVEDUN_ROW_WORDS], marks[ARVEDUN_MARK_WORDS];
static uint8_t work_text[3][ARVEDUN_TEXT_BYTES];
static ArvedunAnswer answer;
static char *top;

static void *call(void *unused) {
    top = __builtin_frame_address(0);
    answer = arvedun_optimize(rules, counts[0], rows, counts[1], text, counts[2],
        work_rules[0], ARVEDUN_RULE_WORDS, work_rows[0], ARVEDUN_ROW_WORDS, work_text[0], ARVEDUN_TEXT_BYTES,
        work_rules[1], ARVEDUN_RULE_WORDS, work_rows[1], ARVEDUN_ROW_WORDS, work_text[1], ARVEDUN_TEXT_BYTES,
        work_rules[2], ARVEDUN_RULE_WORDS, work_rows[2], ARVEDUN_ROW_WORDS, work_text[2], ARVEDUN_TEXT_BYTES,
        marks, ARVEDUN_MARK_WORDS);
    return unused;
}

int main(void) {
    if (fread(counts, 4, 4, stdin) != 4 || counts[0] > ARVEDUN_RULE_WORDS || counts[1] > ARVEDUN_ROW_WORDS || counts[2] > ARVEDUN_TEXT_BYTES
        || fread(rules, 4, counts[0], stdin) != counts[0] || fread(rows, 4, counts[1], stdin) != counts[1]
        || fread(text, 1, counts[2], stdin) != counts[2])
        return 1;
    char *stack = mmap(NULL, STACK, PROT_READ | PROT_WRITE, MAP_PRIVATE | MAP_ANONYMOUS, -1, 0);
    memset(stack, 0x5C, STACK);
    pthread_attr_t attributes;
    pthread_t thread;
    pthread_attr_init(&attributes);
    pthread_attr_setstack(&attributes, stack, STACK);
    if (pthread_create(&thread, &attributes, call, NULL) || pthread_join(thread, NULL))
        return 1;
    size_t untouched = 0;
    while (stack[untouched] == 0x5C)
        untouched++;
    printf("%zu bytes, answer %u, rows %u > %u\n", (size_t)(top - (stack + untouched)), answer.number, counts[1] / 4, answer.rows);
    return 0;
}
