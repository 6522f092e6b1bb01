/* One call for each case file that is named, and its answer:  calls SECONDS CASE..
   getppid marks the beginning and the end of a call for the plugin insn.c; callgrind sees them by --toggle-collect=arvedun_optimize.
   A call that takes longer than SECONDS is marked as ended, and ends the program. */
#define _GNU_SOURCE
#include "arvedun.h"
#include <signal.h>
#include <stdio.h>
#include <stdlib.h>
#include <sys/syscall.h>
#include <unistd.h>

static uint32_t counts[4], rules[ARVEDUN_RULE_WORDS], rows[ARVEDUN_ROW_WORDS];
static uint8_t text[ARVEDUN_TEXT_BYTES];
static uint32_t work_rules[3][ARVEDUN_RULE_WORDS], work_rows[3][ARVEDUN_ROW_WORDS], marks[ARVEDUN_MARK_WORDS];
static uint8_t work_text[3][ARVEDUN_TEXT_BYTES];

static void late(int unused) {
    (void)unused;
    syscall(SYS_getppid);
    if (write(1, "late\n", 5) != 5)
        _exit(2);
    _exit(0);
}

int main(int argc, char **argv) {
    if (argc < 2)
        return 2;
    signal(SIGALRM, late);
    for (int i = 2; i < argc; i++) {
        FILE *in = fopen(argv[i], "rb");
        if (!in || fread(counts, 4, 4, in) != 4 || counts[0] > ARVEDUN_RULE_WORDS || counts[1] > ARVEDUN_ROW_WORDS
            || counts[2] > ARVEDUN_TEXT_BYTES || fread(rules, 4, counts[0], in) != counts[0]
            || fread(rows, 4, counts[1], in) != counts[1] || fread(text, 1, counts[2], in) != counts[2])
            return 1;
        fclose(in);
        alarm(atoi(argv[1]));
        syscall(SYS_getppid);
        ArvedunAnswer answer = arvedun_optimize(rules, counts[0], rows, counts[1], text, counts[2],
            work_rules[0], ARVEDUN_RULE_WORDS, work_rows[0], ARVEDUN_ROW_WORDS, work_text[0], ARVEDUN_TEXT_BYTES,
            work_rules[1], ARVEDUN_RULE_WORDS, work_rows[1], ARVEDUN_ROW_WORDS, work_text[1], ARVEDUN_TEXT_BYTES,
            work_rules[2], ARVEDUN_RULE_WORDS, work_rows[2], ARVEDUN_ROW_WORDS, work_text[2], ARVEDUN_TEXT_BYTES,
            marks, ARVEDUN_MARK_WORDS);
        syscall(SYS_getppid);
        alarm(0);
        printf("%u\n", answer.number);
        fflush(stdout);
    }
    return 0;
}
