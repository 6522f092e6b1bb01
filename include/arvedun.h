/* Arvedun: takes a grammar as rules, rows and text in lent memory, and gives it back optimized, or one of eight refusals
   (arvedun_optimize); tells how two grammars differ (arvedun_compare, arvedun_shown) and why a loop stays a loop (arvedun_explain).
   C99, self-contained. Link libarvedun.a (`rt lib` in crates/arvedun), for x86-64 Linux. Nothing is allocated, read or written but what
   is lent, and nothing is kept between calls: calls on areas of their own may run in several threads at once. */
#ifndef ARVEDUN_H
#define ARVEDUN_H

#include <stddef.h>
#include <stdint.h>

#ifdef __cplusplus
extern "C" {
#endif

/* Full size: 256 rules, 4,096 rows, 65,536 bytes of text. A rule and a row are four words of 32 bits each. */
#define ARVEDUN_RULES 256
#define ARVEDUN_ROWS 4096
#define ARVEDUN_RULE_WORDS 1024
#define ARVEDUN_ROW_WORDS 16384
#define ARVEDUN_TEXT_BYTES 65536
#define ARVEDUN_MARK_WORDS 1024

/* The stack that the calling thread must have left. The most that was seen is 886,576 bytes, on 2,047 nested rows of two
   children each with something to rewrite below them. */
#define ARVEDUN_STACK_BYTES (1024 * 1024) /* 1 MiB */

/* A rule: offset and length of its name in the text, its type, its number of rows. Rules' rows follow each other in rule order. */
#define ARVEDUN_NORMAL 0
#define ARVEDUN_SILENT 1
#define ARVEDUN_ATOMIC 2
#define ARVEDUN_COMPOUND_ATOMIC 3
#define ARVEDUN_NON_ATOMIC 4

/* A row: kind, x, y, size. Rows stand in postfix order: children first, left before right, the rule's root last. The size counts the
   rows of the subtree, itself included. Words that a kind doesn't use are 0. Names and literals are ASCII.
                                                    x, y                                     children */
#define ARVEDUN_STR 0            /*                 offset, length in the text               none */
#define ARVEDUN_INSENS 1         /*                 offset, length                           none */
#define ARVEDUN_RANGE 2          /*                 first, last byte                         none */
#define ARVEDUN_IDENT 3          /*                 offset, length                           none */
#define ARVEDUN_PEEK_SLICE 4     /* without end:    start, 0 (two's complement)              none */
#define ARVEDUN_PEEK_SLICE_END 5 /* with end:       start, end (two's complement)            none */
#define ARVEDUN_POS_PRED 6       /*                 0, 0                                     1 */
#define ARVEDUN_NEG_PRED 7       /*                 0, 0                                     1 */
#define ARVEDUN_SEQ 8            /*                 0, 0                                     2 */
#define ARVEDUN_CHOICE 9         /*                 0, 0                                     2 */
#define ARVEDUN_OPT 10           /*                 0, 0                                     1 */
#define ARVEDUN_REP 11           /*                 0, 0                                     1 */
#define ARVEDUN_REP_ONCE 12      /* never answered  0, 0                                     1 */
#define ARVEDUN_REP_EXACT 13     /* never answered  count, 0                                 1 */
#define ARVEDUN_REP_MIN 14       /* never answered  count, 0                                 1 */
#define ARVEDUN_REP_MAX 15       /* never answered  count, 0                                 1 */
#define ARVEDUN_REP_MIN_MAX 16   /* never answered  min, max                                 1 */
#define ARVEDUN_SKIP 17          /*                 number of strings, 0                     that many STR rows */
#define ARVEDUN_PUSH 18          /*                 0, 0                                     1 */
#define ARVEDUN_RESTORE_ON_ERR 19 /* never lent     0, 0                                     1 */

/* The number of an answer: 0, or the lowest of the refusals that apply. */
#define ARVEDUN_DONE 0
/* an output or work area is below full size */
#define ARVEDUN_REFUSED_AREA 1
/* a word count isn't a multiple of four, or the input is above full size */
#define ARVEDUN_REFUSED_SIZE 2
/* a type above 4, a kind above 18, an unused word not 0, a size or child run that is wrong, a SKIP child that isn't STR, rules that
   don't use up the rows, a rule whose rows aren't one tree */
#define ARVEDUN_REFUSED_SHAPE 3
/* a name or literal whose offset plus length, as whole numbers, is above the text's length, or with a byte above 127; a RANGE word
   above 127 */
#define ARVEDUN_REFUSED_TEXT 4
/* two rules with equal names, or a rule named ANY, DROP or POP */
#define ARVEDUN_REFUSED_NAMES 5
/* REP_EXACT 0, REP_MAX 0, or REP_MIN_MAX with max 0 */
#define ARVEDUN_REFUSED_COUNT 6
/* a skip list meets a rule that is already being read */
#define ARVEDUN_REFUSED_CYCLE 7
/* packed text or rows above full size, in the input or after some step */
#define ARVEDUN_REFUSED_FULL 8

/* The steps, in order; step i's rows before and after are report[2 * i] and report[2 * i + 1]. */
#define ARVEDUN_STEP_ROTATE 0
#define ARVEDUN_STEP_SKIP 1
#define ARVEDUN_STEP_UNROLL 2
#define ARVEDUN_STEP_CONCATENATE 3
#define ARVEDUN_STEP_FACTOR 4
#define ARVEDUN_STEP_LIST 5
#define ARVEDUN_STEP_RESTORE 6
#define ARVEDUN_STEPS 7

/* A refusal: its number, three zero counts and a zero report; the output areas are unchanged. Else 0, the counts of rules, rows and
   text bytes, and the report. */
typedef struct {
    uint32_t number;
    uint32_t rules;
    uint32_t rows;
    uint32_t text;
    uint32_t report[2 * ARVEDUN_STEPS];
} ArvedunAnswer;

/* The call. Lengths count words, and bytes of text. rules, rows and text are the grammar; they are only read.
   The answer stands in front of out_rules (4 * answer.rules words), out_rows (4 * answer.rows words) and out_text (answer.text bytes);
   what lies past it there is unchanged. Its text is packed: for each rule its name, then its rows' literals, no gaps.
   a_rules to b_text are two work tables, marks is a work area; they may hold anything before and after.
   Full size: 1,024, 16,384 and 65,536 for each table, 1,024 for marks. Larger areas are fine, smaller ones are refusal 1.

   No caller need check rules, rows and text first. What a caller owes:
   - Every pointer is not null and is aligned (four bytes for words), also where its length is 0, and that many elements lie there.
   - The ten output and work areas overlap neither each other nor rules, rows and text.
   - During the call nothing else writes to any of the thirteen, and nothing else reads the ten.
   - ARVEDUN_STACK_BYTES of stack are left. */
ArvedunAnswer arvedun_optimize(
    const uint32_t *rules, size_t rules_len,
    const uint32_t *rows, size_t rows_len,
    const uint8_t *text, size_t text_len,
    uint32_t *out_rules, size_t out_rules_len,
    uint32_t *out_rows, size_t out_rows_len,
    uint8_t *out_text, size_t out_text_len,
    uint32_t *a_rules, size_t a_rules_len,
    uint32_t *a_rows, size_t a_rows_len,
    uint8_t *a_text, size_t a_text_len,
    uint32_t *b_rules, size_t b_rules_len,
    uint32_t *b_rows, size_t b_rows_len,
    uint8_t *b_text, size_t b_text_len,
    uint32_t *marks, size_t marks_len);

/* Two grammars side by side. */

/* The list has room for 512 entries of four words: sort, left rule, right rule, row; what a sort doesn't use is 0. Rules are counted from 0,
   rows from the rule's first row. */
#define ARVEDUN_ENTRIES 512
#define ARVEDUN_LIST_WORDS 2048
#define ARVEDUN_ONLY_LEFT 0  /* left rule   no rule of the right grammar has its name */
#define ARVEDUN_OTHER_TYPE 1 /* both rules  they have one name and two types */
#define ARVEDUN_OTHER_TREE 2 /* both, row   they have one name, and their rows are the same before this one, sizes and offsets apart, and not
                                            here; the shorter one's number of rows, if it is a prefix of the other */
#define ARVEDUN_ONLY_RIGHT 3 /* right rule  no rule of the left grammar has its name */

/* The sides. */
#define ARVEDUN_LEFT 0
#define ARVEDUN_RIGHT 1

/* The refusal's number or ARVEDUN_DONE, whose grammar it is (0 for refusal 1 too), and the number of entries, 0 where there is a refusal. */
typedef struct {
    uint32_t number;
    uint32_t side;
    uint32_t count;
} ArvedunCompared;

/* Writes how the grammars differ: for each left rule, in their order, that it is found only left, or that its type, then that its rows are
   others; then the rules found only right, in their order. The order of rules and where a text has its bytes make no difference. No entries,
   exactly where the grammars have the same rules.
   The entries stand in front of the list (4 * count words); what lies past them is unchanged. The marks are work areas.
   Full size: 2,048 words for the list, 1,024 for each of the marks; smaller ones are refusal 1. Then refusals 2 to 6 as above, all of the
   left grammar before any of the right one. A refusal leaves the list unchanged. Refusals 7 and 8 do not apply.
   What a caller owes is as above: the list and the marks overlap nothing else; the two grammars may be the same memory. */
ArvedunCompared arvedun_compare(
    const uint32_t *left_rules, size_t left_rules_len,
    const uint32_t *left_rows, size_t left_rows_len,
    const uint8_t *left_text, size_t left_text_len,
    const uint32_t *right_rules, size_t right_rules_len,
    const uint32_t *right_rows, size_t right_rows_len,
    const uint8_t *right_text, size_t right_text_len,
    uint32_t *list, size_t list_len,
    uint32_t *left_marks, size_t left_marks_len,
    uint32_t *right_marks, size_t right_marks_len);

/* A literal: found is 1, and its bytes are length bytes of its side's text from offset on; or three zeros. */
typedef struct {
    uint32_t found;
    uint32_t offset;
    uint32_t length;
} ArvedunLiteral;

/* The literal (STR, INSENS or IDENT) at a row of a rule of one side, the row counted from the rule's first as in the list. Nothing need hold of
   what is lent: found is 0 where there is no such side, rule or row, where the row is no literal or its bytes do not lie in the text. Only
   the rules' counts of rows and that one row are looked at. */
ArvedunLiteral arvedun_shown(
    const uint32_t *left_rules, size_t left_rules_len,
    const uint32_t *left_rows, size_t left_rows_len,
    const uint8_t *left_text, size_t left_text_len,
    const uint32_t *right_rules, size_t right_rules_len,
    const uint32_t *right_rows, size_t right_rows_len,
    const uint8_t *right_text, size_t right_text_len,
    uint32_t side, uint64_t rule, uint64_t row);

/* Why a loop stays a loop. */

/* The answers, in the order in which they are asked; the place of the last three is where the reading of the loop's list ended. */
#define ARVEDUN_BECOMES_SKIP 0 /* step 2 makes a SKIP of the row */
#define ARVEDUN_NOT_REP 1      /* the row is no REP, or lies past the table */
#define ARVEDUN_REGROUP 2      /* step 1 changes the row's tree: regroup first, then ask again */
#define ARVEDUN_NOT_ATOMIC 3   /* its rule is not ATOMIC */
#define ARVEDUN_NOT_SEQ 4      /* not REP of SEQ */
#define ARVEDUN_NOT_NEG_PRED 5 /* left is not NEG_PRED */
#define ARVEDUN_NOT_ANY 6      /* right is not IDENT ANY */
#define ARVEDUN_UNKNOWN 7      /* an IDENT names no rule */
#define ARVEDUN_OTHER 8        /* another expression that is no list: neither STR nor IDENT, nor a CHOICE of one of these on the left */
#define ARVEDUN_MET_AGAIN 9    /* an IDENT names a rule that is already being read */

/* The list has a word for each rule that can be open at once. */
#define ARVEDUN_OPEN_WORDS 256

/* The refusal's number or ARVEDUN_DONE; the answer; for 7 to 9 the rule and the row at which the reading ended, for 9 the rule met again and how
   many rules were being read then. Rules are counted from 0, rows from the table's first. All else is 0. */
typedef struct {
    uint32_t number;
    uint32_t answer;
    uint32_t rule;
    uint32_t at;
    uint32_t met;
    uint32_t open;
} ArvedunExplained;

/* Says why row `row`, counted from the table's first, stays a loop, or that it becomes a SKIP: of step 2 alone, on the table given, names looked up
   there, also where its list would be too long for the whole call or another loop would be refused. The first reason in reading order.
   For answer 9 the rules then being read, outermost first, stand in front of the list (open words); else the list is unchanged, and so it is past them.
   marks is a work area. Full size: 256 words for the list, 1,024 for marks; smaller ones are refusal 1. Then refusals 2 to 6 as above.
   What a caller owes is as above: the list and the marks overlap nothing else. */
ArvedunExplained arvedun_explain(
    const uint32_t *rules, size_t rules_len,
    const uint32_t *rows, size_t rows_len,
    const uint8_t *text, size_t text_len,
    uint64_t row,
    uint32_t *list, size_t list_len,
    uint32_t *marks, size_t marks_len);

#ifdef __cplusplus
}
#endif

#endif
