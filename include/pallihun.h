/*
 * Pallihun: unifiers of multisets of first-order terms with labelled multiset variables.
 *
 * pallihun_check checks a problem table, pallihun_unify unifies two of its terms, pallihun_list
 * lists the unifiers of its two sides: every one, once, in a fixed order. Any words may be handed to
 * them. What each answers, and each lent word after the call, is proved; docs/PROMISES.md says what,
 * and README.md has a worked example.
 *
 * What a caller owes:
 *   - `table` points to `words` words that can be read, and `out` to `lent` words that can be read and
 *     written, aligned as uint32_t is. Where a length is 0, nothing is read or written through its
 *     pointer, which may be NULL.
 *   - `out` and `table` do not overlap, and no other thread writes to either during the call.
 *
 * Calls are reentrant: the library has no state and allocates nothing, so that any number of threads
 * may call it at once, with one table or with many. Of the C library it calls memcpy and memset.
 * Every call ends. It takes at most PALLIHUN_STACK_BYTES of stack.
 */
#ifndef PALLIHUN_H
#define PALLIHUN_H

#include <stddef.h>
#include <stdint.h>

#ifdef __cplusplus
extern "C" {
#endif

#define PALLIHUN_VERSION "0.1.0"

/*
 * A problem table is a number of 32-bit words.
 *
 * Words 0 to 11 are six pairs of offset and length, in words: nodes, arguments, left terms, left
 * labels, right terms, right labels. The first offset is 12, each next offset is the end of the section
 * before it, and the last section ends with the table.
 *
 * A node is four words: kind, name, first, count. Nodes are numbered from 0.
 *   - A variable has kind 0 and a name from 0 to 63; first and count are 0. Nodes with one name are
 *     one variable.
 *   - An application has kind 1, a name from 0 to 65535 and a count of arguments from 0 to 8. Name and
 *     count together are its symbol. Its arguments are `count` words of the arguments section from
 *     `first` on. These runs lie in node order without gap; where count is 0, first is 0. An
 *     argument is the number of an earlier node.
 * A term is a node number, and may be repeated. A label is a number from 1 to 65535, and stands once
 * in the table.
 */
#define PALLIHUN_HEADER_WORDS 12
#define PALLIHUN_NODE_WORDS 4
#define PALLIHUN_VARIABLE 0
#define PALLIHUN_APPLICATION 1

/* Limits. */
#define PALLIHUN_MAX_NODES 256
#define PALLIHUN_MAX_ARGUMENTS 512
#define PALLIHUN_MAX_TERMS 8  /* a side */
#define PALLIHUN_MAX_LABELS 4 /* a side */
#define PALLIHUN_MAX_COUNT 8  /* arguments of one application */
#define PALLIHUN_MAX_VARIABLE 63
#define PALLIHUN_MAX_NAME 65535
#define PALLIHUN_MAX_LABEL 65535

/* The most words of an accepted table, of its binding words, and of an entry of its listing. */
#define PALLIHUN_MAX_TABLE_WORDS 1572
#define PALLIHUN_MAX_BINDING_WORDS 64
#define PALLIHUN_MAX_ENTRY_WORDS 80

/* The most stack that a call takes: measured, with a margin, and not proved. */
#define PALLIHUN_STACK_BYTES 131072

/* Answers: the work is done. */
#define PALLIHUN_ACCEPTED 0 /* pallihun_check */
#define PALLIHUN_UNIFIED 0  /* pallihun_unify */
#define PALLIHUN_FINISHED 0 /* pallihun_list */

/* Refusals. The first whose condition holds is given, each tried over the whole table before the next. */
#define PALLIHUN_TOO_FEW_WORDS 1  /* fewer than 12 words */
#define PALLIHUN_BROKEN_PAIR 2    /* sections that do not lie end to end, from word 12 to the end */
#define PALLIHUN_OVER_LIMIT 3     /* nodes that are no multiple of 4 words, or a section over its limit */
#define PALLIHUN_WRONG_NODE 4     /* a wrong kind, name, first or count, or a wrong sum of counts */
#define PALLIHUN_WRONG_ARGUMENT 5 /* an argument that is not smaller than its node */
#define PALLIHUN_WRONG_TERM 6     /* a term that is not a node number */
#define PALLIHUN_WRONG_LABEL 7    /* a label that is 0, above 65535 or repeated */
#define PALLIHUN_NOT_A_NODE 8     /* pallihun_unify: a given number is not a node */
#define PALLIHUN_TOO_FEW_LENT 9   /* pallihun_unify: fewer words are lent than there are variables */
#define PALLIHUN_FULL 10          /* pallihun_list: the entries need more words than are lent */

/* Two terms that have no unifier. */
#define PALLIHUN_CLASH 1000  /* two applications of different symbols would have to be equal */
#define PALLIHUN_OCCURS 1001 /* there is no clash, and a term would have to hold itself */

/*
 * Checks a table: PALLIHUN_ACCEPTED, or the refusal, 1 to 7.
 */
uint32_t pallihun_check(const uint32_t *table, size_t words);

/*
 * Unifies the terms of nodes a and b of a table: PALLIHUN_UNIFIED, PALLIHUN_CLASH, PALLIHUN_OCCURS, or
 * the refusal, 1 to 9.
 *
 * Unified writes the first V of the lent words, V being the number of variables in the nodes section:
 * for each of these variables, in rising order of name, a node that has its value under a most general
 * unifier. Where the value is an application, it is the least application node that has it; otherwise
 * it is the least node of the lowest variable that has it. No other word is changed, and no other answer
 * changes a word. PALLIHUN_MAX_BINDING_WORDS are always enough.
 */
uint32_t pallihun_unify(const uint32_t *table, size_t words, uint32_t a, uint32_t b, uint32_t *out,
                        size_t lent);

/* What listing a table answers. */
typedef struct pallihun_listing {
    uint32_t answer;  /* PALLIHUN_FINISHED, PALLIHUN_FULL, or the refusal, 1 to 7 */
    uint64_t entries; /* how many entries stand in the lent words; 0 for a refusal */
} pallihun_listing;

/*
 * Lists the unifiers of a table's two sides, each as an entry, one behind the other in the lent words.
 *
 * PALLIHUN_FINISHED: these are all entries. An assignment of terms to the variables and of multisets of
 * terms to the labels makes the two sides equal exactly if it is an instance of one of them. So 0
 * entries mean that no assignment does.
 * PALLIHUN_FULL: there are more. These are the first ones, as many as fit.
 * No word behind the entries is changed, and a refusal changes none.
 *
 * With n left and m right terms and V variables in the nodes section an entry is n + m + V words:
 *   - for each left term a digit: j from 1 to m pairs it with right term j, m + q puts it in right label
 *     q, counted from 1 in table order;
 *   - for each right term a digit: 0 if it is paired, otherwise p puts it in left label p;
 *   - the binding words of a most general unifier of all pairs together, as pallihun_unify writes them.
 * A label holds the terms put in it and a rest: anything, as long as the rests of the left labels
 * together are those of the right labels together, so nothing where the other side has no labels.
 * Entries stand in rising order of their digits, compared from the first.
 */
pallihun_listing pallihun_list(const uint32_t *table, size_t words, uint32_t *out, size_t lent);

/*
 * How many words an entry of a table's listing has: n + m + V. Where the table is refused, 0.
 */
size_t pallihun_entry_words(const uint32_t *table, size_t words);

#ifdef __cplusplus
}
#endif

#endif
