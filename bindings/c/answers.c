/*
 * answers QUESTIONS ANSWERS: asks the library each line of a file of questions, and compares its
 * answers, with every lent word, with the lines of a file of answers. Ends in 'N passed, M failed'.
 *
 * A question is a name, a colon and the words of a table. A name that begins with 'unify A B with L
 * lent' asks to unify two nodes, one that begins with 'list with L lent' to list; any other asks to
 * check. Lent words hold 9000, 9001 and so on before a call.
 */
#include "expect.h"
#include <pallihun.h>
#include <stdio.h>
#include <stdlib.h>
#include <string.h>

enum { LINE_BYTES = 1 << 18, MOST_LENT = 16384 };

/* A line's words behind its colon, and how many there are. */
static size_t read_words(const char *text, uint32_t *words)
{
    size_t count = 0;
    char *end;
    for (;;) {
        const unsigned long word = strtoul(text, &end, 10);
        if (end == text)
            return count;
        words[count++] = (uint32_t)word;
        text = end;
    }
}

static char *spell_words(char *text, const uint32_t *words, size_t count)
{
    if (count > 0)
        *text++ = ',';
    for (size_t i = 0; i < count; i++)
        text += sprintf(text, " %u", (unsigned)words[i]);
    return text;
}

/* How often each number was answered by each operation, and how often a listing was finished with no entry. */
enum { CHECK, UNIFY, LIST, OPERATIONS };
static unsigned met[OPERATIONS][PALLIHUN_OCCURS + 1], met_empty;

static void meet(int operation, uint32_t answer)
{
    if (answer <= PALLIHUN_OCCURS)
        met[operation][answer]++;
}

static char *spell_refusal(char *text, uint32_t answer)
{
    return text + sprintf(text, "refused %u", (unsigned)answer);
}

static char *spell_check(char *text, uint32_t answer)
{
    meet(CHECK, answer);
    return answer == PALLIHUN_ACCEPTED ? text + sprintf(text, "accepted") : spell_refusal(text, answer);
}

static char *spell_unification(char *text, uint32_t answer)
{
    meet(UNIFY, answer);
    switch (answer) {
    case PALLIHUN_UNIFIED:
        return text + sprintf(text, "unified");
    case PALLIHUN_CLASH:
        return text + sprintf(text, "clash");
    case PALLIHUN_OCCURS:
        return text + sprintf(text, "occurs");
    default:
        return spell_refusal(text, answer);
    }
}

static char *spell_listing(char *text, pallihun_listing listing)
{
    meet(LIST, listing.answer);
    met_empty += listing.answer == PALLIHUN_FINISHED && listing.entries == 0;
    switch (listing.answer) {
    case PALLIHUN_FINISHED:
        return text + sprintf(text, "entries %llu", (unsigned long long)listing.entries);
    case PALLIHUN_FULL:
        return text + sprintf(text, "full %llu", (unsigned long long)listing.entries);
    default:
        expect(listing.entries == 0, "a refused listing has no entries");
        return spell_refusal(text, listing.answer);
    }
}

/* Asks what a line asks, and spells the line that answers it. */
static void answer(const char *question, char *text)
{
    static uint32_t table[LINE_BYTES / 2], out[MOST_LENT];
    const char *const colon = strchr(question, ':');
    const size_t words = read_words(colon + 1, table);
    unsigned a, b, lent = 0;
    for (size_t i = 0; i < MOST_LENT; i++)
        out[i] = (uint32_t)(9000 + i);
    text += sprintf(text, "%.*s: ", (int)(colon - question), question);
    if (sscanf(question, "unify %u %u with %u lent", &a, &b, &lent) == 3) {
        text = spell_unification(text, pallihun_unify(table, words, a, b, out, lent));
    } else if (sscanf(question, "list with %u lent", &lent) == 1) {
        text = spell_listing(text, pallihun_list(table, words, out, lent));
    } else {
        text = spell_check(text, pallihun_check(table, words));
    }
    expect(lent == MOST_LENT || out[lent] == 9000 + lent, "the word behind the lent ones is as it was");
    strcpy(spell_words(text, out, lent), "\n");
}

static void ask_lines(const char *questions, const char *answers)
{
    static char question[LINE_BYTES], expected[LINE_BYTES], found[LINE_BYTES];
    FILE *const q = fopen(questions, "r"), *const a = fopen(answers, "r");
    if (q == NULL || a == NULL) {
        expect(0, "the files of questions and answers are there");
        return;
    }
    while (fgets(question, LINE_BYTES, q) != NULL) {
        answer(question, found);
        const int same = fgets(expected, LINE_BYTES, a) != NULL && strcmp(expected, found) == 0;
        expect(same, found);
    }
    expect(fgets(expected, LINE_BYTES, a) == NULL, "there are as many answers as questions");
    fclose(q);
    fclose(a);
}

/* Each operation has to have given each of its answers. */
static void expect_all_met(void)
{
    for (int answer = PALLIHUN_ACCEPTED; answer <= PALLIHUN_WRONG_LABEL; answer++) {
        expect(met[CHECK][answer] > 0, "every answer of check is met");
        expect(met[LIST][answer] > 0, "every answer of list is met");
    }
    for (int answer = PALLIHUN_UNIFIED; answer <= PALLIHUN_TOO_FEW_LENT; answer++)
        expect(met[UNIFY][answer] > 0, "every answer of unify is met");
    expect(met[UNIFY][PALLIHUN_CLASH] > 0 && met[UNIFY][PALLIHUN_OCCURS] > 0, "clash and occurs are met");
    expect(met[LIST][PALLIHUN_FULL] > 0 && met_empty > 0, "full, and finished with no entry, are met");
}

int main(int argc, char **argv)
{
    if (argc != 3) {
        printf("usage: answers QUESTIONS ANSWERS\n");
        return 2;
    }
    ask_lines(argv[1], argv[2]);
    expect_all_met();
    return finish();
}
