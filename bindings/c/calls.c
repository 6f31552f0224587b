/*
 * Calls with NULL where a length is 0, calls beside pages that can't be read, and how much stack the
 * deepest calls take. Ends in 'N passed, M failed'.
 */
#include "expect.h"
#include <pallihun.h>
#include <string.h>
#include <sys/mman.h>
#include <ucontext.h>
#include <unistd.h>

enum { MOST_LENT = 16384, STACK_BYTES = 1 << 20 };

/* {a} and {a}, with a node for the variable x: one entry, 1 0 1. */
static const uint32_t small[] = {12, 8, 20, 0, 20, 1, 21, 0, 21, 1, 22, 0, 0, 0, 0, 0, 1, 1, 0, 0, 1, 1};
enum { SMALL = sizeof small / sizeof small[0] };

/* Both sides empty: one entry of 0 words. */
static const uint32_t empty[] = {12, 0, 12, 0, 12, 0, 12, 0, 12, 0, 12, 0};

static void pass_null(void)
{
    uint32_t words[] = {9000, 9001};
    expect(pallihun_check(NULL, 0) == PALLIHUN_TOO_FEW_WORDS, "check of no words");
    expect(pallihun_entry_words(NULL, 0) == 0, "entry words of no words");
    expect(pallihun_unify(NULL, 0, 0, 0, words, 2) == PALLIHUN_TOO_FEW_WORDS, "unify of no words");
    expect(pallihun_unify(NULL, 0, 0, 0, NULL, 0) == PALLIHUN_TOO_FEW_WORDS, "unify of no words into none");
    expect(pallihun_unify(small, SMALL, 1, 1, NULL, 0) == PALLIHUN_TOO_FEW_LENT, "unify into no words");
    expect(pallihun_list(NULL, 0, words, 2).answer == PALLIHUN_TOO_FEW_WORDS, "list of no words");
    expect(pallihun_list(NULL, 0, NULL, 0).answer == PALLIHUN_TOO_FEW_WORDS, "list of no words into none");
    const pallihun_listing full = pallihun_list(small, SMALL, NULL, 0);
    expect(full.answer == PALLIHUN_FULL && full.entries == 0, "list into no words");
    const pallihun_listing one = pallihun_list(empty, 12, NULL, 0);
    expect(one.answer == PALLIHUN_FINISHED && one.entries == 1, "an entry of no words into none");
    expect(words[0] == 9000 && words[1] == 9001, "words lent to refused calls are as they were");
}

/*
 * A table whose terms and whose listing go as deep as can be: 9 variables, and 247 applications, the
 * first of variable 0 and each other of the one before it and of the first, so that a search for a cycle
 * has two ways to go. Every left term is the deepest one, every right term a variable of its own, and
 * both sides have a label.
 */
static size_t deep_table(uint32_t *table)
{
    enum { VARIABLES = 9, NODES = PALLIHUN_MAX_NODES, ARGUMENTS = 2 * (NODES - VARIABLES) - 1 };
    const uint32_t lengths[] = {4 * NODES, ARGUMENTS, PALLIHUN_MAX_TERMS, 1, PALLIHUN_MAX_TERMS, 1};
    uint32_t *at = table;
    uint32_t offset = PALLIHUN_HEADER_WORDS;
    for (int section = 0; section < 6; offset += lengths[section++]) {
        *at++ = offset;
        *at++ = lengths[section];
    }
    for (uint32_t node = 0; node < NODES; node++) {
        const int variable = node < VARIABLES, first = node == VARIABLES;
        *at++ = variable ? PALLIHUN_VARIABLE : PALLIHUN_APPLICATION;
        *at++ = variable ? node : 1;
        *at++ = variable || first ? 0 : 2 * (node - VARIABLES) - 1;
        *at++ = variable ? 0 : first ? 1 : 2;
    }
    *at++ = 0;
    for (uint32_t node = VARIABLES + 1; node < NODES; node++) {
        *at++ = node - 1;
        *at++ = VARIABLES;
    }
    for (uint32_t i = 0; i < PALLIHUN_MAX_TERMS; i++)
        *at++ = NODES - 1;
    *at++ = 1;
    for (uint32_t i = 0; i < PALLIHUN_MAX_TERMS; i++)
        *at++ = i + 1;
    *at++ = 2;
    return (size_t)(at - table);
}

static uint32_t deep[PALLIHUN_MAX_TABLE_WORDS], lent_words[MOST_LENT];
static size_t deep_words;
static pallihun_listing deep_listing;
static uint32_t deep_unification;

static void call_deep(void)
{
    deep_listing = pallihun_list(deep, deep_words, lent_words, MOST_LENT);
    deep_unification = pallihun_unify(deep, deep_words, 0, PALLIHUN_MAX_NODES - 1, lent_words, MOST_LENT);
}

/*
 * Room for words, between two pages that can be neither read nor written: words lie at its start or at
 * its end.
 */
typedef struct room {
    uint32_t *start, *end;
} room;

static room between_pages(void)
{
    const size_t page = (size_t)sysconf(_SC_PAGESIZE), bytes = 64 * page;
    unsigned char *const all = mmap(NULL, bytes + 2 * page, PROT_NONE, MAP_PRIVATE | MAP_ANONYMOUS, -1, 0);
    mprotect(all + page, bytes, PROT_READ | PROT_WRITE);
    return (room){(uint32_t *)(void *)(all + page), (uint32_t *)(void *)(all + page + bytes)};
}

/* A call that reads or writes beside its words ends the program. The page of the table is not writable. */
static void call_beside_pages(const uint32_t *words, size_t count, size_t lent, uint32_t answer)
{
    const room table = between_pages(), out = between_pages();
    memcpy(table.start, words, 4 * count);
    memcpy(table.end - count, words, 4 * count);
    mprotect(table.start, (size_t)(table.end - table.start) * 4, PROT_READ);
    const uint32_t *const tables[] = {table.start, table.end - count};
    uint32_t *const outs[] = {out.start, out.end - lent};
    for (int i = 0; i < 4; i++) {
        const pallihun_listing listing = pallihun_list(tables[i % 2], count, outs[i / 2], lent);
        expect(listing.answer == answer, "a listing beside pages that can't be read");
        expect(pallihun_check(tables[i % 2], count) == (answer == PALLIHUN_FULL ? 0 : answer), "a check there");
        pallihun_unify(tables[i % 2], count, 0, 1, outs[i / 2], lent);
        pallihun_unify(tables[i % 2], count, 0, PALLIHUN_MAX_NODES - 1, outs[i / 2], lent);
        pallihun_entry_words(tables[i % 2], count);
    }
}

static void read_beside_pages(void)
{
    const size_t count = deep_table(deep);
    call_beside_pages(empty, 12, 0, PALLIHUN_FINISHED);
    call_beside_pages(small, SMALL, 3, PALLIHUN_FINISHED);
    call_beside_pages(small, SMALL, 2, PALLIHUN_FULL);
    call_beside_pages(deep, count, MOST_LENT - 1, PALLIHUN_FULL);
    call_beside_pages(deep, count - 1, 100, PALLIHUN_BROKEN_PAIR);
    for (size_t words = 0; words < PALLIHUN_HEADER_WORDS; words++)
        call_beside_pages(deep, words, 1, PALLIHUN_TOO_FEW_WORDS);
}

/* How many bytes of a painted stack a function changes. */
static size_t stack_of(void (*function)(void))
{
    static unsigned char stack[STACK_BYTES];
    static ucontext_t here, there;
    memset(stack, 0xA5, sizeof stack);
    getcontext(&there);
    there.uc_stack.ss_sp = stack;
    there.uc_stack.ss_size = sizeof stack;
    there.uc_link = &here;
    makecontext(&there, function, 0);
    swapcontext(&here, &there);
    size_t untouched = 0;
    while (untouched < sizeof stack && stack[untouched] == 0xA5)
        untouched++;
    return sizeof stack - untouched;
}

static void measure_stack(void)
{
    deep_words = deep_table(deep);
    const size_t bytes = stack_of(call_deep);
    printf("the deepest calls took %zu bytes of stack\n", bytes);
    expect(deep_listing.answer == PALLIHUN_FULL && deep_listing.entries > 0, "deep terms are listed");
    expect(deep_unification == PALLIHUN_OCCURS, "a variable with a deep term that holds it: occurs");
    expect(bytes > 20000, "a call was measured");
    expect(bytes <= PALLIHUN_STACK_BYTES, "a call takes no more stack than the header says");
}

int main(void)
{
    pass_null();
    read_beside_pages();
    measure_stack();
    return finish();
}
