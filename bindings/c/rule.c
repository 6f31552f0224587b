/*
 * A two-premise multiplicative rule, fitted to a sequent. The rule (left implication of linear logic):
 *
 *     G |- x     D, y |- z
 *     --------------------
 *      G, D, x -o y |- z
 *
 * G and D stand for multisets of formulas. Which formula of the sequent p, p -o q, q -o r |- r can be
 * x -o y, and which of the others go into which premise? The left side of the problem is
 * {x -o y | G, D}, the right side {p, p -o q, q -o r}.
 */
#include <pallihun.h>
#include <stdio.h>

/* The names of the nodes, and of the labels, for printing. */
static const char *const node_names[] = {"x", "y", "p", "q", "r", "x -o y", "p -o q", "q -o r"};
static const char *const label_names[] = {"G", "D"};

enum { X, Y, P, Q, R, RULE, P_TO_Q, Q_TO_R, NODES };
enum { LEFT_TERMS = 1, LEFT_LABELS = 2, RIGHT_TERMS = 3, VARIABLES = 2 };

static const uint32_t table[] = {
    /* offset and length of each section */
    12, 32, /* nodes */
    44, 6, /* arguments */
    50, 1, /* left terms */
    51, 2, /* left labels */
    53, 3, /* right terms */
    56, 0, /* right labels */
    /* nodes: kind, name, first, count */
    PALLIHUN_VARIABLE, 0, 0, 0, /* x */
    PALLIHUN_VARIABLE, 1, 0, 0, /* y */
    PALLIHUN_APPLICATION, 1, 0, 0, /* p */
    PALLIHUN_APPLICATION, 2, 0, 0, /* q */
    PALLIHUN_APPLICATION, 3, 0, 0, /* r */
    PALLIHUN_APPLICATION, 4, 0, 2, /* x -o y */
    PALLIHUN_APPLICATION, 4, 2, 2, /* p -o q */
    PALLIHUN_APPLICATION, 4, 4, 2, /* q -o r */
    /* arguments */
    X, Y, P, Q, Q, R,
    /* left terms, left labels, right terms */
    RULE,
    1, 2,
    P, P_TO_Q, Q_TO_R,
};

static const uint32_t right_terms[] = {P, P_TO_Q, Q_TO_R};

/* Prints the right terms that an entry puts in a left label. */
static void print_label(const uint32_t *entry, uint32_t label)
{
    const char *before = "";
    printf("  %s = {", label_names[label - 1]);
    for (int j = 0; j < RIGHT_TERMS; j++) {
        if (entry[LEFT_TERMS + j] == label) {
            printf("%s%s", before, node_names[right_terms[j]]);
            before = ", ";
        }
    }
    printf("}");
}

/*
 * Prints an entry: its words, and what they say. There are no right labels, so the left term is paired,
 * and the left labels have no rest.
 */
static void print_entry(const uint32_t *entry)
{
    const uint32_t *bindings = entry + LEFT_TERMS + RIGHT_TERMS;
    for (int i = 0; i < LEFT_TERMS + RIGHT_TERMS + VARIABLES; i++)
        printf("%u ", (unsigned)entry[i]);
    printf("  x -o y is %s", node_names[right_terms[entry[0] - 1]]);
    printf(", x = %s, y = %s", node_names[bindings[0]], node_names[bindings[1]]);
    for (uint32_t label = 1; label <= LEFT_LABELS; label++)
        print_label(entry, label);
    printf("\n");
}

int main(void)
{
    uint32_t out[64 * PALLIHUN_MAX_ENTRY_WORDS];
    const size_t words = sizeof table / sizeof table[0], lent = sizeof out / sizeof out[0];
    const pallihun_listing listing = pallihun_list(table, words, out, lent);
    const size_t entry_words = pallihun_entry_words(table, words);
    if (listing.answer != PALLIHUN_FINISHED) {
        printf("%s %u\n", listing.answer == PALLIHUN_FULL ? "full" : "refused", (unsigned)listing.answer);
        return 1;
    }
    printf("entries %llu\n", (unsigned long long)listing.entries);
    for (uint64_t i = 0; i < listing.entries; i++)
        print_entry(out + i * entry_words);
    return 0;
}
