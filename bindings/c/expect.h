/* Counts what holds and what does not. */
#include <stdio.h>

static unsigned passed, failed;

static void expect(int holds, const char *what)
{
    if (holds) {
        passed++;
    } else {
        failed++;
        printf("FAILED: %s\n", what);
    }
}

/* Prints the counts as the last line, and gives the exit status. */
static int finish(void)
{
    printf("%u passed, %u failed\n", passed, failed);
    return failed != 0;
}
