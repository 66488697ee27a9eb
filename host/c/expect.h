/* What the examples share: a number that must be so, printed; `failed` is 1 once one was not. */
#include <stdio.h>

static int failed;

static void expect(const char *what, unsigned want, unsigned got)
{
    printf("%s: %u\n", what, got);
    if (want != got) {
        printf("  not %u\n", want);
        failed = 1;
    }
}
