/* What the tests share: a count of checks, and document 01's report R. */
#ifndef CHECK_H
#define CHECK_H
#include <stdint.h>
#include <stdio.h>

static int passed, failed;

static void check(int ok, const char *what)
{
    if (ok) {
        passed++;
    } else {
        failed++;
        printf("FAILED: %s\n", what);
    }
}

/* The last line of a test, and what its main answers. */
static int result(void)
{
    printf("%d passed, %d failed\n", passed, failed);
    return failed != 0;
}

/* Report R: site 1 with chambers 10 (20, 30) and 10 (20). */
static const uint8_t report_r[] = {
    4, 0, 1, 0, 1, 0,
    4, 0, 1, 0, 10, 0, 4, 0, 1, 0, 20, 0, 2, 0, 2, 0, 4, 0, 1, 0, 30, 0, 2, 0, 2, 0, 2, 0, 2, 0,
    4, 0, 1, 0, 10, 0, 4, 0, 1, 0, 20, 0, 2, 0, 2, 0, 2, 0, 2, 0,
    2, 0, 2, 0};

#endif
