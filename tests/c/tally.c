/* The tally from C: what counts as a true verdict, the last verdict that fits, a full tally, and counts that do not add
 * up, also where their sum would in 32 bits. A refused tally stays as it was. The last line is 'N passed, M failed'. */
#include "polonezar.h"
#include "check.h"
#include <stdio.h>
#include <stdlib.h>

#define MOST 4294967295u

/* Counts one verdict in heap memory of exactly a tally's size, so that a sanitizer sees a byte past it. */
static void count(const char *what, struct pz_counts before, uint32_t verdict, uint32_t number, struct pz_counts after)
{
    struct pz_counts *tally = malloc(sizeof *tally);
    if (tally == NULL)
        exit(2);
    *tally = before;
    check(pz_tally(tally, verdict) == number, what);
    check(tally->seen == after.seen && tally->selected == after.selected && tally->passed_over == after.passed_over,
          what);
    free(tally);
}

static struct pz_counts counts(uint32_t seen, uint32_t selected, uint32_t passed_over)
{
    struct pz_counts t = {seen, selected, passed_over};
    return t;
}

static void counted(const char *what, struct pz_counts before, uint32_t verdict, struct pz_counts after)
{
    count(what, before, verdict, PZ_ACCEPTED, after);
}

/* Refused by each kind of verdict. */
static void refused(const char *what, struct pz_counts tally)
{
    count(what, tally, 0, PZ_TALLY_BAD, tally);
    count(what, tally, 1, PZ_TALLY_BAD, tally);
    count(what, tally, MOST, PZ_TALLY_BAD, tally);
}

int main(void)
{
    static const uint32_t true_ones[] = {1, 2, 255, 256, 65536, 2147483648u, MOST};
    check(sizeof(struct pz_counts) == 12, "three numbers and nothing between them");

    counted("a false verdict", counts(0, 0, 0), 0, counts(1, 0, 1));
    for (size_t i = 0; i < sizeof true_ones / sizeof true_ones[0]; i++)
        counted("anything but 0 is a true verdict", counts(0, 0, 0), true_ones[i], counts(1, 1, 0));
    counted("both have been counted", counts(12, 5, 7), 0, counts(13, 5, 8));
    counted("both have been counted", counts(12, 5, 7), 1, counts(13, 6, 7));

    counted("the last that fits, true", counts(MOST - 1, MOST - 1, 0), 1, counts(MOST, MOST, 0));
    counted("the last that fits, false", counts(MOST - 1, MOST - 1, 0), 0, counts(MOST, MOST - 1, 1));
    counted("the last that fits, all false", counts(MOST - 1, 0, MOST - 1), 0, counts(MOST, 0, MOST));
    refused("full, all true", counts(MOST, MOST, 0));
    refused("full, all false", counts(MOST, 0, MOST));
    refused("full, some of both", counts(MOST, 2147483648u, 2147483647u));
    refused("full and out of balance", counts(MOST, 1, 1));

    refused("one too many seen", counts(3, 1, 1));
    refused("one too few seen", counts(1, 1, 1));
    refused("nothing seen, one selected", counts(0, 1, 0));
    refused("nothing seen, one passed over", counts(0, 0, 1));
    refused("a sum that is 0 in 32 bits", counts(0, MOST, 1));
    refused("a sum that is 5 in 32 bits", counts(5, 2147483648u, 2147483653u));
    refused("the greatest sum", counts(MOST - 1, MOST, MOST));
    return result();
}
