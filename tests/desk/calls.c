/* calls.c: the calls alone, for what the tool is compared with.
 *
 *     calls marks RULE REPORT         for each entry the elements where it holds, as pz_evaluate marks them
 *     calls judge RULE REPORT TIMES   pz_print, and pz_tally for each element, so many times; the sums */
#include <polonezar.h>
#include <stdio.h>
#include <stdlib.h>
#include <string.h>

static uint8_t rule[PZ_RULE_BYTES], report[PZ_REPORT_BYTES], text[PZ_PRINTOUT_BYTES];
static uint64_t marks[PZ_REPORT_ELEMENTS];

static size_t read_whole(const char *name, uint8_t *into, size_t room)
{
    FILE *file = fopen(name, "rb");
    size_t len = file == NULL ? 0 : fread(into, 1, room, file);
    if (file != NULL)
        fclose(file);
    return len;
}

static int print_marks(size_t rule_len, size_t report_len)
{
    struct pz_evaluation_reply e = pz_evaluate(rule, rule_len, report, report_len, marks, PZ_REPORT_ELEMENTS);
    uint32_t entries = pz_read_rule(rule, rule_len).entries;
    for (uint32_t entry = 0; entry < entries; entry++) {
        printf("entry %u:", (unsigned)entry);
        for (uint32_t s = 0; s < e.elements; s++)
            if (marks[s] >> entry & 1)
                printf(" %u", (unsigned)s);
        printf("\n");
    }
    return e.number != PZ_ACCEPTED;
}

static int judge(size_t rule_len, size_t report_len, long times)
{
    struct pz_counts tally = {0, 0, 0};
    struct pz_written_reply w = {0, 0, 0};
    for (long i = 0; i < times && w.number == PZ_ACCEPTED; i++) {
        w = pz_print(rule, rule_len, report, report_len, text, sizeof text);
        for (const uint8_t *end = memchr(text, '\n', w.written); end[1] != 's';) {
            end = memchr(end + 1, '\n', w.written);
            pz_tally(&tally, end[-1] == '1');
        }
    }
    printf("seen %u, selected %u, passed over %u\n", (unsigned)tally.seen, (unsigned)tally.selected,
           (unsigned)tally.passed_over);
    return w.number != PZ_ACCEPTED;
}

int main(int argc, char **argv)
{
    size_t rule_len, report_len;
    if (argc < 4)
        return 2;
    rule_len = read_whole(argv[2], rule, sizeof rule);
    report_len = read_whole(argv[3], report, sizeof report);
    if (strcmp(argv[1], "marks") == 0)
        return print_marks(rule_len, report_len);
    return argc == 5 ? judge(rule_len, report_len, atol(argv[4])) : 2;
}
