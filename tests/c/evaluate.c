/* The evaluator from C: sample cases, refusals that leave the buffer, words past the last element, and NULL with
 * length 0. The last line is 'N passed, M failed'. */
#include "polonezar.h"
#include "check.h"
#include <stdio.h>
#include <stdlib.h>
#include <string.h>

/* Rule A: true; label 20; label 30; 12(0,2); 5(1,3). */
static const uint8_t rule_a[] = {2, 0, 1, 0, 4, 0, 2, 0, 20, 0, 4, 0, 2, 0, 30, 0, 6, 0, 12, 0, 0, 0, 2, 0, 6, 0, 5, 0, 1, 0, 3, 0};

static const uint64_t words_a[] = {1, 1, 27, 13, 1, 3};

enum { MOST = 9, UNTOUCHED = 7777 };

static int answers(struct pz_evaluation_reply r, uint32_t number, uint32_t place, uint32_t elements, uint32_t selected)
{
    return r.number == number && r.place == place && r.elements == elements && r.selected == selected;
}

/* Evaluates into an exact heap buffer of n words, so that a sanitizer sees a write past it, and compares. */
static void evaluate(const char *what, const uint8_t *rule, size_t rule_len, const uint8_t *report, size_t report_len,
                     size_t n, uint32_t number, uint32_t place, uint32_t elements, uint32_t selected,
                     const uint64_t *expected)
{
    uint64_t *marks = malloc((n + 1) * sizeof *marks);
    if (marks == NULL)
        exit(2);
    for (size_t i = 0; i <= n; i++)
        marks[i] = UNTOUCHED;
    check(answers(pz_evaluate(rule, rule_len, report, report_len, marks, n), number, place, elements, selected), what);
    int same = marks[n] == UNTOUCHED;
    for (size_t i = 0; i < n; i++)
        same = same && marks[i] == (i < elements ? expected[i] : (uint64_t)UNTOUCHED);
    check(same, what);
    free(marks);
}

int main(void)
{
    size_t ra = sizeof rule_a, rr = sizeof report_r;
    uint8_t damaged[sizeof report_r];
    evaluate("case A", rule_a, ra, report_r, rr, 6, 0, 0, 6, 1, words_a);
    evaluate("case A, a longer buffer keeps its tail", rule_a, ra, report_r, rr, MOST, 0, 0, 6, 1, words_a);
    evaluate("a buffer one word short", rule_a, ra, report_r, rr, 5, 9, 0, 0, 0, words_a);
    evaluate("a buffer of no words", rule_a, ra, report_r, rr, 0, 9, 0, 0, 0, words_a);
    memcpy(damaged, report_r, rr);
    damaged[4] = 0;
    evaluate("a faulty report before a short buffer", rule_a, ra, damaged, rr, 0, 6, 0, 0, 0, words_a);
    for (size_t cut = 0; cut < rr; cut++) {
        struct pz_report_reply r = pz_read_report(report_r, cut);
        evaluate("a report cut anywhere", rule_a, ra, report_r, cut, MOST, r.number, r.place, 0, 0, words_a);
    }
    for (size_t cut = 0; cut < ra; cut++) {
        struct pz_rule_reply r = pz_read_rule(rule_a, cut);
        if (r.number != 0)
            evaluate("a rule cut inside a record", rule_a, cut, damaged, rr, MOST, r.number, r.place, 0, 0, words_a);
    }
    check(answers(pz_evaluate(NULL, 0, report_r, rr, NULL, 0), 1, 0, 0, 0), "no rule, no buffer");
    check(answers(pz_evaluate(rule_a, ra, NULL, 0, NULL, 0), 5, 0, 0, 0), "no report, no buffer");
    check(answers(pz_evaluate(rule_a, ra, report_r, rr, NULL, 0), 9, 0, 0, 0), "no buffer");
    check(answers(pz_evaluate(NULL, 0, NULL, 0, NULL, 0), 1, 0, 0, 0), "nothing at all");
    return result();
}
