/* A program that has the readers' library alone. With EVALUATE it wants pz_evaluate too, which that library lacks. */
#include <polonezar.h>
#include <stdio.h>

static const uint8_t rule[] = {2, 0, 1, 0, 4, 0, 3, 0, 0, 0};
static const uint8_t report[] = {4, 0, 1, 0, 1, 0, 2, 0, 2, 0};

int main(void)
{
    struct pz_rule_reply r = pz_read_rule(rule, sizeof rule);
    struct pz_rule_reply r_cut = pz_read_rule(rule, sizeof rule - 1);
    struct pz_report_reply s = pz_read_report(report, sizeof report);
    struct pz_report_reply s_cut = pz_read_report(report, 6);
    int passed = (r.number == PZ_ACCEPTED && r.place == 0 && r.entries == 2)
        + (r_cut.number == PZ_RULE_RECORD && r_cut.place == 4 && r_cut.entries == 0)
        + (s.number == PZ_ACCEPTED && s.place == 0 && s.elements == 1)
        + (s_cut.number == PZ_REPORT_ORDER && s_cut.place == 6 && s_cut.elements == 0);
#ifdef EVALUATE
    uint64_t mark = 0;
    passed += pz_evaluate(rule, sizeof rule, report, sizeof report, &mark, 1).number == PZ_ACCEPTED;
#endif
    printf("%d passed, %d failed\n", passed, 4 - passed);
    return passed != 4;
}
