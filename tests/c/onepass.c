/* One pass from C: case L, refused tags between accepted ones, bad states, NULL with length 0, and the verdicts of a
 * whole report, counted in a tally, against the evaluator's marks. The last line is 'N passed, M failed'. */
#include "polonezar.h"
#include "check.h"
#include <stdio.h>
#include <string.h>

/* Rule B: label 10; 9(0); 7(1); label 20; 5(3,2). It looks back only. */
static const uint8_t rule_b[] = {4, 0, 2, 0, 10, 0, 4, 0, 9, 0, 0, 0, 4, 0, 7, 0, 1, 0, 4, 0, 2, 0, 20, 0, 6, 0, 5, 0, 3, 0, 2, 0};

/* A rule that looks ahead: label 20; 6(0). */
static const uint8_t rule_ahead[] = {4, 0, 2, 0, 20, 0, 4, 0, 6, 0, 0, 0};

/* Report R as labels, 0 for a closing. */
static const uint32_t tags[] = {1, 10, 20, 0, 30, 0, 0, 10, 20, 0, 0, 0};

static uint8_t state[PZ_STATE_BYTES + 1];

static int step(struct pz_step_reply r, uint32_t number, uint32_t place, uint32_t verdict)
{
    return r.number == number && r.place == place && r.verdict == verdict;
}

static struct pz_step_reply opening(uint32_t label)
{
    return pz_open(rule_b, sizeof rule_b, state, PZ_STATE_BYTES, label);
}

static struct pz_step_reply closing(void)
{
    return pz_close(rule_b, sizeof rule_b, state, PZ_STATE_BYTES);
}

/* A refused call, which has to leave the state as it was. */
static void refused(const char *what, struct pz_step_reply (*call)(void), uint32_t number)
{
    uint8_t before[sizeof state];
    memcpy(before, state, sizeof state);
    check(step(call(), number, 0, 0), what);
    check(memcmp(before, state, sizeof state) == 0, what);
}

static struct pz_step_reply label_0(void) { return opening(0); }
static struct pz_step_reply label_1000(void) { return opening(1000); }
static struct pz_step_reply label_65537(void) { return opening(65537); }
static struct pz_step_reply label_1(void) { return opening(1); }
static struct pz_step_reply ahead(void) { return pz_open(rule_ahead, sizeof rule_ahead, state, PZ_STATE_BYTES, 1); }
static struct pz_step_reply shorter(void) { return pz_open(rule_b, sizeof rule_b, state, PZ_STATE_BYTES - 1, 1); }
static struct pz_step_reply longer(void) { return pz_open(rule_b, sizeof rule_b, state, sizeof state, 1); }

static void begin(void)
{
    memset(state, 0xAA, sizeof state);
    check(step(pz_start(state, PZ_STATE_BYTES), 0, 0, 0), "start");
    check(state[PZ_STATE_BYTES] == 0xAA, "start writes no byte past the state");
}

/* One byte of a started state changed: the state is bad. */
static void bad(size_t at, uint8_t value, const char *what)
{
    begin();
    state[at] = value;
    refused(what, label_1, 11);
}

static void whole_report(void)
{
    uint64_t marks[6];
    struct pz_counts tally = {0, 0, 0};
    struct pz_evaluation_reply e = pz_evaluate(rule_b, sizeof rule_b, report_r, sizeof report_r, marks, 6);
    uint32_t element = 0;
    check(e.number == 0 && e.elements == 6 && e.selected == 1, "rule B on report R");
    begin();
    refused("a closing first", closing, 7);
    for (size_t i = 0; i < sizeof tags / sizeof tags[0]; i++) {
        if (tags[i] == 0) {
            check(step(closing(), 0, 0, 0), "a closing");
        } else {
            struct pz_step_reply r = opening(tags[i]);
            check(step(r, 0, 0, (uint32_t)(marks[element] >> 4 & 1)), "one pass gives the evaluator's verdict");
            check(pz_tally(&tally, r.verdict) == 0, "the tally takes it");
            element++;
        }
        if (i + 1 < sizeof tags / sizeof tags[0]) {
            refused("label 0 on the way", label_0, 6);
            refused("label 1,000 on the way", label_1000, 6);
            refused("label 65,537 on the way", label_65537, 6);
            refused("a rule that looks ahead", ahead, 10);
            refused("a state one byte longer", longer, 11);
        }
    }
    refused("an opening after the root closed", label_1, 7);
    refused("a closing after the root closed", closing, 7);
    check(tally.seen == e.elements && tally.selected == e.selected && tally.passed_over == 5, "the tally at the end");
}

static void limits(void)
{
    begin();
    for (int i = 0; i < 64; i++)
        check(step(opening(1), 0, 0, 0), "64 levels");
    refused("the 65th level", label_1, 8);
    begin();
    check(step(opening(1), 0, 0, 0), "the root");
    for (int i = 1; i < 4096; i++) {
        check(step(opening(2), 0, 0, 0), "4,096 elements");
        check(step(closing(), 0, 0, 0), "4,096 elements");
    }
    refused("the 4,097th element", label_1, 8);
}

/* A state that no walk reaches and that is not bad: at depth 2, presence bits set above, no word where a walk would
 * have put one. The table still decides, and which bytes change is fixed. */
static void not_reached(void)
{
    uint8_t expected[PZ_STATE_BYTES];
    begin();
    memset(state + PZ_STATE_AT_PRESENCE, 0xFF, PZ_STATE_BYTES - PZ_STATE_AT_PRESENCE);
    state[PZ_STATE_AT_DEPTH] = 2;
    state[PZ_STATE_AT_ELEMENTS] = 9;
    memcpy(expected, state, sizeof expected);
    /* Both words are all ones: 9(0) and 7(1) hold, and label 20; so entries 1, 2, 3 and 4 hold and 0 does not. */
    check(step(opening(20), 0, 0, 1), "the table decides on a state that no walk reaches");
    expected[PZ_STATE_AT_DEPTH] = 3;
    expected[PZ_STATE_AT_ELEMENTS] = 10;
    expected[PZ_STATE_AT_PRESENCE] = 0xF7;
    memset(expected + PZ_STATE_AT_OPEN_WORDS + 2 * 8, 0, 8);
    expected[PZ_STATE_AT_OPEN_WORDS + 2 * 8] = 30;
    check(memcmp(expected, state, sizeof expected) == 0, "what the opening wrote, and nothing else");
    check(step(closing(), 0, 0, 0), "a closing in it");
    expected[PZ_STATE_AT_DEPTH] = 2;
    memcpy(expected + PZ_STATE_AT_LAST_WORDS + 2 * 8, expected + PZ_STATE_AT_OPEN_WORDS + 2 * 8, 8);
    check(memcmp(expected, state, sizeof expected) == 0, "what the closing wrote, and nothing else");
}

/* Bad states that one changed byte does not make. */
static void bad_pairs(void)
{
    begin();
    state[PZ_STATE_AT_DEPTH] = 65;
    state[PZ_STATE_AT_ELEMENTS] = 65;
    refused("depth 65", label_1, 11);
    refused("depth 65, closing", closing, 11);
    begin();
    check(step(opening(1), 0, 0, 0), "the root");
    state[PZ_STATE_AT_ROOT_CLOSED] = 1;
    refused("root closed while it is open", label_1, 11);
    refused("root closed while it is open, closing", closing, 11);
    begin();
    state[PZ_STATE_AT_ELEMENTS + 1] = 16;
    state[PZ_STATE_AT_ELEMENTS] = 1;
    refused("4,097 elements", label_1, 11);
    refused("a state one byte shorter", shorter, 11);
}

int main(void)
{
    struct pz_step_reply r;
    whole_report();
    limits();
    bad(PZ_STATE_AT_DEPTH, 1, "depth above elements");
    bad(PZ_STATE_AT_ROOT_CLOSED, 2, "root closed 2");
    bad(PZ_STATE_AT_ROOT_CLOSED + 1, 1, "byte 5 set");
    bad(6, 1, "byte 6 set");
    bad(7, 1, "byte 7 set");
    bad(PZ_STATE_AT_ELEMENTS + 1, 17, "elements above 4,096");
    bad_pairs();
    not_reached();
    r = pz_start(NULL, 0);
    check(step(r, 11, 0, 0), "start with nothing");
    r = pz_open(rule_b, sizeof rule_b, NULL, 0, 1);
    check(step(r, 11, 0, 0), "open with no state");
    begin();
    r = pz_open(NULL, 0, state, PZ_STATE_BYTES, 1);
    check(step(r, 1, 0, 0), "open with no rule");
    r = pz_close(NULL, 0, NULL, 0);
    check(step(r, 1, 0, 0), "close with nothing");
    r = pz_close(rule_b, sizeof rule_b, NULL, 0);
    check(step(r, 11, 0, 0), "close with no state");
    return result();
}
