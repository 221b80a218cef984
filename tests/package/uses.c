/* A program that has the package alone: every function once as it is meant to be used, and once refused. It is C and
 * C++. The last line is 'N passed, M failed'. */
#include "check.h"
#include <polonezar.h>
#include <string.h>

/* Label 10; a sibling right before has label 10; the parent is such an element; label 20; both of the last two. */
static const uint8_t rule[] = {4, 0, 2, 0, 10, 0, 4, 0, 9, 0, 0, 0, 4, 0, 7, 0, 1, 0, 4, 0, 2, 0, 20, 0,
                               6, 0, 5, 0, 3, 0, 2, 0};

/* Some child has label 20: this looks ahead. */
static const uint8_t ahead[] = {4, 0, 2, 0, 20, 0, 4, 0, 6, 0, 0, 0};

/* The tags of report R as labels, 0 for a closing. */
static const uint32_t tags[] = {1, 10, 20, 0, 30, 0, 0, 10, 20, 0, 0, 0};
static const uint64_t words[] = {0, 1, 8, 0, 3, 28};

static void readers(void)
{
    struct pz_rule_reply r = pz_read_rule(rule, sizeof rule);
    struct pz_report_reply s = pz_read_report(report_r, sizeof report_r);
    check(r.number == PZ_ACCEPTED && r.place == 0 && r.entries == 5, "the rule is taken");
    check(s.number == PZ_ACCEPTED && s.place == 0 && s.elements == 6, "the report is taken");
    r = pz_read_rule(rule, sizeof rule - 1);
    s = pz_read_report(report_r, sizeof report_r - 4);
    check(r.number == PZ_RULE_RECORD && r.place == 24 && r.entries == 0, "a rule that is cut off");
    check(s.number == PZ_REPORT_ORDER && s.place == 56 && s.elements == 0, "a report whose root stays open");
}

/* The text of a rule that selects what the rule above does, and one that is wrong at its last byte. */
static void typed(void)
{
    static const char text[] = "<?label 20/parent/left/?label 10>", wrong[] = "<?label 20/parent/left/>";
    uint8_t bytes[PZ_RULE_BYTES];
    uint64_t marks[6];
    size_t i;
    struct pz_evaluation_reply e;
    struct pz_written_reply w;
    memset(bytes, 255, sizeof bytes);
    w = pz_read_path((const uint8_t *)wrong, sizeof wrong - 1, bytes, sizeof bytes);
    check(w.number == PZ_TEXT_BAD && w.place == 23 && w.written == 0, "a text that is wrong at byte 23");
    w = pz_read_path((const uint8_t *)text, sizeof text - 1, bytes, 43);
    check(w.number == PZ_BUFFER_SHORT && w.place == 0 && w.written == 0, "no room for the rule");
    check(bytes[0] == 255 && bytes[42] == 255, "a refusal writes no byte");
    w = pz_read_path((const uint8_t *)text, sizeof text - 1, bytes, sizeof bytes);
    check(w.number == PZ_ACCEPTED && w.place == 0 && w.written == 44, "the text is taken");
    check(bytes[44] == 255 && bytes[PZ_RULE_BYTES - 1] == 255, "the bytes behind the rule stay");
    check(pz_read_rule(bytes, w.written).entries == 7, "the rule has an entry for each part of the text");
    e = pz_evaluate(bytes, w.written, report_r, sizeof report_r, marks, 6);
    check(e.number == PZ_ACCEPTED && e.selected == 1, "the typed rule selects one element");
    for (i = 0; i < 6; i++)
        check((marks[i] >> 6 & 1) == (words[i] >> 4 & 1), "the typed rule selects the same element");
}

static void whole(void)
{
    uint64_t marks[7];
    struct pz_evaluation_reply e;
    memset(marks, 255, sizeof marks);
    e = pz_evaluate(rule, sizeof rule, report_r, sizeof report_r, marks, 5);
    check(e.number == PZ_BUFFER_SHORT && e.place == 0 && e.elements == 0 && e.selected == 0, "too few words");
    check(marks[0] == UINT64_MAX && marks[4] == UINT64_MAX, "a refusal writes no mark");
    e = pz_evaluate(rule, sizeof rule, report_r, sizeof report_r, marks, 7);
    check(e.number == PZ_ACCEPTED && e.place == 0 && e.elements == 6 && e.selected == 1, "the evaluation");
    check(memcmp(marks, words, sizeof words) == 0, "a word for each element");
    check(marks[6] == UINT64_MAX, "the word behind stays");
}

/* The same as text. */
static void printed(void)
{
    static const char text[] = "element label level selected\n"
                               "0 1 0 0\n1 10 1 0\n2 20 2 0\n3 30 2 0\n4 10 1 0\n5 20 2 1\n"
                               "selected 1 of 6\n";
    uint8_t bytes[PZ_PRINTOUT_BYTES];
    size_t size = sizeof text - 1;
    struct pz_written_reply w;
    memset(bytes, 255, sizeof bytes);
    w = pz_print(rule, sizeof rule, report_r, sizeof report_r, bytes, size - 1);
    check(w.number == PZ_BUFFER_SHORT && w.place == 0 && w.written == 0, "no room for the text");
    w = pz_print(rule, sizeof rule, report_r, sizeof report_r - 4, bytes, sizeof bytes);
    check(w.number == PZ_REPORT_ORDER && w.place == 56 && w.written == 0, "no printout of a report that stays open");
    check(bytes[0] == 255 && bytes[size] == 255, "a refusal writes no text");
    w = pz_print(rule, sizeof rule, report_r, sizeof report_r, bytes, sizeof bytes);
    check(w.number == PZ_ACCEPTED && w.place == 0 && w.written == size, "the printout");
    check(memcmp(bytes, text, size) == 0, "a line for each element");
    check(bytes[size] == 255 && bytes[sizeof bytes - 1] == 255, "the bytes behind the text stay");
}

/* The state is saved and brought back between any two tags, as a console does that is started again. */
static void one_pass(void)
{
    uint8_t state[PZ_STATE_BYTES], saved[PZ_STATE_BYTES];
    struct pz_counts tally = {0, 0, 0};
    size_t i, element = 0;
    struct pz_step_reply step = pz_start(state, sizeof state);
    check(step.number == PZ_ACCEPTED && state[PZ_STATE_AT_DEPTH] == 0, "the start");
    step = pz_start(state, sizeof state - 1);
    check(step.number == PZ_STATE_BAD && step.verdict == 0, "a state that is too short");
    step = pz_open(ahead, sizeof ahead, state, sizeof state, 1);
    check(step.number == PZ_RULE_AHEAD && step.verdict == 0, "a rule that looks ahead");
    for (i = 0; i < sizeof tags / sizeof tags[0]; i++) {
        memcpy(saved, state, sizeof state);
        memset(state, 255, sizeof state);
        memcpy(state, saved, sizeof state);
        if (tags[i] == 0) {
            step = pz_close(rule, sizeof rule, state, sizeof state);
            check(step.number == PZ_ACCEPTED && step.place == 0 && step.verdict == 0, "a closing");
        } else {
            step = pz_open(rule, sizeof rule, state, sizeof state, tags[i]);
            check(step.number == PZ_ACCEPTED && step.place == 0 && step.verdict == (words[element] >> 4 & 1),
                  "an opening has the verdict of the evaluation");
            check(pz_tally(&tally, step.verdict) == PZ_ACCEPTED, "the verdict is counted");
            element++;
        }
    }
    check(state[PZ_STATE_AT_ROOT_CLOSED] == 1 && state[PZ_STATE_AT_ELEMENTS] == 6, "the state at the end");
    step = pz_close(rule, sizeof rule, state, sizeof state);
    check(step.number == PZ_REPORT_ORDER && step.verdict == 0, "a closing too many");
    check(tally.seen == 6 && tally.selected == 1 && tally.passed_over == 5, "the tally");
    tally.seen = 7;
    check(pz_tally(&tally, 1) == PZ_TALLY_BAD && tally.seen == 7 && tally.selected == 1, "a tally out of balance");
}

int main(void)
{
    readers();
    typed();
    whole();
    printed();
    one_pass();
    printf("polonezar %s\n", PZ_VERSION);
    return result();
}
