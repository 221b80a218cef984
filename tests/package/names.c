/* Every name that the header had in versions 0.2.0 and 0.3.0, with the value and the type that it had: a program that
 * uses them stays valid. It is C and C++. The last line is 'N passed, M failed'. */
#include "check.h"
#include <polonezar.h>

static const struct {
    int now, then;
    const char *name;
} values[] = {
#define VALUE(name, then) {name, then, #name}
    VALUE(PZ_RULE_BYTES, 512),
    VALUE(PZ_RULE_ENTRIES, 64),
    VALUE(PZ_REPORT_BYTES, 40960),
    VALUE(PZ_REPORT_ELEMENTS, 4096),
    VALUE(PZ_REPORT_LEVELS, 64),
    VALUE(PZ_LABEL_LEAST, 1),
    VALUE(PZ_LABEL_MOST, 999),
    VALUE(PZ_TEXT_BYTES, 1024),
    VALUE(PZ_PRINTOUT_BYTES, 81920),
    VALUE(PZ_ACCEPTED, 0),
    VALUE(PZ_RULE_SIZE, 1),
    VALUE(PZ_RULE_RECORD, 2),
    VALUE(PZ_RULE_ARGUMENT, 3),
    VALUE(PZ_RULE_FULL, 4),
    VALUE(PZ_REPORT_SIZE, 5),
    VALUE(PZ_REPORT_RECORD, 6),
    VALUE(PZ_REPORT_ORDER, 7),
    VALUE(PZ_REPORT_FULL, 8),
    VALUE(PZ_MARKS_SHORT, 9),
    VALUE(PZ_BUFFER_SHORT, 9),
    VALUE(PZ_LOOKS_AHEAD, 10),
    VALUE(PZ_STATE_BAD, 11),
    VALUE(PZ_TALLY, 12),
    VALUE(PZ_TEXT_BAD, 13),
    VALUE(PZ_TEXT_FULL, 14),
    VALUE(PZ_STATE_BYTES, 1040),
    VALUE(PZ_STATE_DEPTH, 0),
    VALUE(PZ_STATE_ELEMENTS, 2),
    VALUE(PZ_STATE_ROOT_CLOSED, 4),
    VALUE(PZ_STATE_ZEROS, 6),
    VALUE(PZ_STATE_PRESENCE, 8),
    VALUE(PZ_STATE_OPEN_WORDS, 16),
    VALUE(PZ_STATE_LAST_WORDS, 528),
};

/* The fields of each struct in their order, and the types of the functions. */
static const struct pz_rule_reply rule_reply = {1, 2, 3};
static const struct pz_report_reply report_reply = {1, 2, 3};
static const struct pz_written written = {1, 2, 3};
static const struct pz_evaluation evaluation = {1, 2, 3, 4};
static const struct pz_step step = {1, 2, 3};
static const struct pz_counts counts = {1, 2, 3};
static const struct {
    struct pz_rule_reply (*read_rule)(const uint8_t *, size_t);
    struct pz_report_reply (*read_report)(const uint8_t *, size_t);
    struct pz_written (*read_path)(const uint8_t *, size_t, uint8_t *, size_t);
    struct pz_evaluation (*evaluate)(const uint8_t *, size_t, const uint8_t *, size_t, uint64_t *, size_t);
    struct pz_step (*start)(uint8_t *, size_t);
    struct pz_step (*open)(const uint8_t *, size_t, uint8_t *, size_t, uint32_t);
    struct pz_step (*close)(const uint8_t *, size_t, uint8_t *, size_t);
    uint32_t (*tally)(struct pz_counts *, uint32_t);
    struct pz_written_reply (*print)(const uint8_t *, size_t, const uint8_t *, size_t, uint8_t *, size_t);
} functions = {pz_read_rule, pz_read_report, pz_read_path, pz_evaluate, pz_start,
               pz_open,      pz_close,       pz_tally,     pz_print};

/* The enums, where C++ tells them apart. */
static const enum pz_size size = PZ_TEXT_BYTES;
static const enum pz_number numbers[] = {PZ_MARKS_SHORT, PZ_LOOKS_AHEAD, PZ_TALLY};
static const enum pz_state state[] = {PZ_STATE_BYTES, PZ_STATE_DEPTH, PZ_STATE_LAST_WORDS};

int main(void)
{
    size_t i;
    for (i = 0; i < sizeof values / sizeof values[0]; i++)
        check(values[i].now == values[i].then, values[i].name);
    check(rule_reply.number == 1 && rule_reply.place == 2 && rule_reply.entries == 3, "struct pz_rule_reply");
    check(report_reply.number == 1 && report_reply.place == 2 && report_reply.elements == 3, "struct pz_report_reply");
    check(written.number == 1 && written.place == 2 && written.written == 3, "struct pz_written");
    check(evaluation.number == 1 && evaluation.place == 2 && evaluation.elements == 3 && evaluation.selected == 4,
          "struct pz_evaluation");
    check(step.number == 1 && step.place == 2 && step.verdict == 3, "struct pz_step");
    check(counts.seen == 1 && counts.selected == 2 && counts.passed_over == 3, "struct pz_counts");
    check(functions.read_rule(NULL, 0).number == 1 && functions.start(NULL, 0).number == 11, "the functions");
    check(size == 1024 && numbers[0] == 9 && numbers[1] == 10 && numbers[2] == 12, "enum pz_size and enum pz_number");
    check(state[0] == 1040 && state[1] == 0 && state[2] == 528, "enum pz_state");
    return result();
}
