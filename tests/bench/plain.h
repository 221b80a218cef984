/* The plain form of the calls: what one would write in C without a proof. It gives the same answers; the benchmark
 * checks that it does before it compares times. */
#ifndef PLAIN_H
#define PLAIN_H
#include "polonezar.h"

struct pz_evaluation_reply plain_evaluate(const uint8_t *rule, size_t rule_len,
                                          const uint8_t *report, size_t report_len,
                                          uint64_t *marks, size_t words);
struct pz_step_reply plain_open(const uint8_t *rule, size_t rule_len, uint8_t *state, size_t state_len, uint32_t label);
struct pz_step_reply plain_close(const uint8_t *rule, size_t rule_len, uint8_t *state, size_t state_len);
struct pz_written_reply plain_read_path(const uint8_t *text, size_t text_len, uint8_t *rule, size_t rule_len);

/* Calls in each other, so many, with next to nothing to do in each: what nesting costs by itself. */
unsigned plain_nested_calls(const uint8_t *bytes, size_t depth);

#endif
