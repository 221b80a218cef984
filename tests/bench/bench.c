/* The proved calls beside their plain form, in one run: for each case the quickest of several rounds of each, and the
 * ratio. Before a ratio is printed both have given the same answers and the same lent bytes. Times are printed and
 * never judged; the last line counts the comparisons of answers. */
#define _POSIX_C_SOURCE 199309L
#include "plain.h"
#include <stdio.h>
#include <string.h>
#include <time.h>

enum { ROUNDS = 40, ELEMENTS = 4096, REPORT_BYTES = 10 * ELEMENTS, CALLS = 200 };

static int passed, failed;

static double microseconds(void)
{
    struct timespec t;
    clock_gettime(CLOCK_MONOTONIC, &t);
    return (double)t.tv_sec * 1e6 + (double)t.tv_nsec / 1e3;
}

static unsigned next_random(unsigned *seed)
{
    *seed = *seed * 1103515245u + 12345u;
    return *seed >> 16;
}

struct report {
    const char *name;
    uint8_t bytes[REPORT_BYTES];
    size_t size;
};

static void put(struct report *r, unsigned number)
{
    r->bytes[r->size++] = (uint8_t)number;
    r->bytes[r->size++] = (uint8_t)(number >> 8);
}

static void open_tag(struct report *r, unsigned label)
{
    put(r, 4);
    put(r, 1);
    put(r, label);
}

static void close_tag(struct report *r)
{
    put(r, 2);
    put(r, 2);
}

/* A root and its leaves. */
static void flat(struct report *r)
{
    r->name = "flat";
    open_tag(r, 1);
    for (unsigned i = 1; i < ELEMENTS; i++) {
        open_tag(r, 1 + i % 40);
        close_tag(r);
    }
    close_tag(r);
}

/* A root and 65 chains of 63 elements. */
static void deep(struct report *r)
{
    r->name = "deep";
    open_tag(r, 1);
    for (unsigned i = 0; i < 65; i++) {
        for (unsigned k = 0; k < 63; k++)
            open_tag(r, 1 + k % 40);
        for (unsigned k = 0; k < 63; k++)
            close_tag(r);
    }
    close_tag(r);
}

/* Openings and closings by chance. */
static void bushy(struct report *r)
{
    unsigned seed = 12345, depth = 1;
    r->name = "bushy";
    open_tag(r, 1);
    for (unsigned count = 1; count < ELEMENTS;) {
        if (depth < 64 && (depth == 1 || next_random(&seed) % 2)) {
            open_tag(r, 1 + next_random(&seed) % 40);
            depth++;
            count++;
        } else {
            close_tag(r);
            depth--;
        }
    }
    while (depth--)
        close_tag(r);
}

struct rule {
    uint8_t bytes[512];
    size_t size;
};

static void put_rule(struct rule *r, unsigned number)
{
    r->bytes[r->size++] = (uint8_t)number;
    r->bytes[r->size++] = (uint8_t)(number >> 8);
}

static int has_two(unsigned kind)
{
    return kind == 4 || kind == 5 || (kind >= 10 && kind <= 13);
}

/* A label, true, and entries of the kinds given, with arguments by chance. */
static struct rule rule_of(unsigned entries, const unsigned *kinds, unsigned many)
{
    struct rule r = {{0}, 0};
    unsigned seed = 99;
    for (unsigned i = 0; i < entries; i++) {
        unsigned kind = i == 0 ? 2 : i == 1 ? 1 : kinds[next_random(&seed) % many];
        put_rule(&r, kind == 1 ? 2 : has_two(kind) ? 6 : 4);
        put_rule(&r, kind);
        if (kind == 2)
            put_rule(&r, 20);
        else if (kind != 1)
            put_rule(&r, next_random(&seed) % i);
        if (has_two(kind))
            put_rule(&r, next_random(&seed) % i);
    }
    return r;
}

static void check(int same, const char *call, unsigned entries, const char *report, double ours, double plain)
{
    if (same) {
        passed++;
        printf("%s: %2u entries, %-5s  proved %9.2f us, plain %9.2f us, ratio %.2f\n", call, entries, report, ours, plain,
               ours / plain);
    } else {
        failed++;
        printf("FAILED: %s: %u entries, %s: the answers differ\n", call, entries, report);
    }
}

static void evaluation(unsigned entries, const struct rule *rule, const struct report *report)
{
    static uint64_t ours[ELEMENTS], plain[ELEMENTS];
    struct pz_evaluation_reply a = {0, 0, 0, 0}, b = a;
    double best = 1e9, plain_best = 1e9;
    for (int round = 0; round < ROUNDS; round++) {
        double t = microseconds(), u, v;
        a = pz_evaluate(rule->bytes, rule->size, report->bytes, report->size, ours, ELEMENTS);
        u = microseconds();
        b = plain_evaluate(rule->bytes, rule->size, report->bytes, report->size, plain, ELEMENTS);
        v = microseconds();
        if (u - t < best) best = u - t;
        if (v - u < plain_best) plain_best = v - u;
    }
    check(memcmp(&a, &b, sizeof a) == 0 && a.number == 0 && memcmp(ours, plain, sizeof ours) == 0, "evaluate", entries,
          report->name, best, plain_best);
}

struct calls {
    struct pz_step_reply (*open)(const uint8_t *, size_t, uint8_t *, size_t, uint32_t);
    struct pz_step_reply (*close)(const uint8_t *, size_t, uint8_t *, size_t);
};

/* Feeds a report's tags; how many verdicts were true, or a number above every count where a call was refused. */
static uint32_t feed(struct calls calls, const struct rule *rule, const struct report *report, uint8_t *state)
{
    uint32_t selected = 0;
    pz_start(state, PZ_STATE_BYTES);
    for (size_t at = 0; at < report->size; at += report->bytes[at] + 2u) {
        struct pz_step_reply r;
        if (report->bytes[at + 2] == 1)
            r = calls.open(rule->bytes, rule->size, state, PZ_STATE_BYTES,
                           report->bytes[at + 4] | (uint32_t)report->bytes[at + 5] << 8);
        else
            r = calls.close(rule->bytes, rule->size, state, PZ_STATE_BYTES);
        if (r.number) return ELEMENTS + 1;
        selected += r.verdict;
    }
    return selected;
}

static void one_pass(unsigned entries, const struct rule *rule, const struct report *report)
{
    static uint8_t ours[PZ_STATE_BYTES], plain[PZ_STATE_BYTES];
    struct calls proved_calls = {pz_open, pz_close}, plain_calls = {plain_open, plain_close};
    uint32_t a = 0, b = 0;
    double best = 1e9, plain_best = 1e9;
    for (int round = 0; round < ROUNDS; round++) {
        double t = microseconds(), u, v;
        a = feed(proved_calls, rule, report, ours);
        u = microseconds();
        b = feed(plain_calls, rule, report, plain);
        v = microseconds();
        if (u - t < best) best = u - t;
        if (v - u < plain_best) plain_best = v - u;
    }
    check(a == b && a <= ELEMENTS && memcmp(ours, plain, sizeof ours) == 0, "one pass", entries, report->name, best,
          plain_best);
}

struct text {
    char bytes[PZ_TEXT_BYTES + 1];
    size_t size;
};

static void add(struct text *t, size_t times, const char *bytes)
{
    for (size_t i = 0; i < times; i++)
        for (const char *b = bytes; *b; b++)
            t->bytes[t->size++] = *b;
}

/* One path of so many bytes, 7 n + 37. */
static struct text flat_path(size_t bytes)
{
    struct text t = {{0}, 0};
    add(&t, 1, "<");
    add(&t, (bytes - 37) / 7, "parent/");
    add(&t, 5, "right/");
    add(&t, 1, "right>");
    return t;
}

static size_t nested_depth(size_t bytes)
{
    return bytes / 64 * 20;
}

/* Paths in tests in paths, in so many bytes, 64 n: 20 n of them, and `not` in front of `not` in what is left. */
static struct text nested_paths(size_t bytes)
{
    struct text t = {{0}, 0};
    size_t depth = nested_depth(bytes);
    add(&t, depth, "<?");
    add(&t, bytes / 64 - 1, "not ");
    add(&t, 1, "true");
    add(&t, depth, ">");
    return t;
}

static size_t choices_depth(size_t bytes)
{
    return bytes / 14 - 1;
}

/* Nested choices, in so many bytes, 14 n + 14: with 31 of them 64 entries, and no text that is taken is longer. */
static struct text choices(size_t bytes)
{
    struct text t = {{0}, 0};
    size_t depth = choices_depth(bytes);
    add(&t, depth, "(");
    add(&t, 1, "not label 999 or label 999)");
    add(&t, depth - 1, "or label 999)");
    return t;
}

/* Steps up, in so many bytes, 7 n + 1. */
static struct text steps_up(size_t bytes)
{
    struct text t = {{0}, 0};
    add(&t, 1, "<");
    add(&t, bytes / 7 - 1, "parent/");
    add(&t, 1, "parent>");
    return t;
}

/* Both forms on one text: the same answer, and the same lent bytes. */
static int same_path(const struct text *t, size_t size, size_t room)
{
    static uint8_t ours[PZ_RULE_BYTES], plain[PZ_RULE_BYTES];
    struct pz_written_reply a, b;
    memset(ours, 170, sizeof ours);
    memset(plain, 170, sizeof plain);
    a = pz_read_path((const uint8_t *)t->bytes, size, ours, room);
    b = plain_read_path((const uint8_t *)t->bytes, size, plain, room);
    return memcmp(&a, &b, sizeof a) == 0 && memcmp(ours, plain, sizeof ours) == 0;
}

/* The same on every beginning of a text, with every room, and with another byte at each place. */
static void damaged_paths(const char *name, const struct text *given)
{
    static const char other[] = " ()<>/?*0159abcdefghilnoprtu\t\r\n\200\377";
    struct text t = *given;
    int same = 1;
    unsigned long compared = 0;
    for (size_t size = 0; size <= t.size; size++, compared++) same &= same_path(&t, size, PZ_RULE_BYTES);
    for (size_t room = 0; room <= PZ_RULE_BYTES; room++, compared++) same &= same_path(&t, t.size, room);
    for (size_t at = 0; at < t.size; at++) {
        for (size_t i = 0; i < sizeof other; i++, compared++) {
            t.bytes[at] = other[i];
            same &= same_path(&t, t.size, PZ_RULE_BYTES);
        }
        t.bytes[at] = given->bytes[at];
    }
    if (same) {
        passed++;
        printf("read path: %4zu bytes, %-7s  the same answers and bytes on %lu texts and buffers\n", t.size, name, compared);
    } else {
        failed++;
        printf("FAILED: read path: %zu bytes, %s: the answers differ\n", t.size, name);
    }
}

typedef struct pz_written_reply (*read_path)(const uint8_t *, size_t, uint8_t *, size_t);

/* Lowers best to the time of one call, where so much room is lent and so many calls are made. */
static void time_path(read_path read, const struct text *t, size_t room, int calls, double *best)
{
    static uint8_t rule[PZ_RULE_BYTES];
    double begun = microseconds(), each;
    for (int i = 0; i < calls; i++) read((const uint8_t *)t->bytes, t->size, rule, room);
    each = (microseconds() - begun) / calls;
    if (each < *best) *best = each;
}

static void path(const char *name, struct text t)
{
    double ours = 1e9, plain = 1e9;
    damaged_paths(name, &t);
    for (int round = 0; round < ROUNDS; round++) {
        time_path(pz_read_path, &t, PZ_RULE_BYTES, CALLS, &ours);
        time_path(plain_read_path, &t, PZ_RULE_BYTES, CALLS, &plain);
    }
    printf("read path: %4zu bytes, %-7s  proved %9.3f us, plain %9.3f us, ratio %.2f\n", t.size, name, ours, plain,
           ours / plain);
}

/* Eight times the length. With no room both texts are checked and neither is written, whatever they would give. */
static void growth(const char *name, struct text t, struct text longer, size_t room)
{
    double ours = 1e9, ours_longer = 1e9, plain = 1e9, plain_longer = 1e9;
    for (int round = 0; round < ROUNDS; round++) {
        time_path(pz_read_path, &t, room, 8 * CALLS, &ours);
        time_path(pz_read_path, &longer, room, CALLS, &ours_longer);
        time_path(plain_read_path, &t, room, 8 * CALLS, &plain);
        time_path(plain_read_path, &longer, room, CALLS, &plain_longer);
    }
    printf("read path: %4zu to %4zu bytes, %-15s  proved %.2f times the time, plain %.2f times\n", t.size, longer.size,
           name, ours_longer / ours, plain_longer / plain);
}

/* Parsers that call each other stand as deep in each other as the text's parts do. A processor foresees where the inmost
 * few calls return to and no more, so deeper calls take longer, whatever is done in them: this is how much. */
static void growth_of_calls(size_t depth, size_t longer)
{
    static const uint8_t bytes[PZ_TEXT_BYTES + 1];
    double few = 1e9, many = 1e9;
    for (int round = 0; round < ROUNDS; round++) {
        double begun = microseconds(), then;
        for (int i = 0; i < 8 * CALLS; i++) plain_nested_calls(bytes, depth);
        then = microseconds();
        for (int i = 0; i < CALLS; i++) plain_nested_calls(bytes, longer);
        if ((then - begun) / 8 < few) few = (then - begun) / 8;
        if (microseconds() - then < many) many = microseconds() - then;
    }
    printf("calls that do nothing else: %4zu to %4zu in each other  %.2f times the time\n", depth, longer, many / few);
}

static void paths(void)
{
    struct text typical = {{0}, 0};
    add(&typical, 1, "<?label 200/right*/?label 300>");
    path("typical", typical);
    path("taken", choices(448));
    path("flat", flat_path(1024));
    path("nested", nested_paths(1024));
    growth("flat, checked", flat_path(128), flat_path(1024), 0);
    growth("nested, checked", nested_paths(128), nested_paths(1024), 0);
    growth_of_calls(nested_depth(128), nested_depth(1024));
    growth("flat, taken", steps_up(50), steps_up(400), PZ_RULE_BYTES);
    growth("nested, taken", choices(56), choices(448), PZ_RULE_BYTES);
    growth_of_calls(choices_depth(56), choices_depth(448));
}

int main(void)
{
    static struct report reports[3];
    static const unsigned sizes[] = {1, 5, 16, 64}, all[] = {3, 4, 5, 6, 7, 8, 9, 10, 11, 12, 13, 14},
                          back[] = {3, 4, 5, 7, 9, 11, 13};
    flat(&reports[0]);
    deep(&reports[1]);
    bushy(&reports[2]);
    for (int i = 0; i < 4; i++) {
        struct rule any = rule_of(sizes[i], all, 12), looks_back = rule_of(sizes[i], back, 7);
        for (int k = 0; k < 3; k++) {
            evaluation(sizes[i], &any, &reports[k]);
            one_pass(sizes[i], &looks_back, &reports[k]);
        }
    }
    paths();
    printf("%d passed, %d failed\n", passed, failed);
    return failed != 0;
}
