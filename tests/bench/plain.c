#include "plain.h"
#include <string.h>

enum { TRUE = 1, LABEL, NOT, OR, AND, CHILD, PARENT, NEXT, PREVIOUS, DOWN, UP, RIGHT, LEFT, EVERY_CHILD };

struct entry {
    uint16_t kind, a, b;
};

struct answer {
    uint32_t number, place, count;
};

/* The elements of a report; an element without parent or previous sibling has itself there. */
struct elements {
    uint16_t label[4096], up[4096], left[4096];
};

static unsigned number_at(const uint8_t *s, size_t at)
{
    return s[at] | (unsigned)s[at + 1] << 8;
}

static struct answer refusal(uint32_t number, size_t place)
{
    struct answer r = {number, (uint32_t)place, 0};
    return r;
}

static unsigned body_of(unsigned kind)
{
    switch (kind) {
    case TRUE: return 2;
    case LABEL: case NOT: case CHILD: case PARENT: case NEXT: case PREVIOUS: case EVERY_CHILD: return 4;
    case OR: case AND: case DOWN: case UP: case RIGHT: case LEFT: return 6;
    default: return 0;
    }
}

static struct answer read_rule(const uint8_t *s, size_t n, struct entry *entries)
{
    size_t at = 0;
    unsigned count = 0;
    struct answer r = {0, 0, 0};
    if (n < 1 || n > 512) return refusal(1, 0);
    for (; at < n; count++) {
        unsigned body, kind, a, b;
        if (count == 64) return refusal(4, at);
        if (n - at < 4) return refusal(2, at);
        body = number_at(s, at);
        kind = number_at(s, at + 2);
        if (body_of(kind) == 0 || body != body_of(kind) || n - at - 2 < body) return refusal(2, at);
        a = body >= 4 ? number_at(s, at + 4) : 0;
        b = body == 6 ? number_at(s, at + 6) : 0;
        if (kind == LABEL ? a < 1 || a > 999 : (body >= 4 && a >= count) || (body == 6 && b >= count))
            return refusal(3, at);
        entries[count].kind = (uint16_t)kind;
        entries[count].a = (uint16_t)a;
        entries[count].b = (uint16_t)b;
        at += body + 2;
    }
    r.count = count;
    return r;
}

static struct answer read_report(const uint8_t *s, size_t n, struct elements *to)
{
    size_t at = 0;
    unsigned depth = 0, count = 0;
    uint16_t open[64], last[65];
    uint8_t has[65] = {0};
    struct answer r = {0, 0, 0};
    if (n < 1 || n > 40960) return refusal(5, 0);
    while (at < n) {
        unsigned body, kind;
        if (n - at < 4) return refusal(6, at);
        body = number_at(s, at);
        kind = number_at(s, at + 2);
        if (kind < 1 || kind > 2 || body != (kind == 1 ? 4u : 2u) || n - at - 2 < body) return refusal(6, at);
        if (kind == 1) {
            unsigned label = number_at(s, at + 4);
            if (label < 1 || label > 999) return refusal(6, at);
            if (depth == 0 && count > 0) return refusal(7, at);
            if (depth == 64 || count == 4096) return refusal(8, at);
            to->label[count] = (uint16_t)label;
            to->up[count] = depth ? open[depth - 1] : (uint16_t)count;
            to->left[count] = has[depth] ? last[depth] : (uint16_t)count;
            open[depth] = (uint16_t)count;
            has[++depth] = 0;
            count++;
        } else {
            if (depth == 0) return refusal(7, at);
            depth--;
            last[depth] = open[depth];
            has[depth] = 1;
        }
        at += body + 2;
    }
    if (depth) return refusal(7, n);
    r.count = count;
    return r;
}

static uint64_t bit(uint64_t word, unsigned i)
{
    return word >> i & 1;
}

/* One pass over the elements for one entry. */
static void mark(struct entry e, unsigned i, const struct elements *of, unsigned count, uint64_t *w)
{
    const uint16_t *from =
        e.kind == NEXT || e.kind == PREVIOUS || e.kind == RIGHT || e.kind == LEFT ? of->left : of->up;
    unsigned s;
    switch (e.kind) {
    case TRUE:
        for (s = 0; s < count; s++) w[s] |= (uint64_t)1 << i;
        break;
    case LABEL:
        for (s = 0; s < count; s++) w[s] |= (uint64_t)(of->label[s] == e.a) << i;
        break;
    case NOT:
        for (s = 0; s < count; s++) w[s] |= (bit(w[s], e.a) ^ 1) << i;
        break;
    case OR:
        for (s = 0; s < count; s++) w[s] |= (bit(w[s], e.a) | bit(w[s], e.b)) << i;
        break;
    case AND:
        for (s = 0; s < count; s++) w[s] |= (bit(w[s], e.a) & bit(w[s], e.b)) << i;
        break;
    case PARENT: case PREVIOUS:
        for (s = 0; s < count; s++) w[s] |= (bit(w[from[s]], e.a) & (from[s] < s)) << i;
        break;
    case UP: case LEFT:
        for (s = 0; s < count; s++)
            w[s] |= (bit(w[s], e.b) | (bit(w[s], e.a) & bit(w[from[s]], i) & (from[s] < s))) << i;
        break;
    case CHILD: case NEXT:
        for (s = 0; s < count; s++) w[from[s]] |= (bit(w[s], e.a) & (from[s] < s)) << i;
        break;
    case DOWN: case RIGHT:
        for (s = count; s-- > 0;) {
            uint64_t x = bit(w[s], e.b) | (bit(w[s], e.a) & bit(w[s], i));
            w[s] = (w[s] & ~((uint64_t)1 << i)) | x << i;
            w[from[s]] |= (x & (from[s] < s)) << i;
        }
        break;
    case EVERY_CHILD: {
        /* The element opened next is this one's first child exactly where its parent is this one. */
        unsigned parent_of_next = count;
        for (s = count; s-- > 0;) {
            uint64_t x = (parent_of_next == s) & (bit(w[s], i) ^ 1);
            w[s] = (w[s] & ~((uint64_t)1 << i)) | x << i;
            w[from[s]] |= ((bit(w[s], e.a) ^ 1) & (from[s] < s)) << i;
            parent_of_next = from[s];
        }
        break;
    }
    }
}

struct pz_evaluation_reply plain_evaluate(const uint8_t *rule, size_t rule_len,
                                          const uint8_t *report, size_t report_len,
                                          uint64_t *marks, size_t words)
{
    struct entry entries[64];
    struct elements of;
    struct pz_evaluation_reply r = {0, 0, 0, 0};
    struct answer rule_answer = read_rule(rule, rule_len, entries), report_answer;
    unsigned i, s;
    if (rule_answer.number) {
        r.number = rule_answer.number;
        r.place = rule_answer.place;
        return r;
    }
    report_answer = read_report(report, report_len, &of);
    if (report_answer.number) {
        r.number = report_answer.number;
        r.place = report_answer.place;
        return r;
    }
    if (words < report_answer.count) {
        r.number = 9;
        return r;
    }
    memset(marks, 0, report_answer.count * sizeof *marks);
    for (i = 0; i < rule_answer.count; i++) mark(entries[i], i, &of, report_answer.count, marks);
    for (s = 0; s < report_answer.count; s++) r.selected += (uint32_t)bit(marks[s], rule_answer.count - 1);
    r.elements = report_answer.count;
    return r;
}

static struct pz_step_reply step(uint32_t number, uint32_t place, uint32_t verdict)
{
    struct pz_step_reply r = {number, place, verdict};
    return r;
}

static uint64_t word_at(const uint8_t *state, size_t at)
{
    uint64_t w;
    memcpy(&w, state + at, 8);
    return w;
}

static void put_word(uint8_t *state, size_t at, uint64_t w)
{
    memcpy(state + at, &w, 8);
}

static void put_number(uint8_t *state, size_t at, unsigned n)
{
    state[at] = (uint8_t)n;
    state[at + 1] = (uint8_t)(n >> 8);
}

/* What open and close test alike: the rule, that it looks back only, the state. */
static struct answer begin(const uint8_t *rule, size_t rule_len, const uint8_t *state, size_t state_len,
                           struct entry *entries)
{
    struct answer r = read_rule(rule, rule_len, entries);
    unsigned i, depth, count, closed;
    if (r.number) return r;
    for (i = 0; i < r.count; i++) {
        unsigned kind = entries[i].kind;
        if (kind == CHILD || kind == NEXT || kind == DOWN || kind == RIGHT || kind == EVERY_CHILD) return refusal(10, 0);
    }
    if (state_len != PZ_STATE_BYTES) return refusal(11, 0);
    depth = number_at(state, PZ_STATE_AT_DEPTH);
    count = number_at(state, PZ_STATE_AT_ELEMENTS);
    closed = number_at(state, PZ_STATE_AT_ROOT_CLOSED);
    if (depth > 64 || depth > count || count > 4096 || closed > 1 || (closed && depth) || state[6] || state[7])
        return refusal(11, 0);
    return r;
}

struct pz_step_reply plain_open(const uint8_t *rule, size_t rule_len, uint8_t *state, size_t state_len, uint32_t label)
{
    struct entry entries[64];
    struct answer r = begin(rule, rule_len, state, state_len, entries);
    uint64_t up, left, w = 0, presence;
    unsigned depth, count, i;
    if (r.number) return step(r.number, r.place, 0);
    if (label < 1 || label > 999) return step(6, 0, 0);
    depth = number_at(state, PZ_STATE_AT_DEPTH);
    count = number_at(state, PZ_STATE_AT_ELEMENTS);
    if (state[PZ_STATE_AT_ROOT_CLOSED]) return step(7, 0, 0);
    if (depth == 64 || count == 4096) return step(8, 0, 0);
    presence = word_at(state, PZ_STATE_AT_PRESENCE);
    up = depth ? word_at(state, PZ_STATE_AT_OPEN_WORDS + 8 * (depth - 1)) : 0;
    left = bit(presence, depth) ? word_at(state, PZ_STATE_AT_LAST_WORDS + 8 * depth) : 0;
    for (i = 0; i < r.count; i++) {
        unsigned a = entries[i].a, b = entries[i].b;
        uint64_t x = 0;
        switch (entries[i].kind) {
        case TRUE: x = 1; break;
        case LABEL: x = label == a; break;
        case NOT: x = bit(w, a) ^ 1; break;
        case OR: x = bit(w, a) | bit(w, b); break;
        case AND: x = bit(w, a) & bit(w, b); break;
        case PARENT: x = bit(up, a); break;
        case PREVIOUS: x = bit(left, a); break;
        case UP: x = bit(w, b) | (bit(w, a) & bit(up, i)); break;
        case LEFT: x = bit(w, b) | (bit(w, a) & bit(left, i)); break;
        }
        w |= x << i;
    }
    put_word(state, PZ_STATE_AT_OPEN_WORDS + 8 * depth, w);
    if (depth < 63) put_word(state, PZ_STATE_AT_PRESENCE, presence & ~((uint64_t)1 << (depth + 1)));
    put_number(state, PZ_STATE_AT_DEPTH, depth + 1);
    put_number(state, PZ_STATE_AT_ELEMENTS, count + 1);
    return step(0, 0, (uint32_t)bit(w, r.count - 1));
}

struct pz_step_reply plain_close(const uint8_t *rule, size_t rule_len, uint8_t *state, size_t state_len)
{
    struct entry entries[64];
    struct answer r = begin(rule, rule_len, state, state_len, entries);
    unsigned depth;
    if (r.number) return step(r.number, r.place, 0);
    depth = number_at(state, PZ_STATE_AT_DEPTH);
    if (depth == 0) return step(7, 0, 0);
    depth--;
    put_word(state, PZ_STATE_AT_LAST_WORDS + 8 * depth, word_at(state, PZ_STATE_AT_OPEN_WORDS + 8 * depth));
    put_word(state, PZ_STATE_AT_PRESENCE, word_at(state, PZ_STATE_AT_PRESENCE) | (uint64_t)1 << depth);
    put_number(state, PZ_STATE_AT_DEPTH, depth);
    if (depth == 0) put_number(state, PZ_STATE_AT_ROOT_CLOSED, 1);
    return step(0, 0, 0);
}
