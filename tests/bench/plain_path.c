/* The plain form of pz_read_path: a descent over the text that checks and counts, then one that writes. */
#include "plain.h"

enum { TRUE = 1, LABEL, NOT, OR, AND, CHILD, PARENT, NEXT, PREVIOUS, DOWN };

/* From the kind of one step along an axis to the kind of many: 6 to 10, 7 to 11, 8 to 12, 9 to 13. */
enum { MANY = DOWN - CHILD };

/* A text, and what its check found. A path is written from its last step to its first: before[p] is, for a step that
 * begins at p, where the step before it in its path begins (0 for the first), and for a path whose `<` is at p, where
 * its last step begins. */
struct check {
    const uint8_t *text;
    size_t len, at;
    unsigned entries, bytes;
    uint16_t before[PZ_TEXT_BYTES];
};

/* The byte at the cursor. At the end it is 0, which stands in no text. */
static unsigned here(const struct check *c)
{
    return c->at < c->len ? c->text[c->at] : 0;
}

/* Takes these bytes, or as many as are there. */
static int take(struct check *c, const char *bytes)
{
    for (; *bytes; bytes++, c->at++)
        if (here(c) != (unsigned char)*bytes) return 0;
    return 1;
}

static void count(struct check *c, unsigned bytes)
{
    c->entries++;
    c->bytes += bytes;
}

static int is_digit(unsigned byte)
{
    return byte >= '0' && byte <= '9';
}

static int check_number(struct check *c)
{
    if (!is_digit(here(c)) || here(c) == '0') return 0;
    c->at++;
    if (is_digit(here(c))) c->at++;
    if (is_digit(here(c))) c->at++;
    return 1;
}

static int check_test(struct check *c);

/* A test behind a word: a space if it begins with a word, no space if it begins with a sign. */
static int check_test_behind(struct check *c)
{
    int spaced = here(c) == ' ', sign;
    c->at += (size_t)spaced;
    sign = here(c) == '(' || here(c) == '<';
    return spaced != sign && check_test(c);
}

static unsigned axis_of(unsigned byte)
{
    switch (byte) {
    case 'c': return CHILD;
    case 'p': return PARENT;
    case 'r': return NEXT;
    case 'l': return PREVIOUS;
    default: return 0;
    }
}

/* The kind of the axis whose word is taken; 0 where there is none. */
static unsigned check_axis(struct check *c)
{
    switch (here(c)) {
    case 'c': return take(c, "child") ? CHILD : 0;
    case 'p': return take(c, "parent") ? PARENT : 0;
    case 'r': return take(c, "right") ? NEXT : 0;
    case 'l': return take(c, "left") ? PREVIOUS : 0;
    default: return 0;
    }
}

static int check_step(struct check *c)
{
    unsigned axis;
    if (here(c) == '?') {
        c->at++;
        count(c, 8);
        return check_test(c);
    }
    if (here(c) == '(') {
        c->at++;
        axis = check_axis(c);
        if (axis == CHILD) {
            count(c, 8);
            count(c, 8);
        }
        count(c, 6);
        count(c, 8);
        return axis && take(c, "?") && check_test(c) && take(c, ")*");
    }
    if (!check_axis(c)) return 0;
    if (here(c) == '*') {
        c->at++;
        count(c, 4);
        count(c, 8);
    } else {
        count(c, 6);
    }
    return 1;
}

static int check_path(struct check *c)
{
    size_t path = c->at, step, last = 0;
    do {
        step = ++c->at;
        if (!check_step(c)) return 0;
        c->before[step] = (uint16_t)last;
        last = step;
    } while (here(c) == '/');
    c->before[path] = (uint16_t)last;
    return take(c, ">");
}

static int check_test(struct check *c)
{
    switch (here(c)) {
    case 't':
        count(c, 4);
        return take(c, "true");
    case 'l':
        count(c, 6);
        return take(c, "label ") && check_number(c);
    case 'n':
        count(c, 6);
        return take(c, "not") && check_test_behind(c);
    case '(':
        count(c, 8);
        c->at++;
        if (!check_test(c)) return 0;
        if (c->text[c->at - 1] != ')' && c->text[c->at - 1] != '>' && !take(c, " ")) return 0;
        return take(c, "or") && check_test_behind(c) && take(c, ")");
    case '<':
        count(c, 4);
        return check_path(c);
    default:
        return 0;
    }
}

/* A rule being written from a text that was checked. */
struct writing {
    const uint8_t *text;
    size_t len;
    const uint16_t *before;
    uint8_t *to;
    unsigned entries;
};

static void put_number(struct writing *w, unsigned number)
{
    *w->to++ = (uint8_t)number;
    *w->to++ = (uint8_t)(number >> 8);
}

static void put_true(struct writing *w)
{
    put_number(w, 2);
    put_number(w, TRUE);
    w->entries++;
}

static void put_one(struct writing *w, unsigned kind, unsigned a)
{
    put_number(w, 4);
    put_number(w, kind);
    put_number(w, a);
    w->entries++;
}

static void put_two(struct writing *w, unsigned kind, unsigned a, unsigned b)
{
    put_number(w, 6);
    put_number(w, kind);
    put_number(w, a);
    put_number(w, b);
    w->entries++;
}

/* Writing something that begins at a place gives the place behind it. */
static size_t write_test(struct writing *w, size_t at);

static size_t write_step(struct writing *w, size_t at)
{
    static const uint8_t length[] = {[CHILD] = 5, [PARENT] = 6, [NEXT] = 5, [PREVIOUS] = 4};
    unsigned argument = w->entries - 1, axis, test;
    if (w->text[at] == '?') {
        at = write_test(w, at + 1);
        put_two(w, AND, argument, w->entries - 1);
        return at;
    }
    if (w->text[at] == '(') {
        axis = axis_of(w->text[at + 1]);
        at = write_test(w, at + 1 + length[axis] + 1);
        test = w->entries - 1;
        if (axis == CHILD) {
            put_two(w, AND, argument, test);
            put_two(w, DOWN, test, test + 1);
            put_one(w, CHILD, test + 2);
            put_two(w, OR, argument, test + 3);
        } else {
            put_one(w, axis, test);
            put_two(w, axis + MANY, test + 1, argument);
        }
        return at + 2;
    }
    axis = axis_of(w->text[at]);
    at += length[axis];
    if (w->text[at] != '*') {
        put_one(w, axis, argument);
        return at;
    }
    put_true(w);
    put_two(w, axis + MANY, argument + 1, argument);
    return at + 1;
}

static size_t write_path(struct writing *w, size_t at)
{
    size_t step = w->before[at], end;
    put_true(w);
    end = write_step(w, step);
    while ((step = w->before[step]) != 0) write_step(w, step);
    return end + 1;
}

static size_t write_test(struct writing *w, size_t at)
{
    unsigned label = 0, left;
    switch (w->text[at]) {
    case 't':
        put_true(w);
        return at + 4;
    case 'l':
        for (at += 6; at < w->len && is_digit(w->text[at]); at++) label = 10 * label + (w->text[at] - '0');
        put_one(w, LABEL, label);
        return at;
    case 'n':
        at += 3;
        at = write_test(w, at + (w->text[at] == ' '));
        put_one(w, NOT, w->entries - 1);
        return at;
    case '(':
        at = write_test(w, at + 1);
        left = w->entries - 1;
        at += 2u + (w->text[at] == ' ');
        at = write_test(w, at + (w->text[at] == ' '));
        put_two(w, OR, left, w->entries - 1);
        return at + 1;
    default:
        return write_path(w, at);
    }
}

static struct pz_written_reply answer(uint32_t number, size_t place, size_t written)
{
    struct pz_written_reply r = {number, (uint32_t)place, (uint32_t)written};
    return r;
}

struct pz_written_reply plain_read_path(const uint8_t *text, size_t text_len, uint8_t *rule, size_t rule_len)
{
    struct check c;
    struct writing w;
    if (text_len < 1 || text_len > PZ_TEXT_BYTES) return answer(13, 0, 0);
    c.text = text;
    c.len = text_len;
    c.at = 0;
    c.entries = 0;
    c.bytes = 0;
    if (!check_test(&c) || c.at < text_len) return answer(13, c.at, 0);
    if (c.entries > 64) return answer(14, 0, 0);
    if (rule_len < c.bytes) return answer(9, 0, 0);
    w.text = text;
    w.len = text_len;
    w.before = c.before;
    w.to = rule;
    w.entries = 0;
    write_test(&w, 0);
    return answer(0, 0, c.bytes);
}

/* What is left to do behind the call keeps it a call. */
static volatile uint8_t last_seen;

__attribute__((noinline, noclone)) unsigned plain_nested_calls(const uint8_t *bytes, size_t depth)
{
    unsigned inner = depth ? plain_nested_calls(bytes + 1, depth - 1) : 0;
    last_seen = *bytes;
    return (inner ^ *bytes) * 5u;
}
