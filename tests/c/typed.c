/* Rules typed as paths, from C: the stated texts with their bytes and what these select on report R, the limits, every
 * refusal with its place, the order of refusals, NULL with length 0, and how much stack the deepest texts take.
 *
 * Text and buffer are lent three times: ending at a page that must not be touched, beginning behind one, and in heap
 * memory of exactly their lengths. The last line is 'N passed, M failed'. */
#define _DEFAULT_SOURCE
#include "polonezar.h"
#include "check.h"
#include <stdio.h>
#include <stdlib.h>
#include <string.h>
#include <sys/mman.h>
#include <ucontext.h>
#include <unistd.h>

enum { TAKEN = 0, NO_ROOM = 9, NO_TEXT = 13, TOO_MANY = 14 };
enum { TEXT_MOST = 1024, ROOM = 1 << 16 };

/* ---- texts and rules in hand */

struct bytes {
    uint8_t at[ROOM];
    size_t size;
};

static struct bytes text, rule;

static void add(const char *more)
{
    size_t n = strlen(more);
    memcpy(text.at + text.size, more, n);
    text.size += n;
}

static void begin(const char *first)
{
    text.size = 0;
    add(first);
}

static void times(int n, const char *more)
{
    while (n-- > 0)
        add(more);
}

static void put(unsigned number)
{
    rule.at[rule.size++] = (uint8_t)(number & 255u);
    rule.at[rule.size++] = (uint8_t)(number >> 8);
}

static int arguments(unsigned kind)
{
    return kind == 1 ? 0 : kind == 2 || kind == 3 || (6 <= kind && kind <= 9) ? 1 : 2;
}

struct entry {
    unsigned kind, a, b;
};

static void put_entry(struct entry e)
{
    int n = arguments(e.kind);
    put(2 + 2 * (unsigned)n);
    put(e.kind);
    if (n > 0)
        put(e.a);
    if (n > 1)
        put(e.b);
}

/* ---- the call */

static uint8_t *guarded[2]; /* ROOM bytes each, with a page on either side that must not be touched */

static void make_rooms(void)
{
    size_t page = (size_t)sysconf(_SC_PAGESIZE);
    for (int i = 0; i < 2; i++) {
        uint8_t *all = mmap(NULL, ROOM + 2 * page, PROT_NONE, MAP_PRIVATE | MAP_ANONYMOUS, -1, 0);
        if (all == MAP_FAILED || mprotect(all + page, ROOM, PROT_READ | PROT_WRITE) != 0) {
            perror("room");
            exit(2);
        }
        guarded[i] = all + page;
    }
}

static uint8_t *heap(size_t n)
{
    uint8_t *p = malloc(n);
    if (p == NULL && n != 0) {
        perror("heap");
        exit(2);
    }
    return p;
}

/* What a lent buffer holds before the call. */
static uint8_t filled(size_t i)
{
    return (uint8_t)(0xA5 ^ i);
}

static int is(struct pz_written_reply r, uint32_t number, uint32_t place, size_t written)
{
    return r.number == number && r.place == place && r.written == written;
}

/* The buffer holds the first n bytes of the rule in hand, and is as it was behind them. */
static int holds(const uint8_t *buffer, size_t room, size_t n)
{
    for (size_t i = 0; i < room; i++)
        if (buffer[i] != (i < n ? rule.at[i] : filled(i)))
            return 0;
    return 1;
}

/* Reads the text in hand into a buffer of so many bytes, at two places; n is how many bytes of rule are due. */
static void call_at(uint8_t *t, uint8_t *buffer, size_t room, uint32_t number, uint32_t place, size_t n)
{
    char what[160];
    if (text.size != 0)
        memcpy(t, text.at, text.size);
    for (size_t i = 0; i < room; i++)
        buffer[i] = filled(i);
    struct pz_written_reply r = pz_read_path(t, text.size, buffer, room);
    snprintf(what, sizeof what, "'%.*s', %zu bytes, room %zu: %u at %u, %u written; expected %u at %u, %zu",
             text.size < 50 ? (int)text.size : 50, (const char *)text.at, text.size, room, (unsigned)r.number,
             (unsigned)r.place, (unsigned)r.written, (unsigned)number, (unsigned)place, n);
    check(is(r, number, place, n), what);
    check(text.size == 0 || memcmp(t, text.at, text.size) == 0, "the text stays as it was");
    check(holds(buffer, room, n), "the rule is written, and no other byte");
}

static void call(size_t room, uint32_t number, uint32_t place, size_t n)
{
    uint8_t *t = heap(text.size), *buffer = heap(room);
    call_at(t, buffer, room, number, place, n);
    free(t);
    free(buffer);
    call_at(guarded[0] + ROOM - text.size, guarded[1] + ROOM - room, room, number, place, n);
    call_at(guarded[0], guarded[1], room, number, place, n);
}

/* The text in hand is taken and gives the rule in hand: with every room that matters. */
static void taken(void)
{
    size_t n = rule.size;
    call(n, TAKEN, 0, n);
    call(n + 1, TAKEN, 0, n);
    call(PZ_RULE_BYTES, TAKEN, 0, n);
    call(n - 1, NO_ROOM, 0, 0);
    call(1, NO_ROOM, 0, 0);
    call(0, NO_ROOM, 0, 0);
}

/* The text in hand is refused, whatever the room. */
static void refused(uint32_t number, uint32_t place)
{
    call(PZ_RULE_BYTES, number, place, 0);
    call(1, number, place, 0);
    call(0, number, place, 0);
}

/* ---- the stated table */

#define T {1, 0, 0}
#define L(n) {2, n, 0}

/* Each entry list ends at kind 0; bit s of `selected` is for element s of report R. */
static const struct row {
    const char *text;
    struct entry entries[9];
    unsigned selected;
} rows[] = {
    {"<?label 20/right*/?label 30>", {T, L(30), {5, 0, 1}, T, {12, 3, 2}, L(20), {5, 4, 5}, {0, 0, 0}}, 1u << 2},
    {"<?label 20/parent/left/?label 10>",
     {T, L(10), {5, 0, 1}, {9, 2, 0}, {7, 3, 0}, L(20), {5, 4, 5}, {0, 0, 0}}, 1u << 5},
    {"<(parent?label 10)*/?label 1>", {T, L(1), {5, 0, 1}, L(10), {7, 3, 0}, {11, 4, 2}, {0, 0, 0}}, 1u},
    {"<(child?label 20)*/?label 30>",
     {T, L(30), {5, 0, 1}, L(20), {5, 2, 3}, {10, 3, 4}, {6, 5, 0}, {4, 2, 6}, {0, 0, 0}}, 1u << 3},
    {"<(child?label 10)*/?label 20>",
     {T, L(20), {5, 0, 1}, L(10), {5, 2, 3}, {10, 3, 4}, {6, 5, 0}, {4, 2, 6}, {0, 0, 0}}, 1u << 2 | 1u << 5},
    {"<(right?label 30)*/?label 30>",
     {T, L(30), {5, 0, 1}, L(30), {8, 3, 0}, {12, 4, 2}, {0, 0, 0}}, 1u << 2 | 1u << 3},
    {"<(left?label 20)*/?label 20>",
     {T, L(20), {5, 0, 1}, L(20), {9, 3, 0}, {13, 4, 2}, {0, 0, 0}}, 1u << 2 | 1u << 3 | 1u << 5},
    {"<child/left>", {T, {9, 0, 0}, {6, 1, 0}, {0, 0, 0}}, 1u | 1u << 1},
    {"<child*/?label 30>", {T, L(30), {5, 0, 1}, T, {10, 3, 2}, {0, 0, 0}}, 1u | 1u << 1 | 1u << 3},
    {"(label 10 or label 30)", {L(10), L(30), {4, 0, 1}, {0, 0, 0}}, 1u << 1 | 1u << 3 | 1u << 4},
    {"not<left>", {T, {9, 0, 0}, {3, 1, 0}, {0, 0, 0}}, 1u | 1u << 1 | 1u << 2 | 1u << 5},
};

/* The bytes that the library wrote for the text in hand, as the other functions see them. */
static void selects(uint32_t entries, unsigned selected)
{
    uint8_t own[PZ_RULE_BYTES];
    uint64_t marks[6];
    struct pz_written_reply r = pz_read_path(text.at, text.size, own, sizeof own);
    struct pz_rule_reply read = pz_read_rule(own, r.written);
    check(read.number == 0 && read.entries == entries, "the rule reader takes what was written");
    check(pz_evaluate(own, r.written, report_r, sizeof report_r, marks, 6).number == 0, "the evaluator takes it");
    for (unsigned s = 0; s < 6; s++)
        check((marks[s] >> (entries - 1) & 1) == (selected >> s & 1u), "what the text selects on report R");
}

static void table(void)
{
    for (size_t i = 0; i < sizeof rows / sizeof rows[0]; i++) {
        uint32_t entries = 0;
        begin(rows[i].text);
        rule.size = 0;
        while (rows[i].entries[entries].kind != 0)
            put_entry(rows[i].entries[entries++]);
        taken();
        selects(entries, rows[i].selected);
    }
}

/* ---- limits */

static void put_not(unsigned a) { put_entry((struct entry){3, a, 0}); }
static void put_true(void) { put_entry((struct entry){1, 0, 0}); }
static void put_label(unsigned n) { put_entry((struct entry){2, n, 0}); }

static void nots(int n)
{
    begin("");
    times(n, "not ");
    add("true");
}

static void nested(int n)
{
    begin("");
    times(n, "<?");
    add("true");
    times(n, ">");
}

static void parents(int n)
{
    begin("<parent");
    times(n - 1, "/parent");
    add(">");
}

/* n ors, each in the left of the one around it, around a test. */
static void ors(int n, const char *innermost)
{
    begin("");
    times(n, "(");
    add(innermost);
    add(" or label 999)");
    times(n - 1, "or label 999)");
}

/* Conditional steps down, with a test at the end, in a "not". */
static void conditionals(int n)
{
    begin("not<");
    times(n, "(child?label 1)*/");
    add("?label 1>");
}

static void sixty_four_entries(void)
{
    rule.size = 0;
    put_true();
    for (unsigned i = 0; i < 63; i++)
        put_not(i);
    nots(63);
    check(rule.size == 382, "64 entries in 382 bytes");
    taken();
    nots(64);
    refused(TOO_MANY, 0);

    /* 31 closings come first, the outermost path's at the front */
    rule.size = 0;
    for (int i = 0; i < 32; i++)
        put_true();
    for (unsigned i = 0; i < 31; i++)
        put_entry((struct entry){5, 30 - i, 31 + i});
    nested(31);
    taken();
    nested(32);
    refused(TOO_MANY, 0);

    rule.size = 0;
    put_true();
    for (unsigned i = 0; i < 63; i++)
        put_entry((struct entry){7, i, 0});
    parents(63);
    taken();
    parents(64);
    refused(TOO_MANY, 0);
}

static void longest_text(void)
{
    rule.size = 0;
    put_label(999);
    put_not(0);
    for (unsigned i = 0; i < 31; i++) {
        put_label(999);
        put_entry((struct entry){4, 1 + 2 * i, 2 + 2 * i});
    }
    ors(31, "not label 999");
    check(text.size == 448, "the longest text that can be taken has 448 bytes");
    taken();
    ors(31, "not not label 999");
    refused(TOO_MANY, 0);
}

static void largest_rule(void)
{
    unsigned argument = 2;
    rule.size = 0;
    put_true();
    put_label(1);
    put_entry((struct entry){5, 0, 1});
    for (unsigned i = 0; i < 12; i++) {
        unsigned test = argument + 1;
        put_label(1);
        put_entry((struct entry){5, argument, test});
        put_entry((struct entry){10, test, test + 1});
        put_entry((struct entry){6, test + 2, 0});
        put_entry((struct entry){4, argument, test + 3});
        argument = test + 4;
    }
    put_not(argument);
    check(rule.size == 456, "the largest rule that can be written has 456 bytes");
    conditionals(12);
    taken();
    conditionals(13);
    refused(TOO_MANY, 0);
}

/* ---- refusals */

static const struct {
    const char *text;
    uint32_t place;
} faults[] = {
    {"truex", 4}, {"true ", 4}, {"(true ", 6}, {"label 0", 6}, {"label 1000", 9}, {"notlabel", 3}, {"not  true", 4},
    {"not (true or true)", 4}, {"<child", 6}, {"<chil>", 5}, {"<la", 2}, {"<child/>", 7}, {"<?true*>", 6},
    {"<(child?true)>", 13}, {"<(true or true)>", 2}, {"(child?true)*", 1}, {"label 01", 6}, {"label  1", 6},
    {"(true or<left> )", 14}, {"(<left> or true)", 7}, {"(trueor true)", 5}, {"(true ortrue)", 8}, {"<left/ right>", 6},
    {" true", 0}, {"true\n", 4}, {"not\ttrue", 3}, {"true\r", 4}, {"TRUE", 0}, {"tru\xC3\xA9", 3}, {">", 0},
};

static void places(void)
{
    for (size_t i = 0; i < sizeof faults / sizeof faults[0]; i++) {
        begin(faults[i].text);
        refused(NO_TEXT, faults[i].place);
    }
    begin("true");
    text.size++; /* with the zero that ends a string of C */
    refused(NO_TEXT, 4);
}

static void sizes(void)
{
    begin("");
    refused(NO_TEXT, 0);
    times(TEXT_MOST, "(");
    refused(NO_TEXT, TEXT_MOST);
    add("(");
    refused(NO_TEXT, 0);
    memset(text.at, '(', ROOM);
    text.size = ROOM;
    refused(NO_TEXT, 0);
    nots(255);
    check(text.size == TEXT_MOST, "255 times not and true are 1,024 bytes");
    refused(TOO_MANY, 0);
    nots(256);
    refused(NO_TEXT, 0);
}

/* The grammar is looked at to the end before the entries are counted, and the room comes last. */
static void order(void)
{
    nots(64);
    text.size--;
    refused(NO_TEXT, 259);
    nots(254);
    add("e");
    refused(NO_TEXT, 4 * 254 + 4);
    parents(64);
    text.size--;
    refused(NO_TEXT, 448);
}

static void nulls(void)
{
    uint8_t buffer[4] = {filled(0), filled(1), filled(2), filled(3)};
    begin("true");
    check(is(pz_read_path(NULL, 0, NULL, 0), NO_TEXT, 0, 0), "no text, no buffer");
    check(is(pz_read_path(NULL, 0, buffer, sizeof buffer), NO_TEXT, 0, 0), "no text");
    check(holds(buffer, sizeof buffer, 0), "no text writes nothing");
    check(is(pz_read_path(text.at, text.size, NULL, 0), NO_ROOM, 0, 0), "no buffer");
    check(is(pz_read_path(text.at, 3, NULL, 0), NO_TEXT, 3, 0), "a cut text, no buffer");
    nots(64);
    check(is(pz_read_path(text.at, text.size, NULL, 0), TOO_MANY, 0, 0), "too many entries, no buffer");
}

/* ---- beside a text */

/* Whether a digit of a label gives way to a digit: the first to any but 0. */
static int other_label(const char *whole, size_t at, int value)
{
    int first = at > 0 && whole[at - 1] == ' ';
    return whole[at] >= '0' && whole[at] <= '9' && value >= (first ? '1' : '0') && value <= '9';
}

/* No beginning of this text is a text; and where a byte of it is another one, what stands before that byte is good. */
static void beside_a_text(void)
{
    static const char whole[] = "(not label 20 or<child/right*/(left?not(true or<parent>))*/?label 999>)";
    uint32_t size = sizeof whole - 1;
    begin(whole);
    for (text.size = 1; text.size < size; text.size++)
        refused(NO_TEXT, (uint32_t)text.size);
    for (uint32_t at = 0; at < size; at++)
        for (int value = 0; value < 256; value++) {
            uint8_t buffer[PZ_RULE_BYTES];
            begin(whole);
            text.at[at] = (uint8_t)value;
            memcpy(guarded[0] + ROOM - size, text.at, size);
            struct pz_written_reply r = pz_read_path(guarded[0] + ROOM - size, size, buffer, sizeof buffer);
            if (value == whole[at] || other_label(whole, at, value))
                check(is(r, TAKEN, 0, r.written) && r.written > 0, "the same text, or another label");
            else
                check(is(r, NO_TEXT, r.place, 0) && at <= r.place && r.place <= size, "a text with another byte");
        }
}

/* ---- stack */

enum { STACK = 1 << 20, STACK_MOST = 256 * 1024, PAINT = 0x5A };

static uint8_t *stack;
static size_t deepest;
static ucontext_t caller, callee;
static struct pz_written_reply reply;
static uint8_t written_rule[PZ_RULE_BYTES];

static void make_stack(void)
{
    stack = mmap(NULL, STACK, PROT_READ | PROT_WRITE, MAP_PRIVATE | MAP_ANONYMOUS, -1, 0);
    if (stack == MAP_FAILED) {
        perror("stack");
        exit(2);
    }
}

static void on_painted_stack(void)
{
    reply = pz_read_path(text.at, text.size, written_rule, sizeof written_rule);
}

static void switch_stacks(void)
{
    if (getcontext(&callee) != 0) {
        perror("context");
        exit(2);
    }
    callee.uc_stack.ss_sp = stack;
    callee.uc_stack.ss_size = STACK;
    callee.uc_link = &caller;
    makecontext(&callee, on_painted_stack, 0);
    if (swapcontext(&caller, &callee) != 0) {
        perror("context");
        exit(2);
    }
}

/* Makes the call on a stack of its own, painted before; the bytes that have lost their paint were used. */
static void measured(const char *what, uint32_t number, uint32_t place)
{
    size_t untouched = 0;
    memset(stack, PAINT, STACK);
    switch_stacks();
    while (untouched < STACK && stack[untouched] == PAINT)
        untouched++;
    size_t used = STACK - untouched;
    printf("stack: %zu bytes for %s\n", used, what);
    check(reply.number == number && reply.place == place, what);
    check(used > 0 && used <= STACK_MOST, "at most 256 KiB of stack");
    deepest = used > deepest ? used : deepest;
}

static void stacks(void)
{
    make_stack();
    begin("true");
    measured("true", TAKEN, 0);
    begin("");
    times(512, "<?");
    measured("512 times <?", NO_TEXT, TEXT_MOST);
    begin("");
    times(TEXT_MOST, "(");
    measured("1,024 times (", NO_TEXT, TEXT_MOST);
    begin("");
    times(256, "not ");
    measured("256 times not", NO_TEXT, TEXT_MOST);
    begin("");
    times(128, "<(left?");
    measured("<(left? to the end", NO_TEXT, 128 * 7);
    nots(255);
    measured("255 times not, and true", TOO_MANY, 0);
    nested(340);
    measured("340 times <?, true, and 340 times >", TOO_MANY, 0);
    ors(72, "true");
    measured("72 ors, each in the left of the next", TOO_MANY, 0);
    begin("");
    times(113, "(true or");
    add(" true");
    times(113, ")");
    measured("113 ors, each in the right of the next", TOO_MANY, 0);
    nots(63);
    measured("63 times not, and true", TAKEN, 0);
    nested(31);
    measured("31 times <?, true, and 31 times >", TAKEN, 0);
    printf("stack: %zu bytes at most\n", deepest);
}

int main(void)
{
    make_rooms();
    check(sizeof(struct pz_written_reply) == 12, "three numbers and nothing between them");
    table();
    sixty_four_entries();
    longest_text();
    largest_rule();
    places();
    sizes();
    order();
    nulls();
    beside_a_text();
    stacks();
    return result();
}
