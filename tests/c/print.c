/* print INPUT OUTPUT: the printout from C. The program's kept input gives its kept output, byte for byte; the shortest
 * and the longest text; every room that matters; the order of refusals, each of which leaves the buffer; NULL with
 * length 0; and how much stack the call takes.
 *
 * Rule, report and buffer are lent three times: ending at a page that must not be touched, beginning behind one, and in
 * heap memory of exactly their lengths. The last line is 'N passed, M failed'. */
#define _DEFAULT_SOURCE
#include "polonezar.h"
#include "check.h"
#include <stdarg.h>
#include <stdio.h>
#include <stdlib.h>
#include <string.h>
#include <sys/mman.h>
#include <ucontext.h>
#include <unistd.h>

enum { ROOM = 1 << 17, SHORTEST = 53, LONGEST = 56275 };

/* ---- what is in hand: a rule, a report, and the text that is due where they are taken */

struct bytes {
    uint8_t at[ROOM];
    size_t size;
};

static struct bytes rule, report, due;

static void put(struct bytes *to, unsigned number)
{
    to->at[to->size++] = (uint8_t)(number & 255u);
    to->at[to->size++] = (uint8_t)(number >> 8);
}

static void copy(struct bytes *to, const uint8_t *from, size_t n)
{
    memcpy(to->at, from, n);
    to->size = n;
}

static void say(const char *format, ...)
{
    va_list arguments;
    va_start(arguments, format);
    due.size += (size_t)vsnprintf((char *)due.at + due.size, ROOM - due.size, format, arguments);
    va_end(arguments);
}

/* One entry: true. */
static void rule_true(void)
{
    rule.size = 0;
    put(&rule, 2), put(&rule, 1);
}

static void opens(unsigned label)
{
    put(&report, 4), put(&report, 1), put(&report, label);
}

static void closes(void)
{
    put(&report, 2), put(&report, 2);
}

/* ---- the call */

static uint8_t *guarded[3]; /* ROOM bytes each, with a page on either side that must not be touched */

static void make_rooms(void)
{
    size_t page = (size_t)sysconf(_SC_PAGESIZE);
    for (int i = 0; i < 3; i++) {
        uint8_t *all = mmap(NULL, ROOM + 2 * page, PROT_NONE, MAP_PRIVATE | MAP_ANONYMOUS, -1, 0);
        if (all == MAP_FAILED || mprotect(all + page, ROOM, PROT_READ | PROT_WRITE) != 0) {
            perror("room");
            exit(2);
        }
        guarded[i] = all + page;
    }
}

static uint8_t *heap(size_t n)
{
    uint8_t *p = malloc(n);
    if (p == NULL && n != 0) {
        perror("heap");
        exit(2);
    }
    return p;
}

/* What a lent buffer holds before the call. */
static uint8_t filled(size_t i)
{
    return (uint8_t)(0xA5 ^ i);
}

static int is(struct pz_written_reply r, uint32_t number, uint32_t place, size_t written)
{
    return r.number == number && r.place == place && r.written == written;
}

/* The buffer holds the first n bytes that are due, and is as it was behind them. */
static int holds(const uint8_t *buffer, size_t room, size_t n)
{
    for (size_t i = 0; i < room; i++)
        if (buffer[i] != (i < n ? due.at[i] : filled(i)))
            return 0;
    return 1;
}

static int stays(const uint8_t *lent, const struct bytes *was)
{
    return was->size == 0 || memcmp(lent, was->at, was->size) == 0;
}

static void call_at(uint8_t *r, uint8_t *p, uint8_t *buffer, size_t room, uint32_t number, uint32_t place, size_t n)
{
    char what[160];
    if (rule.size != 0)
        memcpy(r, rule.at, rule.size);
    if (report.size != 0)
        memcpy(p, report.at, report.size);
    for (size_t i = 0; i < room; i++)
        buffer[i] = filled(i);
    struct pz_written_reply w = pz_print(r, rule.size, p, report.size, buffer, room);
    snprintf(what, sizeof what, "rule of %zu bytes, report of %zu, room %zu: %u at %u, %u; expected %u at %u, %zu",
             rule.size, report.size, room, (unsigned)w.number, (unsigned)w.place, (unsigned)w.written, (unsigned)number,
             (unsigned)place, n);
    check(is(w, number, place, n), what);
    check(stays(r, &rule) && stays(p, &report), "rule and report stay as they were");
    check(holds(buffer, room, n), "the text is written, and no other byte");
}

/* Prints what is in hand into a buffer of so many bytes, at three places; n is how many bytes are due. */
static void call(size_t room, uint32_t number, uint32_t place, size_t n)
{
    uint8_t *r = heap(rule.size), *p = heap(report.size), *buffer = heap(room);
    call_at(r, p, buffer, room, number, place, n);
    free(r);
    free(p);
    free(buffer);
    call_at(guarded[0] + ROOM - rule.size, guarded[1] + ROOM - report.size, guarded[2] + ROOM - room, room, number,
            place, n);
    call_at(guarded[0], guarded[1], guarded[2], room, number, place, n);
}

/* What is in hand is taken and gives the text that is due: with every room that matters. */
static void taken(void)
{
    size_t n = due.size;
    call(n, PZ_ACCEPTED, 0, n);
    call(n + 1, PZ_ACCEPTED, 0, n);
    call(PZ_PRINTOUT_BYTES, PZ_ACCEPTED, 0, n);
    call(ROOM, PZ_ACCEPTED, 0, n);
    call(n - 1, PZ_BUFFER_SHORT, 0, 0);
    call(1, PZ_BUFFER_SHORT, 0, 0);
    call(0, PZ_BUFFER_SHORT, 0, 0);
}

/* What is in hand is refused, whatever the room. */
static void refused(uint32_t number, uint32_t place)
{
    call(PZ_PRINTOUT_BYTES, number, place, 0);
    call(1, number, place, 0);
    call(0, number, place, 0);
}

/* ---- samples */

static void get_file(struct bytes *to, const char *name)
{
    FILE *file = fopen(name, "rb");
    if (file == NULL) {
        perror(name);
        exit(2);
    }
    to->size = fread(to->at, 1, ROOM, file);
    fclose(file);
}

/* The program's input is the two bytes of the rule's length, the rule, and the report. */
static void kept(const char *input, const char *output)
{
    static struct bytes all;
    get_file(&all, input);
    get_file(&due, output);
    size_t n = all.at[0] + 256u * all.at[1];
    copy(&rule, all.at + 2, n);
    copy(&report, all.at + 2 + n, all.size - 2 - n);
    taken();
}

static void sample(void)
{
    rule_true();
    copy(&report, report_r, sizeof report_r);
    due.size = 0;
    say("element label level selected\n0 1 0 1\n1 10 1 1\n2 20 2 1\n3 30 2 1\n4 10 1 1\n5 20 2 1\nselected 6 of 6\n");
    taken();
}

static void shortest(void)
{
    rule.size = 0;
    put(&rule, 4), put(&rule, 2), put(&rule, 2);
    report.size = 0;
    opens(1), closes();
    due.size = 0;
    say("element label level selected\n0 1 0 0\nselected 0 of 1\n");
    check(due.size == SHORTEST, "the shortest text has 53 bytes");
    taken();
}

/* Ten elements, each in the one before, and all others as siblings at level 10: three digits for every label, and two
 * for all levels but ten. */
static void longest(void)
{
    rule_true();
    report.size = 0;
    due.size = 0;
    say("element label level selected\n");
    for (unsigned i = 0; i < 10; i++) {
        opens(999);
        say("%u 999 %u 1\n", i, i);
    }
    for (unsigned i = 10; i < PZ_REPORT_ELEMENTS; i++) {
        opens(100), closes();
        say("%u 100 10 1\n", i);
    }
    for (unsigned i = 0; i < 10; i++)
        closes();
    say("selected 4096 of 4096\n");
    check(report.size == PZ_REPORT_BYTES, "4,096 elements in 40,960 bytes");
    check(due.size == LONGEST, "the longest text has 56,275 bytes");
    taken();
}

/* ---- refusals: the rule's, then the report's, then 9 */

static void order(void)
{
    /* each number of the rule, before a report that has faults of its own */
    report.size = 0;
    opens(1), opens(0);
    rule.size = 0;
    refused(PZ_RULE_SIZE, 0);
    memset(rule.at, 1, PZ_RULE_BYTES + 1), rule.size = PZ_RULE_BYTES + 1;
    refused(PZ_RULE_SIZE, 0);
    rule_true(), put(&rule, 2);
    refused(PZ_RULE_RECORD, 4);
    rule_true(), put(&rule, 4), put(&rule, 3), put(&rule, 1);
    refused(PZ_RULE_ARGUMENT, 4);
    rule.size = 0;
    for (int i = 0; i < 65; i++)
        put(&rule, 2), put(&rule, 1);
    refused(PZ_RULE_FULL, 256);

    /* each number of the report, before the room */
    rule_true();
    refused(PZ_REPORT_RECORD, 6);
    report.size = 0;
    refused(PZ_REPORT_SIZE, 0);
    memset(report.at, 0, PZ_REPORT_BYTES + 1), report.size = PZ_REPORT_BYTES + 1;
    refused(PZ_REPORT_SIZE, 0);
    report.size = 0, opens(1);
    refused(PZ_REPORT_ORDER, 6);
    report.size = 0, closes();
    refused(PZ_REPORT_ORDER, 0);
    report.size = 0;
    for (int i = 0; i < 65; i++)
        opens(1);
    refused(PZ_REPORT_FULL, 384);
}

/* A report cut anywhere is refused as its reader refuses it. */
static void cut(void)
{
    rule_true();
    for (size_t n = 0; n < sizeof report_r; n++) {
        struct pz_report_reply r = pz_read_report(report_r, n);
        copy(&report, report_r, n);
        refused(r.number, r.place);
    }
}

static void nulls(void)
{
    uint8_t buffer[4] = {filled(0), filled(1), filled(2), filled(3)};
    rule_true();
    check(is(pz_print(NULL, 0, NULL, 0, NULL, 0), PZ_RULE_SIZE, 0, 0), "nothing at all");
    check(is(pz_print(NULL, 0, report_r, sizeof report_r, NULL, 0), PZ_RULE_SIZE, 0, 0), "no rule, no buffer");
    check(is(pz_print(rule.at, rule.size, NULL, 0, NULL, 0), PZ_REPORT_SIZE, 0, 0), "no report, no buffer");
    check(is(pz_print(rule.at, rule.size, report_r, sizeof report_r, NULL, 0), PZ_BUFFER_SHORT, 0, 0), "no buffer");
    check(is(pz_print(NULL, 0, NULL, 0, buffer, sizeof buffer), PZ_RULE_SIZE, 0, 0), "neither rule nor report");
    check(holds(buffer, sizeof buffer, 0), "nothing writes nothing");
}

/* ---- stack */

enum { STACK = 1 << 20, STACK_MOST = 192 * 1024, PAINT = 0x5A };

static ucontext_t caller, callee;
static struct pz_written_reply reply;

static void on_painted_stack(void)
{
    reply = pz_print(rule.at, rule.size, report.at, report.size, guarded[2], ROOM);
}

static void switch_stacks(uint8_t *own)
{
    if (getcontext(&callee) != 0) {
        perror("context");
        exit(2);
    }
    callee.uc_stack.ss_sp = own;
    callee.uc_stack.ss_size = STACK;
    callee.uc_link = &caller;
    makecontext(&callee, on_painted_stack, 0);
    if (swapcontext(&caller, &callee) != 0) {
        perror("context");
        exit(2);
    }
}

/* Makes the call on a stack of its own, painted before; the bytes that have lost their paint were used. */
static void stack(void)
{
    size_t untouched = 0;
    uint8_t *own = mmap(NULL, STACK, PROT_READ | PROT_WRITE, MAP_PRIVATE | MAP_ANONYMOUS, -1, 0);
    if (own == MAP_FAILED) {
        perror("stack");
        exit(2);
    }
    longest();
    memset(own, PAINT, STACK);
    switch_stacks(own);
    while (untouched < STACK && own[untouched] == PAINT)
        untouched++;
    check(is(reply, PZ_ACCEPTED, 0, LONGEST), "the longest text on a stack of its own");
    check(STACK - untouched <= STACK_MOST, "at most 192 KiB of stack");
    printf("stack: %zu bytes for the longest printout, at most\n", STACK - untouched);
    munmap(own, STACK);
}

int main(int argc, char **argv)
{
    if (argc != 3) {
        fprintf(stderr, "print: the program's input and its output are wanted\n");
        return 2;
    }
    make_rooms();
    kept(argv[1], argv[2]);
    sample();
    shortest();
    longest();
    order();
    cut();
    nulls();
    stack();
    return result();
}
