/* replay FILE: makes the calls again that the comparison under tests/outside has kept, and holds each answer and each
 * lent byte to what is expected there. How the file is laid out is said in tests/outside/src/bin/compare/kept.rs.
 *
 * Each call is made three times: with everything in heap memory of exactly its size, where valgrind sees a byte past
 * either end (a sanitizer does not, since it has not compiled the functions; it watches this program, and the heap when
 * memory is given back), then in memory that ends at a page that must not be touched, then in memory that begins behind
 * one. A function that no call of the file is of is a failure, and so is a file that is not whole.
 * The last line is 'N passed, M failed': one for each time a call was made, and one for each function that occurs.
 */
#define _DEFAULT_SOURCE
#include "polonezar.h"
#include <signal.h>
#include <stdarg.h>
#include <stdio.h>
#include <stdlib.h>
#include <string.h>
#include <sys/mman.h>
#include <unistd.h>

enum { FUNCTIONS = 9, SHOWN = 5, ROOM = 1 << 17 };
static const uint32_t AGAIN = 0xFFFFFFFFu;

static const char *const names[FUNCTIONS + 1] = {
    "the end", "pz_read_rule", "pz_read_report", "pz_evaluate", "pz_start", "pz_open", "pz_close", "pz_tally",
    "pz_read_path", "pz_print"};

static unsigned long passed, failed, calls, counts[FUNCTIONS + 1];

static void fail(const char *format, ...)
{
    va_list arguments;
    if (++failed > SHOWN)
        return;
    va_start(arguments, format);
    printf("FAILED: ");
    vprintf(format, arguments);
    printf("\n");
    va_end(arguments);
}

static int result(void)
{
    printf("%lu passed, %lu failed\n", passed, failed);
    return failed != 0;
}

/* ---- the file */

static const char *file_name;
static FILE *file;

/* The file is not what it should be: nothing more can be read from it. */
static void broken(const char *what)
{
    printf("FAILED: %s: call %lu: %s\n", file_name, calls, what);
    failed++;
    exit(result());
}

static void get(void *to, size_t n)
{
    if (n != 0 && fread(to, 1, n, file) != n)
        broken("the file ends too early");
}

static uint32_t get_word(void)
{
    uint8_t b[4];
    get(b, 4);
    return b[0] | (uint32_t)b[1] << 8 | (uint32_t)b[2] << 16 | (uint32_t)b[3] << 24;
}

struct string {
    uint8_t bytes[ROOM];
    uint32_t length;
};

static void get_string(struct string *s)
{
    uint32_t length = get_word();
    if (length == AGAIN)
        return;
    if (length > ROOM)
        broken("a string is longer than any call has");
    s->length = length;
    get(s->bytes, length);
}

/* The call in hand. For pz_read_path `rule` is the text. `before` is the lent buffer as it is given, `after` as it must
 * be then. */
static uint32_t function, argument, answer[4];
static struct string rule, report, before, after;

static void get_changes(void)
{
    uint32_t n = get_word();
    memcpy(after.bytes, before.bytes, before.length);
    after.length = before.length;
    while (n-- > 0) {
        uint32_t at = get_word(), length = get_word();
        if (at > after.length || length > after.length - at)
            broken("a change is outside the buffer");
        get(after.bytes + at, length);
    }
}

/* Whether there is one more call; at the end of the calls the file has their number, and ends. */
static int get_call(void)
{
    function = get_word();
    if (function > FUNCTIONS)
        broken("there is no such function");
    if (function == 0) {
        if (get_word() != calls)
            broken("the file has another number of calls than it says");
        if (fgetc(file) != EOF)
            broken("the file goes on after its end");
        return 0;
    }
    calls++;
    counts[function]++;
    argument = get_word();
    for (int i = 0; i < 4; i++)
        answer[i] = get_word();
    /* The buffer of the last call, as it was left, is the one that may be meant again. */
    memcpy(before.bytes, after.bytes, after.length);
    before.length = after.length;
    get_string(&rule);
    get_string(&report);
    get_string(&before);
    get_changes();
    if (function == 3 && before.length % 8 != 0)
        broken("marks are no words");
    if (function == 7 && before.length != sizeof(struct pz_counts))
        broken("a tally is no three numbers");
    return 1;
}

/* ---- the calls */

/* Memory for one string at each of the three places. */
enum place { HEAP, AT_THE_END, AT_THE_BEGINNING, PLACES };
static const char *const place_names[PLACES] = {"on the heap", "before a guard page", "behind a guard page"};

static uint8_t *room(void)
{
    size_t page = (size_t)sysconf(_SC_PAGESIZE);
    uint8_t *all = mmap(NULL, ROOM + 2 * page, PROT_NONE, MAP_PRIVATE | MAP_ANONYMOUS, -1, 0);
    if (all == MAP_FAILED || mprotect(all + page, ROOM, PROT_READ | PROT_WRITE) != 0) {
        perror("replay: memory between guard pages");
        exit(2);
    }
    return all + page;
}

static uint8_t *lend(enum place place, uint8_t *guarded, const struct string *s)
{
    uint8_t *p = place == HEAP ? malloc(s->length) : place == AT_THE_END ? guarded + ROOM - s->length : guarded;
    if (p == NULL && s->length != 0) {
        perror("replay: memory");
        exit(2);
    }
    if (s->length != 0)
        memcpy(p, s->bytes, s->length);
    return p;
}

static void give_back(enum place place, uint8_t *p)
{
    if (place == HEAP)
        free(p);
}

/* Makes the call; the fields of the reply, 0 where it has fewer than four. */
static void call(uint32_t reply[4], const uint8_t *lent_rule, const uint8_t *lent_report, uint8_t *buffer)
{
    struct pz_rule_reply a;
    struct pz_report_reply b;
    struct pz_evaluation_reply e;
    struct pz_written_reply w;
    struct pz_step_reply s = {0, 0, 0};
    memset(reply, 0, 4 * sizeof reply[0]);
    switch (function) {
    case 1:
        a = pz_read_rule(lent_rule, rule.length);
        reply[0] = a.number, reply[1] = a.place, reply[2] = a.entries;
        return;
    case 2:
        b = pz_read_report(lent_report, report.length);
        reply[0] = b.number, reply[1] = b.place, reply[2] = b.elements;
        return;
    case 3:
        e = pz_evaluate(lent_rule, rule.length, lent_report, report.length, (uint64_t *)(void *)buffer,
                        before.length / 8);
        reply[0] = e.number, reply[1] = e.place, reply[2] = e.elements, reply[3] = e.selected;
        return;
    case 4:
        s = pz_start(buffer, before.length);
        break;
    case 5:
        s = pz_open(lent_rule, rule.length, buffer, before.length, argument);
        break;
    case 6:
        s = pz_close(lent_rule, rule.length, buffer, before.length);
        break;
    case 7:
        reply[0] = pz_tally((struct pz_counts *)(void *)buffer, argument);
        return;
    case 8:
        w = pz_read_path(lent_rule, rule.length, buffer, before.length);
        reply[0] = w.number, reply[1] = w.place, reply[2] = w.written;
        return;
    default:
        w = pz_print(lent_rule, rule.length, lent_report, report.length, buffer, before.length);
        reply[0] = w.number, reply[1] = w.place, reply[2] = w.written;
        return;
    }
    reply[0] = s.number, reply[1] = s.place, reply[2] = s.verdict;
}

/* Whether lent bytes are as they must be; says where they are not. */
static int same(const char *what, enum place place, const uint8_t *found, const struct string *due)
{
    if (due->length == 0 || memcmp(found, due->bytes, due->length) == 0)
        return 1;
    uint32_t at = 0;
    while (found[at] == due->bytes[at])
        at++;
    fail("call %lu, %s, %s: byte %lu of the %s is %u, expected %u", calls, names[function], place_names[place],
         (unsigned long)at, what, found[at], due->bytes[at]);
    return 0;
}

static enum place place_in_hand;

/* A guard page was touched, by the function: this program keeps to what it lends. Nothing can go on from there. */
static void touched(int number)
{
    (void)number;
    fail("call %lu, %s, %s: memory beside what was lent was touched", calls, names[function],
         place_names[place_in_hand]);
    exit(result());
}

static void replay(enum place place, uint8_t *const guarded[3])
{
    uint32_t reply[4];
    place_in_hand = place;
    uint8_t *lent_rule = lend(place, guarded[0], &rule);
    uint8_t *lent_report = lend(place, guarded[1], &report);
    uint8_t *buffer = lend(place, guarded[2], &before);
    call(reply, lent_rule, lent_report, buffer);
    int ok = 1;
    for (int i = 0; i < 4 && ok; i++)
        if (reply[i] != answer[i]) {
            fail("call %lu, %s, %s: field %d of the answer is %lu, expected %lu", calls, names[function],
                 place_names[place], i, (unsigned long)reply[i], (unsigned long)answer[i]);
            ok = 0;
        }
    ok = ok && same(function == 8 ? "text" : "rule", place, lent_rule, &rule);
    ok = ok && same("report", place, lent_report, &report);
    ok = ok && same("buffer", place, buffer, &after);
    passed += (unsigned long)ok;
    give_back(place, lent_rule);
    give_back(place, lent_report);
    give_back(place, buffer);
}

int main(int argc, char **argv)
{
    uint8_t *const guarded[3] = {room(), room(), room()};
    char head[8];
    if (argc != 2) {
        fprintf(stderr, "replay: one file is wanted\n");
        return 2;
    }
    file_name = argv[1];
    file = fopen(file_name, "rb");
    if (file == NULL) {
        perror(file_name);
        return 2;
    }
    signal(SIGSEGV, touched);
    get(head, sizeof head);
    if (memcmp(head, "pzkept 1", sizeof head) != 0)
        broken("this is no file of kept calls");
    while (get_call())
        for (enum place place = HEAP; place < PLACES; place++)
            replay(place, guarded);
    fclose(file);
    for (int i = 1; i <= FUNCTIONS; i++) {
        printf("%s: %lu calls\n", names[i], counts[i]);
        if (counts[i] != 0)
            passed++;
        else
            fail("%s never occurs", names[i]);
    }
    return result();
}
