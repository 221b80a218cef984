/* The readers as a C program meets them: document 01's edges, empty strings, and samples cut at every byte.
 *
 * Each string is lent three times: ending at a page that must not be read, beginning behind one, and in
 * heap memory of exactly its length. The three replies must agree and the bytes must stay as they were. The
 * guard pages catch a read past either end by the readers themselves, which no sanitizer has compiled.
 */
#define _DEFAULT_SOURCE
#include <stdio.h>
#include <stdlib.h>
#include <string.h>
#include <sys/mman.h>
#include <unistd.h>

#include "polonezar.h"

/* ---- checks */

static unsigned passed, failed;

struct reply { uint32_t number, place, count; };

static void check_at(int line, int ok, const char *what)
{
    if (ok) {
        passed++;
    } else {
        failed++;
        printf("readers.c:%d: %s\n", line, what);
    }
}

#define CHECK(ok) check_at(__LINE__, (ok), #ok)

static int same(struct reply a, struct reply b)
{
    return a.number == b.number && a.place == b.place && a.count == b.count;
}

/* ---- strings */

static uint8_t text[65536]; /* the string in hand, and how many bytes it has */
static size_t size;

static void put(unsigned n)
{
    text[size++] = (uint8_t)(n & 255u);
    text[size++] = (uint8_t)(n >> 8 & 255u);
}

static void empty(void) { size = 0; }
static void stray(unsigned n) { memset(text + size, 255, n); size += n; }
static void entry(unsigned kind) { put(2); put(kind); }
static void entry1(unsigned kind, unsigned a) { put(4); put(kind); put(a); }
static void entry2(unsigned kind, unsigned a, unsigned b) { put(6); put(kind); put(a); put(b); }
static void opens(unsigned label) { entry1(1, label); }
static void closes(void) { entry(2); }
static void leaf(unsigned label) { opens(label); closes(); }
static void leaves(unsigned n) { while (n--) leaf(2); }

/* ---- calls */

static struct reply rule_of(const uint8_t *s, size_t n)
{
    struct pz_rule_reply r = pz_read_rule(s, n);
    return (struct reply){ r.number, r.place, r.entries };
}

static struct reply report_of(const uint8_t *s, size_t n)
{
    struct pz_report_reply r = pz_read_report(s, n);
    return (struct reply){ r.number, r.place, r.elements };
}

static uint8_t *room; /* ROOM bytes with a page on either side that must not be touched */
enum { ROOM = 65536 };

static void make_room(void)
{
    size_t page = (size_t)sysconf(_SC_PAGESIZE);
    uint8_t *all = mmap(NULL, ROOM + 2 * page, PROT_NONE, MAP_PRIVATE | MAP_ANONYMOUS, -1, 0);
    if (all == MAP_FAILED || mprotect(all + page, ROOM, PROT_READ | PROT_WRITE) != 0) {
        perror("room");
        exit(2);
    }
    room = all + page;
}

/* Lends the first n bytes of text at each of the three places; the reply, where all agree. */
static struct reply lend(int line, struct reply (*reader)(const uint8_t *, size_t), size_t n)
{
    uint8_t *heap = malloc(n ? n : 1);
    uint8_t *places[3];
    struct reply r[3];
    if (heap == NULL) {
        perror("heap");
        exit(2);
    }
    places[0] = room + ROOM - n;
    places[1] = room;
    places[2] = heap;
    for (int i = 0; i < 3; i++) {
        memcpy(places[i], text, n);
        r[i] = reader(places[i], n);
        check_at(line, memcmp(places[i], text, n) == 0, "the bytes stay as they were");
    }
    free(heap);
    check_at(line, same(r[0], r[1]) && same(r[0], r[2]), "the same bytes elsewhere give the same reply");
    return r[0];
}

static void expect(int line, const char *what, struct reply got, uint32_t number, uint32_t place, uint32_t count)
{
    int ok = same(got, (struct reply){ number, place, count });
    check_at(line, ok, what);
    if (!ok)
        printf("  gives %u at %u, %u; expected %u at %u, %u\n", (unsigned)got.number, (unsigned)got.place,
               (unsigned)got.count, (unsigned)number, (unsigned)place, (unsigned)count);
}

#define RULE(number, place, count) expect(__LINE__, "rule", lend(__LINE__, rule_of, size), (number), (place), (count))
#define REPORT(number, place, count) expect(__LINE__, "report", lend(__LINE__, report_of, size), (number), (place), (count))

/* ---- rules */

static void rules(void)
{
    empty(); RULE(PZ_RULE_SIZE, 0, 0);
    empty(); stray(1); RULE(PZ_RULE_RECORD, 0, 0);
    empty(); entry(1); RULE(PZ_ACCEPTED, 0, 1);
    empty(); stray(513); RULE(PZ_RULE_SIZE, 0, 0);
    empty(); stray(512); RULE(PZ_RULE_RECORD, 0, 0);

    /* 64 entries are taken; any byte after them is a 65th entry, even where it is no record */
    empty(); for (int i = 0; i < 64; i++) entry(1);
    RULE(PZ_ACCEPTED, 0, 64);
    stray(1); RULE(PZ_RULE_FULL, 256, 0);
    size--; entry(1); RULE(PZ_RULE_FULL, 256, 0);

    /* the longest rule that can be accepted, and one that the size lets through */
    empty(); entry1(2, 7); for (int i = 0; i < 63; i++) entry2(4, 0, 0);
    RULE(PZ_ACCEPTED, 0, 64);
    CHECK(size == 510);
    stray(2); RULE(PZ_RULE_FULL, 510, 0);

    /* labels */
    empty(); entry1(2, 1); RULE(PZ_ACCEPTED, 0, 1);
    empty(); entry1(2, 999); RULE(PZ_ACCEPTED, 0, 1);
    empty(); entry1(2, 0); RULE(PZ_RULE_ARGUMENT, 0, 0);
    empty(); entry1(2, 1000); RULE(PZ_RULE_ARGUMENT, 0, 0);
    empty(); entry1(2, 65535); RULE(PZ_RULE_ARGUMENT, 0, 0);

    /* entry numbers are below their own entry's */
    empty(); entry1(3, 0); RULE(PZ_RULE_ARGUMENT, 0, 0);
    empty(); entry(1); entry1(3, 0); RULE(PZ_ACCEPTED, 0, 2);
    empty(); entry(1); entry1(3, 1); RULE(PZ_RULE_ARGUMENT, 4, 0);
    empty(); entry(1); entry2(5, 0, 1); RULE(PZ_RULE_ARGUMENT, 4, 0);
    empty(); entry(1); entry2(5, 1, 0); RULE(PZ_RULE_ARGUMENT, 4, 0);
    empty(); entry(1); entry2(5, 0, 256); RULE(PZ_RULE_ARGUMENT, 4, 0);

    /* every kind at every length that some kind has, behind an entry of kind 1 */
    for (unsigned kind = 0; kind <= 16; kind++)
        for (unsigned body = 0; body <= 2; body++) {
            int right = kind == 1 ? body == 0
                : kind == 2 || kind == 3 || (6 <= kind && kind <= 9) || kind == 14 ? body == 1
                : (4 <= kind && kind <= 5) || (10 <= kind && kind <= 13) ? body == 2
                : 0;
            empty(); entry(1); put(2 + 2 * body); put(kind);
            for (unsigned i = 0; i < body; i++) put(0);
            if (!right) RULE(PZ_RULE_RECORD, 4, 0);
            else if (kind == 2) RULE(PZ_RULE_ARGUMENT, 4, 0);
            else RULE(PZ_ACCEPTED, 0, 2);
        }
    empty(); put(2); put(257); RULE(PZ_RULE_RECORD, 0, 0);
    empty(); put(65535); put(1); RULE(PZ_RULE_RECORD, 0, 0);

    /* the first faulty record decides */
    empty(); entry(15); entry1(2, 0); RULE(PZ_RULE_RECORD, 0, 0);
    empty(); entry1(2, 0); entry(15); RULE(PZ_RULE_ARGUMENT, 0, 0);
}

/* ---- reports */

static void reports(void)
{
    empty(); REPORT(PZ_REPORT_SIZE, 0, 0);
    empty(); leaf(1); REPORT(PZ_ACCEPTED, 0, 1);
    empty(); opens(1); REPORT(PZ_REPORT_ORDER, 6, 0);
    empty(); closes(); REPORT(PZ_REPORT_ORDER, 0, 0);

    /* after the root's closing each record is faulty by its own row */
    empty(); leaf(1); opens(1); REPORT(PZ_REPORT_ORDER, 10, 0);
    empty(); leaf(1); closes(); REPORT(PZ_REPORT_ORDER, 10, 0);
    empty(); leaf(1); opens(0); REPORT(PZ_REPORT_RECORD, 10, 0);
    for (unsigned n = 1; n <= 3; n++) {
        empty(); leaf(1); stray(n); REPORT(PZ_REPORT_RECORD, 10, 0);
    }

    /* labels */
    empty(); leaf(999); REPORT(PZ_ACCEPTED, 0, 1);
    empty(); leaf(0); REPORT(PZ_REPORT_RECORD, 0, 0);
    empty(); leaf(1000); REPORT(PZ_REPORT_RECORD, 0, 0);
    empty(); leaf(65535); REPORT(PZ_REPORT_RECORD, 0, 0);

    /* levels */
    empty(); for (int i = 0; i < 64; i++) opens(1);
    for (int i = 0; i < 64; i++) closes();
    REPORT(PZ_ACCEPTED, 0, 64);
    empty(); for (int i = 0; i < 65; i++) opens(1);
    REPORT(PZ_REPORT_FULL, 384, 0);

    /* elements and bytes */
    empty(); opens(1); leaves(4095); closes(); REPORT(PZ_ACCEPTED, 0, 4096);
    CHECK(size == 40960);
    stray(1); REPORT(PZ_REPORT_SIZE, 0, 0);
    empty(); opens(1); leaves(4096); closes(); REPORT(PZ_REPORT_SIZE, 0, 0);
    empty(); opens(1); leaves(4094); opens(2); opens(2); REPORT(PZ_REPORT_FULL, 40952, 0);

    /* every kind at every length that some kind has, in a root */
    for (unsigned kind = 0; kind <= 4; kind++)
        for (unsigned body = 0; body <= 2; body++) {
            empty(); opens(1); put(2 + 2 * body); put(kind);
            for (unsigned i = 0; i < body; i++) put(5);
            if (kind == 1 && body == 1) REPORT(PZ_REPORT_ORDER, 12, 0);
            else if (kind == 2 && body == 0) REPORT(PZ_ACCEPTED, 0, 1);
            else REPORT(PZ_REPORT_RECORD, 6, 0);
        }
    empty(); opens(1); put(2); put(258); REPORT(PZ_REPORT_RECORD, 6, 0);
    empty(); opens(1); put(258); put(2); REPORT(PZ_REPORT_RECORD, 6, 0);

    /* one opening more behind 64 levels that were closed. (No report has a record at which both 7 and 8 apply: one of
     * 4,096 elements whose root is closed has 40,960 bytes, so that a byte more is 5.) */
    empty(); for (int i = 0; i < 64; i++) opens(1);
    for (int i = 0; i < 64; i++) closes();
    opens(1); REPORT(PZ_REPORT_ORDER, 640, 0);
}

/* ---- samples, whole and cut at every byte */

/* Rule A of document 01, and where its records begin and end. */
static void rule_a(void)
{
    static const size_t begins[] = { 0, 4, 10, 16, 24, 32 };
    empty(); entry(1); entry1(2, 20); entry1(2, 30); entry2(12, 0, 2); entry2(5, 1, 3);
    CHECK(size == 32);
    for (size_t n = 0; n <= size; n++) {
        size_t i = 0; /* records that are whole */
        while (i < 5 && begins[i + 1] <= n) i++;
        struct reply got = lend(__LINE__, rule_of, n);
        if (n == 0) expect(__LINE__, "rule A, nothing", got, PZ_RULE_SIZE, 0, 0);
        else if (begins[i] == n) expect(__LINE__, "rule A, whole records", got, PZ_ACCEPTED, 0, (uint32_t)i);
        else expect(__LINE__, "rule A, cut", got, PZ_RULE_RECORD, (uint32_t)begins[i], 0);
    }
}

/* Report R of document 01. */
static void report_r(void)
{
    static const size_t begins[] = { 0, 6, 12, 18, 22, 28, 32, 36, 42, 48, 52, 56, 60 };
    empty();
    opens(1);
    opens(10); leaf(20); leaf(30); closes();
    opens(10); leaf(20); closes();
    closes();
    CHECK(size == 60);
    for (size_t n = 0; n <= size; n++) {
        size_t i = 0;
        while (i < 12 && begins[i + 1] <= n) i++;
        struct reply got = lend(__LINE__, report_of, n);
        if (n == 0) expect(__LINE__, "report R, nothing", got, PZ_REPORT_SIZE, 0, 0);
        else if (n == 60) expect(__LINE__, "report R", got, PZ_ACCEPTED, 0, 6);
        else if (begins[i] == n) expect(__LINE__, "report R, an element open", got, PZ_REPORT_ORDER, (uint32_t)n, 0);
        else expect(__LINE__, "report R, cut", got, PZ_REPORT_RECORD, (uint32_t)begins[i], 0);
    }
}

int main(void)
{
    make_room();
    CHECK(sizeof(struct pz_rule_reply) == 12 && sizeof(struct pz_report_reply) == 12);

    /* NULL with length 0 */
    expect(__LINE__, "no rule", rule_of(NULL, 0), PZ_RULE_SIZE, 0, 0);
    expect(__LINE__, "no report", report_of(NULL, 0), PZ_REPORT_SIZE, 0, 0);

    rules();
    reports();
    rule_a();
    report_r();

    printf("%u passed, %u failed\n", passed, failed);
    return failed != 0;
}
