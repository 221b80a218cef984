/* judge.c: the record of each report, as pz_print wrote it. Of several reports each has its heading, and a last line
 * adds up what the records say. */
#define _POSIX_C_SOURCE 200809L
#include "desk.h"
#include <errno.h>
#include <string.h>
#include <time.h>
#include <unistd.h>

struct judging {
    struct rule rule;
    bool rule_refused;              /* it has been said */
    bool several, terminal;
    struct pz_counts tally;
    uint32_t uncounted;             /* what pz_tally answered where it would not count */
    unsigned long refused, unread;
    struct timespec shown;          /* when the progress line was drawn */
};

/* ---- the progress line: on a terminal's standard error, some times a second */

static void clear_progress(const struct judging *j)
{
    if (j->terminal)
        fprintf(stderr, "\r\033[K");
}

static void draw_progress(struct judging *j, int done, int all, const char *name)
{
    enum { MOST = 50 };             /* bytes of a name, so that the line is one line */
    struct timespec now;
    size_t len = strlen(name);
    if (!j->terminal || clock_gettime(CLOCK_MONOTONIC, &now) != 0)
        return;
    if (done > 0 && (now.tv_sec - j->shown.tv_sec) * 10 + (now.tv_nsec - j->shown.tv_nsec) / 100000000 < 1)
        return;
    j->shown = now;
    fflush(stdout);
    fprintf(stderr, "\r\033[K%d of %d: %s", done + 1, all, len > MOST ? ".." : "");
    put_name(stderr, len > MOST ? name + len - MOST : name);
    fflush(stderr);
}

/* ---- one report */

/* Counts the verdicts of a record: the last sign of each line between the first, which is the header, and the last. */
static void count(struct judging *j, const uint8_t *text, size_t len)
{
    const uint8_t *end = memchr(text, '\n', len);
    while (end[1] != 's') {
        end = memchr(end + 1, '\n', len - (size_t)(end + 1 - text));
        uint32_t number = pz_tally(&j->tally, end[-1] == '1');
        if (number != PZ_ACCEPTED)
            j->uncounted = number;
    }
}

/* A fault of the rule is said once, however many reports have its line. */
static void say_refused(struct judging *j, const char *name, struct pz_written_reply w)
{
    bool of_rule = w.number <= PZ_RULE_FULL;
    j->refused++;
    if (of_rule && j->rule_refused)
        return;
    j->rule_refused = of_rule;
    clear_progress(j);
    refused(of_rule ? j->rule.about : name, w.number, w.place);
}

static enum status judge_one(struct judging *j, const char *name)
{
    static uint8_t report[PZ_REPORT_BYTES + 1], text[PZ_PRINTOUT_BYTES];
    struct pz_written_reply w;
    size_t len;
    if (read_file(name, report, sizeof report, &len) != ALL_ACCEPTED) {
        int why = errno;
        j->unread++;
        if (j->several)
            printf("not read: %s\n", strerror(why));
        clear_progress(j);
        errno = why;
        return cannot_read(name);
    }
    w = pz_print(j->rule.bytes, j->rule.len, report, len, text, sizeof text);
    if (w.number != PZ_ACCEPTED) {
        printf("refused %u at %u\n", (unsigned)w.number, (unsigned)w.place);
        say_refused(j, name, w);
        return SOME_REFUSED;
    }
    fwrite(text, 1, w.written, stdout);
    if (j->several)
        count(j, text, w.written);
    return ALL_ACCEPTED;
}

/* ---- all reports */

static enum status print_sum(struct judging *j, int reports)
{
    const struct pz_counts *t = &j->tally;
    printf("\nreports %d, refused %lu, not read %lu; elements seen %u, selected %u, passed over %u\n", reports,
           j->refused, j->unread, (unsigned)t->seen, (unsigned)t->selected, (unsigned)t->passed_over);
    return j->uncounted == PZ_ACCEPTED ? ALL_ACCEPTED : refused("the sum", j->uncounted, 0);
}

static enum status judge_all(struct judging *j, const char **names, int reports)
{
    enum status status = ALL_ACCEPTED;
    j->several = reports > 1;
    j->terminal = j->several && isatty(STDERR_FILENO) == 1;
    for (int i = 0; i < reports; i++) {
        draw_progress(j, i, reports, names[i]);
        if (j->several) {
            if (isatty(STDOUT_FILENO) == 1)
                clear_progress(j);
            printf("%s== ", i > 0 ? "\n" : "");
            put_name(stdout, names[i]);
            printf("\n");
        }
        status = worse(status, judge_one(j, names[i]));
        if (printed() != ALL_ACCEPTED)
            return CANNOT;
    }
    clear_progress(j);
    if (j->several)
        status = worse(status, print_sum(j, reports));
    return worse(status, printed());
}

enum status judge(const struct request *request)
{
    static struct names names;
    static struct judging judging;
    int rules = request->text_file == NULL ? 1 : 0;
    enum status status = read_names(&names, request->names_file);
    if (status == ALL_ACCEPTED)
        status = get_rule(&judging.rule, request->given[0], request->text_file, &names);
    if (status != ALL_ACCEPTED)
        return status;
    return judge_all(&judging, request->given + rules, request->count - rules);
}
