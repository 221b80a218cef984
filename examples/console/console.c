/* console.c: a console at a desk: tags in, verdicts out.
 *
 *     console RULE_FILE [SAVE_FILE] < TAGS
 *     console -r TEXT [SAVE_FILE] < TAGS
 *
 * The rule stands in a file, or is typed as text.
 * A tag is a line, `open LABEL` or `close`. The verdict on an element is printed the moment it opens, and a refused
 * tag is printed with its number and what that means; the tally comes at the end. After each accepted tag the save
 * file is replaced, and a console that is started with it goes on from there.
 *
 * The console tests no label, rule, state or tally: it lends the library what it was given, and prints what the
 * library says. Only files that fail and lines that are no tags are its own affair.
 *
 * The record is standard output; all lines of input but accepted closings have a line in it. A rule or a saved state
 * that is refused has one line, and no tag is read then. Exit status 0: all was taken; 1: something was refused or not
 * taken; 2: the console could not go on, and standard error says why. */
#define _POSIX_C_SOURCE 200809L
#include "console.h"
#include "words.h"
#include <errno.h>
#include <inttypes.h>
#include <stdio.h>
#include <stdlib.h>
#include <string.h>
#include <unistd.h>

enum status { ALL_TAKEN, SOME_REFUSED, CANNOT_GO_ON };

struct console {
    struct kept kept;
    const char *save_name;      /* NULL where nothing is to be saved */
    unsigned long line;         /* the line being read, from 1; 0 before the first */
    bool sound;                 /* the library takes this rule and this state */
    unsigned long refused;      /* how much was refused or not taken since the console was started */
};

const char *words_of(uint32_t number)
{
    if (number < sizeof words / sizeof words[0] && words[number] != NULL)
        return words[number];
    return "this console has no words for it";
}

/* Sends what was printed on its way; gives false, having said so, where a part of it could not be printed. */
static bool printed(void)
{
    if (fflush(stdout) == 0 && !ferror(stdout))
        return true;
    return cannot("write", "the record");
}

static bool print_refused(struct console *c, uint32_t number, uint32_t place)
{
    c->refused++;
    if (c->line > 0)
        printf("line %lu: ", c->line);
    printf("refused %" PRIu32, number);
    if (number == PZ_RULE_RECORD || number == PZ_RULE_ARGUMENT || number == PZ_RULE_FULL)
        printf(" at byte %" PRIu32, place);
    printf(": %s\n", words_of(number));
    return printed();
}

static bool print_no_command(struct console *c, const char *what)
{
    c->refused++;
    printf("line %lu: not taken: %s\n", c->line, what);
    return printed();
}

/* A number of the state. Only where the library has taken the state are its bytes known to be there. */
static unsigned state_number(const struct console *c, enum pz_state at)
{
    return c->kept.state.at[at] + 256u * c->kept.state.at[at + 1];
}

/* Saves an accepted tag, after its line. In this order a kill between the two makes the line come twice, since the
 * console goes on from before the tag; in the other order the tag would count as done and its line would be lost.
 * For the same reason a record that is a file has to be on the disk first; a pipe or a terminal has no disk, and
 * fsync says EINVAL or ENOTSUP. */
static bool keep(struct console *c)
{
    if (c->save_name == NULL)
        return true;
    if (fsync(STDOUT_FILENO) != 0 && errno != EINVAL && errno != ENOTSUP)
        return cannot("write", "the record");
    return save(&c->kept, c->save_name);
}

/* The verdict is printed before anything else is done: whatever happens to tally and save file, it has its line. */
static bool open_element(struct console *c, uint32_t label)
{
    struct kept *k = &c->kept;
    struct pz_step_reply step = pz_open(k->rule.at, k->rule.len, k->state.at, k->state.len, label);
    uint32_t counted;
    if (step.number != PZ_ACCEPTED)
        return print_refused(c, step.number, step.place);
    printf("element %u, label %" PRIu32 ": %s\n", state_number(c, PZ_STATE_AT_ELEMENTS) - 1, label,
           step.verdict ? "selected" : "passed over");
    if (!printed())
        return false;
    counted = pz_tally(&k->tally, step.verdict);
    if (counted != PZ_ACCEPTED && !print_refused(c, counted, 0))
        return false;
    return keep(c);
}

/* An accepted closing decides nothing, and prints nothing: the record has one line for each element. */
static bool close_element(struct console *c)
{
    struct kept *k = &c->kept;
    struct pz_step_reply step = pz_close(k->rule.at, k->rule.len, k->state.at, k->state.len);
    if (step.number != PZ_ACCEPTED)
        return print_refused(c, step.number, step.place);
    return keep(c);
}

enum command { NO_COMMAND, OPEN, CLOSE };

/* Reads a line as a command. Blanks may stand around its words. A label that 32 bits cannot hold becomes the largest
 * number that they can, which the library refuses like any other label that is too large. */
static enum command command_of(const char *line, uint32_t *label)
{
    static const char blanks[] = " \t\r";
    const char *at = line + strspn(line, blanks), *digits, *end;
    unsigned long long number;
    if (strncmp(at, "close", 5) == 0) {
        end = at + 5;
        return end[strspn(end, blanks)] == '\0' ? CLOSE : NO_COMMAND;
    }
    if (strncmp(at, "open", 4) != 0)
        return NO_COMMAND;
    digits = at + 4 + strspn(at + 4, blanks);
    end = digits + strspn(digits, "0123456789");
    if (digits == at + 4 || end == digits || end[strspn(end, blanks)] != '\0')
        return NO_COMMAND;
    number = strtoull(digits, NULL, 10);        /* the largest there is, where it is too large */
    *label = number < UINT32_MAX ? (uint32_t)number : UINT32_MAX;
    return OPEN;
}

/* Takes one line. A line without its line feed was cut off, and `open 2` may have been `open 20`: it is not taken. */
static bool take(struct console *c, char *line, size_t len)
{
    uint32_t label = 0;
    enum command command;
    c->line++;
    if (line[len - 1] != '\n')
        return print_no_command(c, "the input stops before the end of the line");
    line[len - 1] = '\0';
    command = strlen(line) == len - 1 ? command_of(line, &label) : NO_COMMAND;
    if (command == OPEN)
        return open_element(c, label);
    if (command == CLOSE)
        return close_element(c);
    return print_no_command(c, "expected `open` and a label in digits, or `close`");
}

/* Takes every line there is. Gives false where the console cannot go on. */
static bool take_all(struct console *c)
{
    char *line = NULL;
    size_t room = 0;
    ssize_t len;
    bool going = true;
    while (going && (len = getline(&line, &room, stdin)) > 0)
        going = take(c, line, (size_t)len);
    free(line);
    if (going && !feof(stdin))
        return cannot("read", "the tags");
    return going;
}

/* Asks the library about rule, state and tally before the first tag, so that a person hears at once what is wrong
 * with them. A label of 0 is refused with 6 after rule and state have been tested, and so 6 says that these are
 * good; nothing is altered. The tally is tried on a copy. */
static bool ask(struct console *c)
{
    struct kept *k = &c->kept;
    struct pz_step_reply step = pz_open(k->rule.at, k->rule.len, k->state.at, k->state.len, 0);
    struct pz_counts copy = k->tally;
    uint32_t counted = pz_tally(&copy, 0);
    c->sound = step.number == PZ_REPORT_RECORD;
    if (!c->sound && !print_refused(c, step.number, step.place))
        return false;
    return counted == PZ_ACCEPTED || print_refused(c, counted, 0);
}

/* Every element was opened by a tag, and all but those still open were closed by one: so many tags were accepted. */
static bool print_goes_on(const struct console *c)
{
    unsigned opened = state_number(c, PZ_STATE_AT_ELEMENTS), open = state_number(c, PZ_STATE_AT_DEPTH);
    printf("goes on after tag %u: elements opened %u, still open %u\n", opened + opened - open, opened, open);
    return printed();
}

/* Verdicts after a refused tag are those of a report without it, so the end says whether there was one. */
static bool print_end(const struct console *c)
{
    const struct pz_counts *t = &c->kept.tally;
    if (c->refused > 0)
        printf("refused or not taken in this run: %lu\n", c->refused);
    printf("tally: seen %" PRIu32 ", selected %" PRIu32 ", passed over %" PRIu32 "\n", t->seen, t->selected,
           t->passed_over);
    if (!c->sound)
        printf("no report: nothing could be taken\n");
    else if (state_number(c, PZ_STATE_AT_ROOT_CLOSED))
        printf("report complete: the site is closed\n");
    else
        printf("report not complete: still open %u\n", state_number(c, PZ_STATE_AT_DEPTH));
    return printed();
}

/* Brings back what was saved, or starts a pass. */
static enum restored begin(struct console *c)
{
    struct kept *k = &c->kept;
    enum restored found = c->save_name == NULL ? NOTHING_SAVED : restore(k, c->save_name);
    if (found != NOTHING_SAVED)
        return found;
    k->state.at = malloc(PZ_STATE_BYTES);
    if (k->state.at == NULL) {
        cannot("begin", "the report");
        return CANNOT_RESTORE;
    }
    k->state.len = PZ_STATE_BYTES;
    pz_start(k->state.at, k->state.len);
    return found;
}

/* Gets the rule, from its text or from its file. Gives false, having said why, where it cannot. */
static bool get_rule(struct console *c, const char *rule, bool typed)
{
    if (typed)
        return read_typed(rule, &c->kept.rule);
    return read_whole(rule, &c->kept.rule) || cannot("read", rule);
}

static enum status run(struct console *c, const char *rule, bool typed)
{
    enum restored found;
    if (!get_rule(c, rule, typed))
        return CANNOT_GO_ON;
    found = begin(c);
    if (found == CANNOT_RESTORE || !ask(c))
        return CANNOT_GO_ON;
    if (found == RESTORED && c->sound && !print_goes_on(c))
        return CANNOT_GO_ON;
    /* Where rule or state are refused, so would every tag be: it has been said, and no tag is read. */
    if ((c->sound && !take_all(c)) || !print_end(c))
        return CANNOT_GO_ON;
    return c->refused ? SOME_REFUSED : ALL_TAKEN;
}

int main(int argc, char **argv)
{
    struct console c = {0};
    enum status status;
    bool typed = argc > 1 && strcmp(argv[1], "-r") == 0;
    char **given = argv + 1 + typed;            /* the rule, and the save file's name or NULL */
    int count = argc - 1 - typed;
    if (count != 1 && count != 2) {
        fprintf(stderr, "usage: console RULE_FILE [SAVE_FILE] < TAGS\n       console -r TEXT [SAVE_FILE] < TAGS\n");
        return CANNOT_GO_ON;
    }
    c.save_name = given[1];
    status = run(&c, given[0], typed);
    free(c.kept.rule.at);
    free(c.kept.state.at);
    return status;
}
