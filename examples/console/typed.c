/* typed.c: a rule typed as text: its bytes, or what is wrong with it, where, and what to do.
 *
 * The library says that a text is refused and at which byte. What could stand there instead is asked of the library
 * too: the text up to that byte is given to it again with something else behind. So the console has no grammar of its
 * own that might differ. */
#include "console.h"
#include <stdio.h>
#include <stdlib.h>
#include <string.h>

/* Whether some rule begins with the text's first bytes and these behind them. Nothing is written: no room is lent. */
static bool goes_on(const char *text, size_t place, const char *with)
{
    uint8_t tried[PZ_TEXT_BYTES];
    size_t more = strlen(with);
    struct pz_written_reply w;
    if (place > sizeof tried || more > sizeof tried - place)
        return false;
    memcpy(tried, text, place);
    memcpy(tried + place, with, more);
    w = pz_read_path(tried, place + more, NULL, 0);
    return w.number != PZ_TEXT_BAD || w.place == place + more;
}

/* Whether the text's first bytes are a rule. */
static bool complete(const char *text, size_t place)
{
    return place > 0 && pz_read_path((const uint8_t *)text, place, NULL, 0).number != PZ_TEXT_BAD;
}

/* What can stand at a place. A letter is looked for where nothing else can stand: inside a word. */
struct choices {
    char names[32][24];
    size_t count;
};

static void add(struct choices *c, const char *name)
{
    snprintf(c->names[c->count++], sizeof c->names[0], "%s", name);
}

static void add_quoted(struct choices *c, const char *what)
{
    snprintf(c->names[c->count++], sizeof c->names[0], "`%s`", what);
}

static struct choices choices_at(const char *text, size_t place)
{
    static const char *const words_and_signs[] = {"true", "label", "not", "or", "child", "parent", "right", "left",
                                                  "(", ")", "<", ">", "/", "?", "*"};
    struct choices c = {{{0}}, 0};
    char letter[2] = "a";
    for (size_t i = 0; i < sizeof words_and_signs / sizeof words_and_signs[0]; i++)
        if (goes_on(text, place, words_and_signs[i]))
            add_quoted(&c, words_and_signs[i]);
    if (goes_on(text, place, " "))
        add(&c, "a space");
    if (goes_on(text, place, "0"))
        add(&c, "a digit");
    else if (goes_on(text, place, "1"))
        add(&c, "a digit from 1 to 9");
    if (complete(text, place))
        add(&c, "the end of the text");
    for (; c.count == 0 && letter[0] <= 'z'; letter[0]++)
        if (goes_on(text, place, letter))
            add_quoted(&c, letter);
    return c;
}

static void say_expected(const char *text, size_t place)
{
    struct choices c = choices_at(text, place);
    if (c.count == 0)
        fprintf(stderr, "the text is too long to go on at the mark; type the rule shorter\n");
    for (size_t i = 0; i < c.count; i++)
        fprintf(stderr, "%s%s%s", i == 0 ? "expected " : i + 1 < c.count ? ", " : " or ", c.names[i],
                i + 1 < c.count ? "" : " at the mark\n");
}

/* Shows the text, or the part of it around the place, and marks the place, or all of the text. Each byte takes one
 * column, whatever it is, so that the mark stands under it. */
static void show(const char *text, size_t len, size_t place, bool all)
{
    enum { BEFORE = 40, WIDTH = 72 };
    size_t from = place > BEFORE ? place - BEFORE : 0, to = len - from > WIDTH ? from + WIDTH : len;
    bool dots = false;
    fprintf(stderr, "    %s", from > 0 ? ".." : "");
    for (size_t i = from; i < to; i++) {
        bool prints = text[i] >= ' ' && text[i] <= '~';
        dots = dots || !prints;
        fputc(prints ? text[i] : '.', stderr);
    }
    fprintf(stderr, "%s\n    %*s^", to < len ? ".." : "", (int)(place - from + (from > 0 ? 2 : 0)), "");
    for (size_t i = place + 1; all && i < to; i++)
        fputc('~', stderr);
    fprintf(stderr, "\n%s", dots ? "    (a byte that does not print is shown as a dot)\n" : "");
}

static void say_refused(const char *text, size_t len, struct pz_written_reply w)
{
    bool size = len == 0 || len > PZ_TEXT_BYTES, all = size || w.number != PZ_TEXT_BAD;
    fprintf(stderr, "console: the rule's text: refused %u", (unsigned)w.number);
    if (!all)
        fprintf(stderr, " at byte %u: %s", (unsigned)w.place, w.place == len ? "the text ends too soon: " : "");
    if (!all)
        say_expected(text, w.place);
    else if (len == 0)
        fprintf(stderr, ": it is empty; type a rule, such as `label 20`\n");
    else if (size)
        fprintf(stderr, ": it has %zu bytes, and %d are the most; type the rule shorter\n", len, PZ_TEXT_BYTES);
    else
        fprintf(stderr, ": %s\n", words_of(w.number));
    if (len > 0)
        show(text, len, w.place, all);
}

bool read_typed(const char *text, struct bytes *into)
{
    size_t len = strlen(text);
    struct pz_written_reply w;
    into->at = malloc(PZ_RULE_BYTES);
    if (into->at == NULL)
        return cannot("read", "the rule's text");
    w = pz_read_path((const uint8_t *)text, len, into->at, PZ_RULE_BYTES);
    into->len = w.written;
    if (w.number != PZ_ACCEPTED)
        say_refused(text, len, w);
    return w.number == PZ_ACCEPTED;
}
