/* typed.c: a rule typed as text: its bytes, or what is wrong with it, where, and what could stand there.
 *
 * The library says that a text is refused and at which byte. What could stand there instead is asked of the library
 * too: the text up to that byte is given to it again with each word and sign behind. So there is no second grammar that
 * might differ. Words for labels are put into numbers before; where they stand in the text is remembered. */
#include "desk.h"
#include <string.h>

/* Whether the word `label` and a space stand right before a place, with no letter before them. */
static bool behind_label(const char *text, size_t at)
{
    static const char label[] = "label ";
    size_t n = sizeof label - 1;
    return at >= n && memcmp(text + at - n, label, n) == 0
        && (at == n || word_length(text + at - n - 1, 1) == 0);
}

/* Adds bytes that come from one place of the text; those past the room are left out: the text is too long then. */
static void add_plain(struct typed *t, const char *bytes, size_t len, size_t from)
{
    for (size_t i = 0; i < len && t->plain_len < sizeof t->plain; i++) {
        t->plain[t->plain_len] = (uint8_t)bytes[i];
        t->from[t->plain_len++] = from;
    }
}

/* Puts numbers for the words of labels. A word that the names file does not have stays, and the library refuses it. */
static void put_numbers(struct typed *t, const struct names *names)
{
    size_t at = 0, word;
    t->plain_len = 0;
    while (at < t->len && t->plain_len < sizeof t->plain) {
        uint32_t label = 0;
        word = behind_label(t->text, at) ? word_length(t->text + at, t->len - at) : 0;
        if (word > 0)
            label = label_of(names, t->text + at, word);
        if (label > 0) {
            char digits[16];
            snprintf(digits, sizeof digits, "%u", (unsigned)label);
            add_plain(t, digits, strlen(digits), at);
            at += word;
        } else {
            add_plain(t, t->text + at, 1, at);
            at++;
        }
    }
    t->from[t->plain_len] = at;
}

/* ---- what could stand at a place */

/* Whether some rule begins with the text's first bytes and these behind them. Nothing is written: no room is lent. */
static bool goes_on(const struct typed *t, size_t place, const char *with)
{
    uint8_t tried[PZ_TEXT_BYTES];
    size_t more = strlen(with);
    struct pz_written_reply w;
    if (place > sizeof tried || more > sizeof tried - place)
        return false;
    memcpy(tried, t->plain, place);
    memcpy(tried + place, with, more);
    w = pz_read_path(tried, place + more, NULL, 0);
    return w.number != PZ_TEXT_BAD || w.place == place + more;
}

/* Whether the text's first bytes are a rule. */
static bool complete(const struct typed *t, size_t place)
{
    return place > 0 && pz_read_path(t->plain, place, NULL, 0).number != PZ_TEXT_BAD;
}

/* Whether a word for a label ends at a place: there its number could have more digits, but the word has none. */
static bool behind_word(const struct typed *t, size_t place)
{
    return place > 0 && (uint8_t)t->text[t->from[place - 1]] != t->plain[place - 1];
}

struct choices {
    char names[32][64];
    size_t count;
};

static void add(struct choices *c, const char *before, const char *name, const char *after)
{
    snprintf(c->names[c->count++], sizeof c->names[0], "%s%s%s", before, name, after);
}

/* What can stand at a place. A letter is looked for where nothing else can stand: inside a word. */
static struct choices choices_at(const struct typed *t, size_t place, const struct names *names)
{
    static const char *const words_and_signs[] = {"true", "label", "not", "or", "child", "parent", "right", "left",
                                                  "(", ")", "<", ">", "/", "?", "*"};
    struct choices c = {{{0}}, 0};
    char letter[2] = "a";
    for (size_t i = 0; i < sizeof words_and_signs / sizeof words_and_signs[0]; i++)
        if (goes_on(t, place, words_and_signs[i]))
            add(&c, "`", words_and_signs[i], "`");
    if (goes_on(t, place, " "))
        add(&c, "", "a space", "");
    if (goes_on(t, place, "0")) {
        if (!behind_word(t, place))
            add(&c, "", "a digit", "");
    } else if (goes_on(t, place, "1")) {
        add(&c, "", "a digit from 1 to 9", "");
        if (names->file != NULL)
            add(&c, "", "a word of the names file", "");
    }
    if (complete(t, place))
        add(&c, "", "the end of the text", "");
    for (; c.count == 0 && letter[0] <= 'z'; letter[0]++)
        if (goes_on(t, place, letter))
            add(&c, "`", letter, "`");
    return c;
}

static void say_expected(const struct typed *t, size_t place, const struct names *names)
{
    struct choices c = choices_at(t, place, names);
    if (c.count == 0)
        fprintf(stderr, "the text is too long to go on at the mark; type the rule shorter");
    for (size_t i = 0; i < c.count; i++)
        fprintf(stderr, "%s%s%s", i == 0 ? "expected " : i + 1 < c.count ? ", " : " or ", c.names[i],
                i + 1 < c.count ? "" : " at the mark");
    fputc('\n', stderr);
}

/* ---- the text and a mark under it */

enum { SHOWN = 100 };               /* so many bytes of a text stand on a line */

/* Prints the character that stands at a place, or a dot for a byte that does not print; gives how many bytes it has. */
static size_t put_character(FILE *to, const struct typed *t, size_t at, bool *dots)
{
    size_t len = t->text[at] >= ' ' && t->text[at] != 127 ? 1 : beyond_ascii(t->text + at, t->len - at);
    if (len > 0)
        fwrite(t->text + at, 1, len, to);
    else
        fputc('.', to);
    *dots = *dots || len == 0;
    return len > 0 ? len : 1;
}

/* Shows the text from one place to another, and the marks under it; gives where it stopped, behind a character. */
static size_t show_part(FILE *to, const struct typed *t, size_t from, size_t end, const char *marks)
{
    char under[SHOWN + 8];
    size_t at = from, columns = 0, last = 0;
    bool dots = false;
    fprintf(to, "    %s", from > 0 ? ".." : "");
    while (at < end) {
        under[columns++] = marks[at];
        at += put_character(to, t, at, &dots);
    }
    under[columns++] = at == t->len ? marks[at] : ' ';
    for (size_t i = 0; i < columns; i++)
        last = under[i] != ' ' ? i + 1 : last;
    fprintf(to, "%s\n", at < t->len ? ".." : "");
    if (last > 0)
        fprintf(to, "    %s%.*s\n", from > 0 ? "  " : "", (int)last, under);
    if (dots)
        fprintf(to, "    (a byte that does not print is shown as a dot)\n");
    return at;
}

void show_marked(FILE *to, const struct typed *t, const char *marks)
{
    for (size_t at = 0; at < t->len;)
        at = show_part(to, t, at, t->len - at > SHOWN ? at + SHOWN : t->len, marks);
}

/* Shows the text, or the part of it around the place. */
static void show_around(const struct typed *t, size_t place, const char *marks)
{
    size_t from = place > SHOWN / 2 ? place - SHOWN / 2 : 0;
    show_part(stderr, t, from, t->len - from > SHOWN ? from + SHOWN : t->len, marks);
}

static void mark_fault(const struct typed *t, size_t place, bool all)
{
    static char marks[TYPED_BYTES + 1];
    memset(marks, ' ', sizeof marks);
    marks[place] = '^';
    if (all)
        memset(marks + 1, '~', (t->len < SHOWN ? t->len : SHOWN) - 1);
    show_around(t, place, marks);
}

/* The whole text is meant. */
static void say_whole(const struct rule *rule, uint32_t number)
{
    const struct typed *t = &rule->typed;
    if (t->plain_len == 0)
        say(rule->about, "refused %u: it is empty; type a rule, such as `label 20`", (unsigned)number);
    else if (t->plain_len > PZ_TEXT_BYTES)
        say(rule->about, "refused %u: it has more than 1,024 bytes; type the rule shorter", (unsigned)number);
    else
        refused(rule->about, number, 0);
    if (t->len > 0)
        mark_fault(t, 0, true);
}

static void say_at(const struct rule *rule, struct pz_written_reply w, const struct names *names)
{
    const struct typed *t = &rule->typed;
    size_t place = t->from[w.place];
    fflush(stdout);
    fprintf(stderr, "polonezar-desk: ");
    put_name(stderr, rule->about);
    fprintf(stderr, ": refused %u at byte %zu: %s", (unsigned)w.number, place,
            w.place == t->plain_len ? "the text ends too soon: " : "");
    say_expected(t, w.place, names);
    mark_fault(t, place, false);
    say_what_to_do(w.number, (uint32_t)place);
}

/* What has no sign of a rule in it may have been meant as a file's name. */
static bool like_a_name(const struct rule *rule)
{
    return rule->no_file && rule->typed.len > 0 && strpbrk(rule->typed.text, " <(") == NULL;
}

static enum status say_refused(const struct rule *rule, struct pz_written_reply w, const struct names *names)
{
    size_t len = rule->typed.plain_len;
    if (w.number != PZ_TEXT_BAD || len == 0 || len > PZ_TEXT_BYTES)
        say_whole(rule, w.number);
    else
        say_at(rule, w, names);
    if (like_a_name(rule))
        fprintf(stderr, "    (it was read as a rule's text, since no file has that name)\n");
    return SOME_REFUSED;
}

enum status read_typed(struct rule *rule, const struct names *names)
{
    struct pz_written_reply w;
    put_numbers(&rule->typed, names);
    w = pz_read_path(rule->typed.plain, rule->typed.plain_len, rule->bytes, PZ_RULE_BYTES);
    rule->len = w.written;
    return w.number == PZ_ACCEPTED ? ALL_ACCEPTED : say_refused(rule, w, names);
}

/* ---- the steps that look ahead */

/* Whether the library takes this text for one pass: its rule looks back only. */
static bool looks_back(const uint8_t *text, size_t len)
{
    uint8_t rule[PZ_RULE_BYTES], state[PZ_STATE_BYTES];
    struct pz_written_reply w = pz_read_path(text, len, rule, sizeof rule);
    pz_start(state, sizeof state);
    return pz_open(rule, w.written, state, sizeof state, 0).number != PZ_RULE_AHEAD;
}

/* The other word for a step to a neighbour, of the same length or shorter, where one of these words stands; else NULL.
 * A text with the one in place of the other has the same form. */
static const char *turned_word(const uint8_t *at, size_t len, size_t *word)
{
    static const char *const turned[][2] = {{"child", "left"}, {"right", "left"}, {"parent", "left"}};
    for (size_t i = 0; i < sizeof turned / sizeof turned[0]; i++) {
        *word = strlen(turned[i][0]);
        if (*word <= len && memcmp(at, turned[i][0], *word) == 0)
            return turned[i][1];
    }
    return NULL;
}

/* Whether the text still looks ahead where each step but the one at `kept` is turned to the left. */
static bool ahead_by(const struct typed *t, size_t kept)
{
    uint8_t tried[PZ_TEXT_BYTES];
    size_t len = 0, word;
    for (size_t i = 0; i < t->plain_len;) {
        const char *other = turned_word(t->plain + i, t->plain_len - i, &word);
        if (other == NULL || i == kept) {
            tried[len++] = t->plain[i++];
            continue;
        }
        memcpy(tried + len, other, strlen(other));
        len += strlen(other);
        i += word;
    }
    return !looks_back(tried, len);
}

void mark_ahead(const struct typed *t, char *marks)
{
    size_t word;
    memset(marks, ' ', t->len + 1);
    for (size_t i = 0; i < t->plain_len; i++) {
        if (turned_word(t->plain + i, t->plain_len - i, &word) == NULL || !ahead_by(t, i))
            continue;
        memset(marks + t->from[i], '~', word);
        marks[t->from[i]] = '^';
    }
}
