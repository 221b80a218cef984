/* names.c: a names file has a label and a word on each line: `20 alarm`. Empty lines, and lines that begin with #, are
 * passed over. Which labels there are is asked of the library: `label 20` is a rule, and `label 0` is none. */
#include "desk.h"
#include <errno.h>
#include <stdlib.h>
#include <string.h>

static bool is_letter(char c)
{
    return (c >= 'a' && c <= 'z') || (c >= 'A' && c <= 'Z');
}

static bool is_digit(char c)
{
    return c >= '0' && c <= '9';
}

static bool is_between(char c, unsigned least, unsigned most)
{
    return (unsigned char)c >= least && (unsigned char)c <= most;
}

size_t beyond_ascii(const char *at, size_t len)
{
    static const struct {
        unsigned first_least, first_most, second_least, second_most;
        size_t len;
    } rows[] = {{0xC2, 0xC2, 0xA0, 0xBF, 2}, {0xC3, 0xDF, 0x80, 0xBF, 2}, {0xE0, 0xE0, 0xA0, 0xBF, 3},
                {0xE1, 0xEC, 0x80, 0xBF, 3}, {0xED, 0xED, 0x80, 0x9F, 3}, {0xEE, 0xEF, 0x80, 0xBF, 3},
                {0xF0, 0xF0, 0x90, 0xBF, 4}, {0xF1, 0xF3, 0x80, 0xBF, 4}, {0xF4, 0xF4, 0x80, 0x8F, 4}};
    for (size_t i = 0; i < sizeof rows / sizeof rows[0]; i++) {
        bool whole = rows[i].len <= len && is_between(at[0], rows[i].first_least, rows[i].first_most)
            && is_between(at[1], rows[i].second_least, rows[i].second_most);
        for (size_t k = 2; whole && k < rows[i].len; k++)
            whole = is_between(at[k], 0x80, 0xBF);
        if (whole)
            return rows[i].len;
    }
    return 0;
}

/* How many bytes the next letter, digit or sign of a word has; 0 where none stands there. */
static size_t sign_length(const char *text, size_t len, bool first)
{
    if (len == 0)
        return 0;
    if (is_letter(text[0]) || (!first && (is_digit(text[0]) || text[0] == '-' || text[0] == '_')))
        return 1;
    return beyond_ascii(text, len);
}

size_t word_length(const char *text, size_t len)
{
    size_t n = 0, more = sign_length(text, len, true);
    while (more > 0) {
        n += more;
        more = sign_length(text + n, len - n, false);
    }
    return n;
}

uint32_t label_of(const struct names *names, const char *word, size_t len)
{
    uint32_t label = PZ_LABEL_MOST;
    if (names->file == NULL || len == 0 || len > WORD_BYTES)
        return 0;
    while (label > 0 && (strlen(names->words[label]) != len || memcmp(names->words[label], word, len) != 0))
        label--;
    return label;
}

struct shown shown_label(const struct names *names, uint32_t label)
{
    struct shown s;
    const char *word = names->file != NULL && names->words[label][0] != '\0' ? names->words[label] : "label";
    snprintf(s.text, sizeof s.text, "%s %u", word, (unsigned)label);
    return s;
}

/* The label that these digits are; 0 where the library knows no such label. */
static uint32_t label_from(const char *digits, size_t len)
{
    char text[16];
    int n = len < 8 ? snprintf(text, sizeof text, "label %.*s", (int)len, digits) : 0;
    struct pz_written_reply w = pz_read_path((const uint8_t *)text, (size_t)n, NULL, 0);
    return w.number == PZ_BUFFER_SHORT ? (uint32_t)strtoul(digits, NULL, 10) : 0;
}

static size_t blanks(const char *at, size_t len)
{
    size_t n = 0;
    while (n < len && (at[n] == ' ' || at[n] == '\t' || at[n] == '\r'))
        n++;
    return n;
}

/* Puts a label and its word into the table; gives what is wrong with them, NULL where nothing is. */
static const char *put_word(struct names *names, uint32_t label, const char *word, size_t len)
{
    if (len > WORD_BYTES)
        return "the word has more than 40 bytes; shorten it";
    if (names->words[label][0] != '\0')
        return "this label has a word already; strike out one of the two lines";
    if (label_of(names, word, len) != 0)
        return "this word stands for another label already; give each label a word of its own";
    memcpy(names->words[label], word, len);
    names->words[label][len] = '\0';
    return NULL;
}

/* Takes one line; gives what is wrong with it, NULL where nothing is. */
static const char *take_line(struct names *names, const char *line, size_t len)
{
    size_t at = blanks(line, len), digits = 0, between, word;
    uint32_t label;
    if (at == len || line[0] == '#')
        return NULL;
    while (at + digits < len && is_digit(line[at + digits]))
        digits++;
    between = blanks(line + at + digits, len - at - digits);
    if (digits == 0 || between == 0)
        return "expected a label in digits, a blank, and a word, as in `20 alarm`";
    label = label_from(line + at, digits);
    if (label == 0)
        return "the label is not one of 1 to 999, in digits, the first not 0; correct it";
    at += digits + between;
    word = word_length(line + at, len - at);
    if (word == 0)
        return "expected a word behind the label: a letter, then letters, digits, - and _";
    if (blanks(line + at + word, len - at - word) != len - at - word)
        return "there is more behind the word; a line has one label and one word";
    return put_word(names, label, line + at, word);
}

static enum status take_lines(struct names *names, const char *text, size_t len)
{
    unsigned long line = 1;
    size_t at = 0;
    for (; at < len; line++) {
        const char *end = memchr(text + at, '\n', len - at), *wrong;
        size_t here = end == NULL ? len - at : (size_t)(end - (text + at));
        wrong = end != NULL ? take_line(names, text + at, here)
                            : "the line is cut off: see that the file is whole and that a line feed ends it";
        if (wrong != NULL) {
            say(names->file, "line %lu: %s", line, wrong);
            return SOME_REFUSED;
        }
        at += here + 1;
    }
    return ALL_ACCEPTED;
}

enum status read_names(struct names *names, const char *file)
{
    static uint8_t text[NAMES_BYTES + 1];
    size_t len;
    memset(names, 0, sizeof *names);
    names->file = file;
    if (file == NULL)
        return ALL_ACCEPTED;
    if (read_file(file, text, sizeof text, &len) != ALL_ACCEPTED)
        return cannot_read(file);
    if (len > NAMES_BYTES) {
        say(file, "has more than 65,536 bytes, and is no file with a label and a word on each line");
        return SOME_REFUSED;
    }
    return take_lines(names, (const char *)text, len);
}
