/* desk.h: what the files of polonezar-desk share.
 *
 * The tool decides nothing. Every verdict, number, place and printed record comes from a call of the library, and what
 * the library tests is not tested again: files are lent to it as they are. Only files that fail, words for labels and
 * the command line are the tool's own affair. */
#ifndef DESK_H
#define DESK_H

#include "polonezar.h"
#include <stdbool.h>
#include <stdio.h>

/* The exit status. The worst of what happened is given. */
enum status { ALL_ACCEPTED, SOME_REFUSED, CANNOT };

enum status worse(enum status a, enum status b);

/* ---- what is said on standard error (say.c) */

/* Says something; `about` is a file's name or what else is meant, NULL for nothing. */
void say(const char *about, const char *format, ...) __attribute__((format(printf, 2, 3)));

/* Says that a file could not be read or written, why (errno), and what to do; gives CANNOT. */
enum status cannot_read(const char *name);
enum status cannot_write(const char *name);

/* Says what a refusal means, where, and what to do; gives SOME_REFUSED. */
enum status refused(const char *about, uint32_t number, uint32_t place);

/* What to do about a number, its place put in. */
void say_what_to_do(uint32_t number, uint32_t place);

/* Prints a name so that it stays on its line: a byte that moves the cursor is shown as a question mark. */
void put_name(FILE *to, const char *name);

/* Sends what was printed on its way; gives CANNOT, having said so, where a part of it could not be printed. */
enum status printed(void);

/* ---- files (files.c) */

/* Reads a file, at most `most` bytes of it: who lends one byte more than is accepted need not read the rest of a file
 * that is too long. Gives ALL_ACCEPTED, or CANNOT with errno set. */
enum status read_file(const char *name, uint8_t *into, size_t most, size_t *len);

/* Whether a file may be written under this name: none has it, or it is to be replaced. Else it says why not. A command
 * asks before it does anything else. */
enum status may_write(const char *name, bool replace);

/* Writes a file, whole or not at all. Gives CANNOT, having said why, where it cannot: also where another file has got
 * the name since may_write was asked, and is not to be replaced. */
enum status write_file(const char *name, const void *from, size_t len, bool replace);

/* ---- words for labels (names.c) */

enum { WORD_BYTES = 40, NAMES_BYTES = 65536 };

/* A word for each label; empty where there is none. */
struct names {
    const char *file;                                   /* NULL: labels are numbers */
    char words[PZ_LABEL_MOST + 1][WORD_BYTES + 1];
};

/* Reads a names file; says what is wrong with it, and in which line. */
enum status read_names(struct names *names, const char *file);

/* The label that a word stands for; 0 where it stands for none. */
uint32_t label_of(const struct names *names, const char *word, size_t len);

/* How many bytes at the front of a text are one word of a names file: a letter, then letters, digits, - and _. All that
 * is beyond ASCII counts as letters. */
size_t word_length(const char *text, size_t len);

/* How many bytes the UTF-8 character beyond ASCII at the front of a text has; 0 where there is none. */
size_t beyond_ascii(const char *at, size_t len);

/* A label as it is shown: `alarm 20`, or `label 20` where it has no word. */
struct shown { char text[WORD_BYTES + 16]; };
struct shown shown_label(const struct names *names, uint32_t label);

/* ---- rules (rule.c, typed.c, table.c) */

/* A text as it was typed, and with numbers for the words of labels, as the library reads it. */
struct typed {
    const char *text;                                   /* NULL: the rule stands in a file of its own */
    size_t len;
    uint8_t plain[PZ_TEXT_BYTES + 1];                   /* one byte more than is accepted is enough to be refused */
    size_t plain_len;
    size_t from[PZ_TEXT_BYTES + 2];                     /* where in `text` each byte of `plain`, and its end, stand */
};

struct rule {
    const char *about;                                  /* what is at fault where it is refused */
    bool no_file;                                       /* it is taken as text because no file has that name */
    uint8_t bytes[PZ_RULE_BYTES + 1];
    size_t len;
    struct typed typed;
};

/* Gets a rule: from a file with text, where text_file is not NULL; else from `given`, which names a rule's file, or is
 * the text itself where no file has that name. Says why where it cannot, or where the text is refused; the bytes of
 * a rule's file are not looked at. */
enum status get_rule(struct rule *rule, const char *given, const char *text_file, const struct names *names);

/* Turns a typed text into the rule's bytes; says what is wrong with it, where, and what could stand there. */
enum status read_typed(struct rule *rule, const struct names *names);

/* A text above 1,024 bytes is refused; with words for labels more may be typed. No text above this is accepted. */
enum { TYPED_BYTES = 65536 };

/* Shows a typed text and marks under it: `marks` has a sign for each byte of the text, and a last one for its end. */
void show_marked(FILE *to, const struct typed *typed, const char *marks);

/* One entry of an accepted rule, in words. */
struct entry {
    char asks[160];                                     /* what it asks of an element */
    char uses[16];                                      /* the entries that it names, or `none` */
    bool ahead;                                         /* it looks ahead */
};

struct table {
    struct entry entries[PZ_RULE_ENTRIES];
    size_t count;
    bool ways;                                          /* an entry speaks of a way */
    bool ahead;                                         /* an entry looks ahead */
    char makers[4 * PZ_RULE_ENTRIES + 8];               /* which ones, as `entry 3` or `entries 3, 5` */
};

/* What an entry that speaks of a way means by it. */
extern const char way_words[];

/* Reads an accepted rule into its table. */
void read_table(struct table *table, const struct rule *rule, const struct names *names);

/* Marks, as show_marked takes them, the steps of a typed text that look ahead. */
void mark_ahead(const struct typed *typed, char *marks);

/* ---- reports (report.c) */

struct element {
    uint16_t label, level;
};

struct report {
    const char *name;
    uint8_t bytes[PZ_REPORT_BYTES + 1];
    size_t len;
    struct element elements[PZ_REPORT_ELEMENTS];        /* of an accepted report */
    uint32_t count;
};

/* Reads a report's file, and its elements where the library accepts it. Says why where it cannot or is refused; then
 * the line of a refusal, as the record has it, is on standard output too. */
enum status read_report(struct report *report, const char *name);

/* The elements of a report that the library has accepted. */
void read_elements(struct report *report, uint32_t count);

/* ---- the commands */

struct request {
    const char *names_file, *text_file, *out;
    bool replace;
    const char **given;                                 /* what is no option, the command aside */
    int count;
};

enum status judge(const struct request *request);
enum status rule(const struct request *request);
enum status show(const struct request *request);
enum status picture(const struct request *request);

#endif
