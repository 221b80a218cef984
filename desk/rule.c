/* rule.c: where a rule comes from, and the command that shows it. */
#define _POSIX_C_SOURCE 200809L
#include "desk.h"
#include <errno.h>
#include <string.h>
#include <sys/stat.h>

/* An editor ends a file with a line feed, which is no part of the text. */
static size_t without_line_end(const uint8_t *text, size_t len)
{
    if (len > 0 && text[len - 1] == '\n')
        len -= len > 1 && text[len - 2] == '\r' ? 2 : 1;
    return len;
}

static enum status get_text_file(struct rule *rule, const char *file, const struct names *names)
{
    static uint8_t text[TYPED_BYTES];
    size_t len;
    if (read_file(file, text, sizeof text, &len) != ALL_ACCEPTED)
        return cannot_read(file);
    rule->about = file;
    rule->typed.text = (const char *)text;
    rule->typed.len = without_line_end(text, len);
    return read_typed(rule, names);
}

enum status get_rule(struct rule *rule, const char *given, const char *text_file, const struct names *names)
{
    struct stat found;
    rule->typed.text = NULL;
    rule->no_file = false;
    if (text_file != NULL)
        return get_text_file(rule, text_file, names);
    if (stat(given, &found) == 0) {
        rule->about = given;
        if (read_file(given, rule->bytes, sizeof rule->bytes, &rule->len) != ALL_ACCEPTED)
            return cannot_read(given);
        return ALL_ACCEPTED;
    }
    if (errno != ENOENT && errno != ENOTDIR && errno != ENAMETOOLONG)
        return cannot_read(given);
    rule->about = "the rule's text";
    rule->no_file = true;
    rule->typed.text = given;
    rule->typed.len = strlen(given);
    return read_typed(rule, names);
}

/* ---- the command */

static void print_table(const struct table *t)
{
    printf("entry  uses    looks  it asks ..\n");
    for (size_t i = 0; i < t->count; i++)
        printf("%-5zu  %-6s  %-5s  %s\n", i, t->entries[i].uses, t->entries[i].ahead ? "ahead" : "back",
               t->entries[i].asks);
    printf("Entry %zu, the last, decides what is selected.\n", t->count - 1);
    if (t->ways)
        printf("%s\n", way_words);
}

static void print_looks(const struct table *t, const struct typed *typed)
{
    static char marks[TYPED_BYTES + 1];
    if (!t->ahead) {
        printf("The rule looks back: each element has its verdict at once, when it opens.\n");
        return;
    }
    printf("The rule looks ahead, by %s: its verdicts need the whole report.\n", t->makers);
    if (typed->text == NULL)
        return;
    mark_ahead(typed, marks);
    show_marked(stdout, typed, marks);
}

static void print_typed(const struct typed *typed)
{
    printf("rule: ");
    fwrite(typed->text, 1, typed->len, stdout);
    printf("\n");
}

enum status rule(const struct request *request)
{
    static struct names names;
    static struct rule rule;
    static struct table table;
    struct pz_rule_reply reply;
    enum status status = request->out == NULL ? ALL_ACCEPTED : may_write(request->out, request->replace);
    if (status == ALL_ACCEPTED)
        status = read_names(&names, request->names_file);
    if (status == ALL_ACCEPTED)
        status = get_rule(&rule, request->given[0], request->text_file, &names);
    if (status != ALL_ACCEPTED)
        return status;
    reply = pz_read_rule(rule.bytes, rule.len);
    if (reply.number != PZ_ACCEPTED)
        return refused(rule.about, reply.number, reply.place);
    read_table(&table, &rule, &names);
    if (rule.typed.text != NULL)
        print_typed(&rule.typed);
    print_table(&table);
    print_looks(&table, &rule.typed);
    if (request->out != NULL) {
        status = write_file(request->out, rule.bytes, rule.len, request->replace);
        if (status != ALL_ACCEPTED)
            return status;
        printf("The rule's %zu bytes are in ", rule.len);
        put_name(stdout, request->out);
        printf("\n");
    }
    return printed();
}
