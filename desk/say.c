/* say.c: what the tool says on standard error. What a refusal means and what to do about it stands in words.h, which
 * ./numbers writes from numbers.txt. */
#include "desk.h"
#include "words.h"
#include <errno.h>
#include <stdarg.h>
#include <string.h>

enum status worse(enum status a, enum status b)
{
    return a > b ? a : b;
}

void put_name(FILE *to, const char *name)
{
    for (; *name != '\0'; name++)
        fputc((unsigned char)*name < ' ' || *name == 127 ? '?' : *name, to);
}

static void begin(const char *about)
{
    fflush(stdout);                             /* where both go to one place, what comes first stands first */
    fprintf(stderr, "polonezar-desk: ");
    if (about != NULL) {
        put_name(stderr, about);
        fprintf(stderr, ": ");
    }
}

void say(const char *about, const char *format, ...)
{
    va_list given;
    va_start(given, format);
    begin(about);
    vfprintf(stderr, format, given);
    fputc('\n', stderr);
    va_end(given);
}

static enum status cannot(const char *what, const char *name, const char *todo)
{
    int why = errno;
    begin(NULL);
    fprintf(stderr, "cannot %s ", what);
    put_name(stderr, name);
    fprintf(stderr, ": %s\n    %s\n", strerror(why), todo);
    return CANNOT;
}

enum status cannot_read(const char *name)
{
    return cannot("read", name, "see that the name is right, and that it is a file which you may read");
}

enum status cannot_write(const char *name)
{
    return cannot("write", name, "all is as it was; see that its folder is there and has room, and that you may write");
}

/* Prints a text of the table, where P stands for the place. */
static void put_words(const char *text, uint32_t place)
{
    const char *at = text;
    for (; *at != '\0'; at++) {
        bool alone = *at == 'P' && (at == text || at[-1] == ' ') && strchr(" ;,", at[1]) != NULL;
        if (alone)
            fprintf(stderr, "byte %u", (unsigned)place);
        else
            fputc(*at, stderr);
    }
}

static const struct words *words_of(uint32_t number)
{
    static const struct words none = {"this tool has no words for it", "ask those who gave you the tool"};
    return number < sizeof words / sizeof words[0] && words[number].is != NULL ? &words[number] : &none;
}

void say_what_to_do(uint32_t number, uint32_t place)
{
    fprintf(stderr, "    ");
    put_words(words_of(number)->todo, place);
    fputc('\n', stderr);
}

/* Where the whole is meant, the place is 0 and says nothing. */
static bool has_place(uint32_t number)
{
    return number != PZ_RULE_SIZE && number != PZ_REPORT_SIZE && number < PZ_BUFFER_SHORT;
}

enum status refused(const char *about, uint32_t number, uint32_t place)
{
    begin(about);
    fprintf(stderr, "refused %u", (unsigned)number);
    if (has_place(number))
        fprintf(stderr, " at byte %u", (unsigned)place);
    fprintf(stderr, ": ");
    put_words(words_of(number)->is, place);
    fputc('\n', stderr);
    say_what_to_do(number, place);
    return SOME_REFUSED;
}

enum status printed(void)
{
    if (fflush(stdout) == 0 && !ferror(stdout))
        return ALL_ACCEPTED;
    return cannot("write", "what was to be printed", "it is not whole, and nothing may be decided by it; make room");
}
