/* save.c: the console's files.
 *
 * A save file is four numbers of four bytes, the low byte first: seen, selected, passed over, and the rule's length;
 * then the rule; then the state, to the end of the file. Numbers are put together byte by byte, so that a file goes
 * on under any machine. The state comes last and has no length of its own: bytes that are too many are too many in the
 * state, and the library says so. A file that lacks bytes was cut short, and nothing is read out of it. */
#define _POSIX_C_SOURCE 200809L
#include "console.h"
#include <errno.h>
#include <stdio.h>
#include <stdlib.h>
#include <string.h>
#include <unistd.h>

enum { NUMBERS = 4, HEAD = 4 * NUMBERS };

bool cannot(const char *what, const char *name)
{
    fprintf(stderr, "console: cannot %s %s: %s\n", what, name, strerror(errno));
    return false;
}

/* Memory of another size with the same contents; where there is none, the old is freed. */
static uint8_t *resized(uint8_t *old, size_t room)
{
    uint8_t *larger = realloc(old, room);
    if (larger == NULL)
        free(old);
    return larger;
}

bool read_whole(const char *name, struct bytes *into)
{
    size_t room = 4096, got;
    bool whole;
    int why;
    FILE *file = fopen(name, "rb");
    if (file == NULL)
        return false;
    into->len = 0;
    into->at = resized(NULL, room);
    while (into->at != NULL && (got = fread(into->at + into->len, 1, room - into->len, file)) > 0) {
        into->len += got;
        if (into->len == room)
            into->at = resized(into->at, room *= 2);
    }
    why = errno;
    whole = into->at != NULL && !ferror(file);
    fclose(file);
    errno = why;
    return whole;
}

static void put_number(uint8_t *at, uint32_t number)
{
    for (int i = 0; i < 4; i++)
        at[i] = (uint8_t)(number >> 8 * i);
}

static uint32_t number_at(const uint8_t *at)
{
    uint32_t number = 0;
    for (int i = 0; i < 4; i++)
        number |= (uint32_t)at[i] << 8 * i;
    return number;
}

/* Writes all that is kept, and sees it on the disk. A tag was accepted with this rule, so its length is small. */
static bool write_kept(const struct kept *kept, FILE *file)
{
    uint8_t head[HEAD];
    put_number(head, kept->tally.seen);
    put_number(head + 4, kept->tally.selected);
    put_number(head + 8, kept->tally.passed_over);
    put_number(head + 12, (uint32_t)kept->rule.len);
    return fwrite(head, 1, HEAD, file) == HEAD
        && fwrite(kept->rule.at, 1, kept->rule.len, file) == kept->rule.len
        && fwrite(kept->state.at, 1, kept->state.len, file) == kept->state.len
        && fflush(file) == 0
        && fsync(fileno(file)) == 0;
}

/* The new file is whole on the disk before it takes the old one's name: whenever the console is killed, the name
 * stands for one of the two, and never for a part. Should a power cut undo the renaming, the older file is back,
 * and going on from it repeats lines of the record, but loses none. */
static bool replace(const struct kept *kept, const char *name, const char *beside)
{
    FILE *file = fopen(beside, "wb");
    if (file == NULL)
        return cannot("write", beside);
    if (!write_kept(kept, file)) {
        cannot("write", beside);
        fclose(file);
        return false;
    }
    if (fclose(file) != 0)
        return cannot("write", beside);
    if (rename(beside, name) != 0)
        return cannot("replace", name);
    return true;
}

bool save(const struct kept *kept, const char *name)
{
    static const char ending[] = ".new";
    size_t len = strlen(name);
    bool saved;
    char *beside = malloc(len + sizeof ending);
    if (beside == NULL)
        return cannot("write", name);
    memcpy(beside, name, len);
    memcpy(beside + len, ending, sizeof ending);
    saved = replace(kept, name, beside);
    free(beside);
    return saved;
}

/* Says why a save file is not taken. */
static enum restored not_taken(const char *name, const char *why)
{
    fprintf(stderr, "console: %s %s\n", name, why);
    return CANNOT_RESTORE;
}

/* Parts a save file into tally, rule and state. The rule is compared first, as far as it is there: only of a file that
 * was made with this rule is it known how many bytes it has to have. */
static enum restored part(struct kept *kept, struct bytes *file, const char *name)
{
    static const char cut[] = "was cut short: put it aside and begin the report again";
    size_t left, of_rule;
    if (file->len < HEAD)
        return not_taken(name, cut);
    left = file->len - HEAD;
    of_rule = left < kept->rule.len ? left : kept->rule.len;
    /* The words of a state are marks of the entries of one rule; under another they mean something else, and nothing
     * in the state's bytes tells. This is why the file holds the rule. */
    if (number_at(file->at + 12) != kept->rule.len || memcmp(file->at + HEAD, kept->rule.at, of_rule) != 0)
        return not_taken(name, "was made with another rule, or is damaged: go on with the rule that it was made with, "
                               "or begin with another save file");
    if (left - of_rule < PZ_STATE_BYTES)
        return not_taken(name, cut);
    kept->tally.seen = number_at(file->at);
    kept->tally.selected = number_at(file->at + 4);
    kept->tally.passed_over = number_at(file->at + 8);
    file->len = left - of_rule;
    memmove(file->at, file->at + HEAD + of_rule, file->len);
    kept->state = *file;
    return RESTORED;
}

enum restored restore(struct kept *kept, const char *name)
{
    struct bytes file = {NULL, 0};
    enum restored found = CANNOT_RESTORE;
    if (read_whole(name, &file))
        found = part(kept, &file, name);
    else if (errno == ENOENT)
        found = NOTHING_SAVED;
    else
        cannot("read", name);
    if (found != RESTORED)
        free(file.at);
    return found;
}
