/* console.h: what the files of the console share. */
#ifndef CONSOLE_H
#define CONSOLE_H

#include "polonezar.h"
#include <stdbool.h>

/* Bytes in memory that malloc gave. */
struct bytes {
    uint8_t *at;
    size_t len;
};

/* What the next tag needs, and what a save file holds. The rule and the state are lent to the library with the
 * lengths that their files gave them: whether they are any good is for the library to say. */
struct kept {
    struct pz_counts tally;
    struct bytes rule;
    struct bytes state;
};

enum restored { NOTHING_SAVED, RESTORED, CANNOT_RESTORE };

/* What a number means at a desk, and what to do. */
const char *words_of(uint32_t number);

/* Says on standard error what could not be done with a file, and why (errno); gives false. */
bool cannot(const char *what, const char *name);

/* Reads a whole file, however long it is. Gives false, with errno set, where it cannot be read. */
bool read_whole(const char *name, struct bytes *into);

/* Turns a rule that was typed as text into the rule's bytes. Gives false, having said what is wrong with the text,
 * where, and what to do, where it is refused. */
bool read_typed(const char *text, struct bytes *into);

/* Puts what is kept in place of the save file. Gives false, having said why, where it cannot. */
bool save(const struct kept *kept, const char *name);

/* Brings tally and state back from the save file, if there is one. The rule has been read already: a save file that
 * was made with another one is not taken, and neither is one that was cut short. Where the answer is CANNOT_RESTORE,
 * it has said why. */
enum restored restore(struct kept *kept, const char *name);

#endif
