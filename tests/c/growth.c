/* A typed rule of a form, read once. Run under a counter of instructions this shows what reading costs, without a clock.
 * growth FORM PARTS ROOM prints the text's bytes, the answer's number and how many bytes of rule were written. */
#include "polonezar.h"
#include <stdio.h>
#include <stdlib.h>
#include <string.h>

static char text[PZ_TEXT_BYTES];
static size_t size;

static void add(const char *more)
{
    size_t n = strlen(more);
    if (n > sizeof text - size) exit(2);
    memcpy(text + size, more, n);
    size += n;
}

static void times(size_t n, const char *more)
{
    while (n-- > 0) add(more);
}

/* A form: what stands first, an opening so many times, what stands inmost, and a closing as often. */
static const struct form {
    const char *name, *first, *opening, *inmost, *closing;
} forms[] = {
    {"steps", "<", "parent/", "left>", ""},
    {"excepted", "", "not ", "true", ""},
    {"paths", "", "<?", "true", ">"},
    {"lefts", "", "(", "<left>", "or true)"},
    {"rights", "", "(true or", "<left>", ")"},
    {"conditions", "", "<(left?", "<left>", ")*>"},
};

int main(int argc, char **argv)
{
    static uint8_t rule[PZ_RULE_BYTES];
    for (const struct form *f = forms; argc == 4 && f < forms + sizeof forms / sizeof *forms; f++) {
        struct pz_written_reply answer;
        if (strcmp(f->name, argv[1]) != 0) continue;
        add(f->first);
        times((size_t)atoi(argv[2]), f->opening);
        add(f->inmost);
        times((size_t)atoi(argv[2]), f->closing);
        answer = pz_read_path((const uint8_t *)text, size, rule, (size_t)atoi(argv[3]));
        printf("%zu %u %u\n", size, (unsigned)answer.number, (unsigned)answer.written);
        return 0;
    }
    return 2;
}
