/* table.c: an accepted rule as a table in words. Its bytes are walked and not tested: pz_read_rule has taken them.
 * Whether an entry looks ahead is asked of pz_open. */
#include "desk.h"
#include <string.h>

const char way_words[] = "On the way: at every element before the one that is reached, the first one too; "
                         "a way may have no step.";

/* What each kind asks; A and B stand for the entries that it names, L for its label. */
static const char *const kinds[] = {
    [1] = "nothing: it holds everywhere",
    [2] = "is it L?",
    [3] = "does entry A not hold?",
    [4] = "does entry A or entry B hold?",
    [5] = "do entry A and entry B hold?",
    [6] = "is there a child where entry A holds?",
    [7] = "is there a parent, and does entry A hold at it?",
    [8] = "is there a next sibling, and does entry A hold at it?",
    [9] = "is there a previous sibling, and does entry A hold at it?",
    [10] = "does a way down reach entry B, while entry A holds on the way?",
    [11] = "does a way up reach entry B, while entry A holds on the way?",
    [12] = "does a way to later siblings reach entry B, while entry A holds on the way?",
    [13] = "does a way to earlier siblings reach entry B, while entry A holds on the way?",
    [14] = "are there children, and does entry A hold at each?",
};

static const char *words_of(uint32_t kind)
{
    bool known = kind < sizeof kinds / sizeof kinds[0] && kinds[kind] != NULL;
    return known ? kinds[kind] : "what this tool has no words for";
}

static uint32_t number_at(const uint8_t *at)
{
    return at[0] + 256u * at[1];
}

static void put_asks(struct entry *e, uint32_t kind, const uint8_t *body, const struct names *names)
{
    size_t len = 0;
    for (const char *at = words_of(kind); *at != '\0'; at++) {
        char *to = e->asks + len;
        size_t room = sizeof e->asks - len;
        if (*at == 'A' || *at == 'B')
            len += (size_t)snprintf(to, room, "%u", (unsigned)number_at(body + (*at == 'B' ? 2 : 0)));
        else if (*at == 'L')
            len += (size_t)snprintf(to, room, "%s", shown_label(names, number_at(body)).text);
        else
            len += (size_t)snprintf(to, room, "%c", *at);
    }
}

static void put_uses(struct entry *e, uint32_t kind, const uint8_t *body)
{
    if (strchr(words_of(kind), 'B') != NULL)
        snprintf(e->uses, sizeof e->uses, "%u, %u", (unsigned)number_at(body), (unsigned)number_at(body + 2));
    else if (strchr(words_of(kind), 'A') != NULL)
        snprintf(e->uses, sizeof e->uses, "%u", (unsigned)number_at(body));
    else
        snprintf(e->uses, sizeof e->uses, "none");
}

/* Whether one entry looks ahead: asked of pz_open, with a fresh state and with a rule that has entries of kind 1 alone
 * before it, which look back. Label 0 opens nothing. */
static bool looks_ahead(size_t before, const uint8_t *record, size_t len)
{
    static const uint8_t always[] = {2, 0, 1, 0};
    uint8_t rule[PZ_RULE_BYTES], state[PZ_STATE_BYTES];
    for (size_t i = 0; i < before; i++)
        memcpy(rule + sizeof always * i, always, sizeof always);
    memcpy(rule + sizeof always * before, record, len);
    pz_start(state, sizeof state);
    return pz_open(rule, sizeof always * before + len, state, sizeof state, 0).number == PZ_RULE_AHEAD;
}

static void put_makers(struct table *t)
{
    size_t len = 0, found = 0;
    for (size_t i = 0; i < t->count; i++)
        found += t->entries[i].ahead;
    t->ahead = found > 0;
    len = (size_t)snprintf(t->makers, sizeof t->makers, found == 1 ? "entry" : "entries");
    for (size_t i = 0, said = 0; i < t->count; i++)
        if (t->entries[i].ahead)
            len += (size_t)snprintf(t->makers + len, sizeof t->makers - len, "%s%zu", said++ == 0 ? " " : ", ", i);
}

void read_table(struct table *t, const struct rule *rule, const struct names *names)
{
    t->count = 0;
    t->ways = false;
    for (size_t at = 0; at < rule->len; t->count++) {
        const uint8_t *record = rule->bytes + at;
        size_t len = 2 + number_at(record);
        uint32_t kind = number_at(record + 2);
        struct entry *e = &t->entries[t->count];
        put_asks(e, kind, record + 4, names);
        put_uses(e, kind, record + 4);
        e->ahead = looks_ahead(t->count, record, len);
        t->ways = t->ways || strstr(words_of(kind), " way ") != NULL;
        at += len;
    }
    put_makers(t);
}
