/* report.c: a report's file, and its elements. The bytes are walked and not tested: pz_read_report has taken them. */
#include "desk.h"

void read_elements(struct report *r, uint32_t count)
{
    uint16_t level = 0;
    uint32_t opened = 0;
    for (size_t at = 0; opened < count;) {
        const uint8_t *record = r->bytes + at;
        if (record[2] == 1) {
            r->elements[opened].label = (uint16_t)(record[4] + 256u * record[5]);
            r->elements[opened++].level = level++;
            at += 6;
        } else {
            level--;
            at += 4;
        }
    }
    r->count = count;
}

enum status read_report(struct report *r, const char *name)
{
    struct pz_report_reply reply;
    r->name = name;
    if (read_file(name, r->bytes, sizeof r->bytes, &r->len) != ALL_ACCEPTED)
        return cannot_read(name);
    reply = pz_read_report(r->bytes, r->len);
    if (reply.number != PZ_ACCEPTED) {
        printf("refused %u at %u\n", (unsigned)reply.number, (unsigned)reply.place);
        return worse(refused(name, reply.number, reply.place), printed());
    }
    read_elements(r, reply.elements);
    return ALL_ACCEPTED;
}
