/* page.c: a text that grows in memory. */
#include "page.h"
#include <stdarg.h>
#include <stdlib.h>
#include <string.h>

/* Makes room for so many bytes more, and one for the zero that ends what vsnprintf writes. */
static bool has_room(struct page *p, size_t more)
{
    size_t room = p->room == 0 ? 65536 : p->room;
    char *larger;
    while (room - p->len <= more)
        room *= 2;
    if (room == p->room)
        return true;
    larger = p->lost ? NULL : realloc(p->at, room);
    if (larger == NULL) {
        p->lost = true;
        return false;
    }
    p->at = larger;
    p->room = room;
    return true;
}

void put(struct page *p, const char *format, ...)
{
    enum { MOST = 8192 };           /* no piece is longer, save those that put_escaped writes */
    va_list given;
    int len;
    if (!has_room(p, MOST))
        return;
    va_start(given, format);
    len = vsnprintf(p->at + p->len, MOST, format, given);
    va_end(given);
    if (len < 0 || len >= MOST)
        p->lost = true;
    else
        p->len += (size_t)len;
}

void put_escaped(struct page *p, const char *text, size_t len)
{
    for (size_t i = 0; i < len; i++) {
        if (text[i] == '&')
            put(p, "&amp;");
        else if (text[i] == '<')
            put(p, "&lt;");
        else if (text[i] == '>')
            put(p, "&gt;");
        else if (text[i] == '"')
            put(p, "&quot;");
        else
            put(p, "%c", (unsigned char)text[i] < ' ' || text[i] == 127 ? '?' : text[i]);
    }
}
