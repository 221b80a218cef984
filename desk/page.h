/* page.h: a text that grows in memory, and the drawing of a tree in it. */
#ifndef PAGE_H
#define PAGE_H

#include "desk.h"

struct page {
    char *at;                       /* from malloc */
    size_t len, room;
    bool lost;                      /* there was no memory for all of it */
};

void put(struct page *page, const char *format, ...) __attribute__((format(printf, 2, 3)));

/* Puts a text so that a browser shows it as it is. */
void put_escaped(struct page *page, const char *text, size_t len);

/* Draws the tree of a report in strips, each an SVG that stands by itself, so that paper can part them. `marks` are
 * the words that pz_evaluate wrote, and `last` is the entry that decides. */
void draw_tree(struct page *page, const struct report *report, const struct names *names, const uint64_t *marks,
               size_t last);

/* The two signs of the drawing. */
void draw_selected(struct page *page, int x, int y);
void draw_passed_over(struct page *page, int x, int y);

#endif
