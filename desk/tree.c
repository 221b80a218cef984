/* tree.c: the drawing of a report's tree: a row for each element, further in by its level, and a line from each parent
 * to its children. A selected element has a filled diamond and the word, any other an empty ring, so that nobody has to
 * see colours. The rows stand in strips, so that paper can part them and a browser draws only what is seen. */
#include "page.h"
#include <inttypes.h>
#include <string.h>

enum { ROW = 24, ROWS = 8, LEFT = 16, SIGN = 7, GLYPH = 9, NARROW = 320 };

static const char line_colour[] = "#888", sign_colour[] = "#0b4f9e";

struct drawing {
    const struct report *report;
    const struct names *names;
    const uint64_t *marks;
    size_t last;
    uint16_t parents[PZ_REPORT_ELEMENTS], last_children[PZ_REPORT_ELEMENTS];
    int indent, width;
};

/* Each element's parent (its own number for the root) and last child (its own number where it has none). */
static void find_neighbours(struct drawing *d)
{
    uint16_t open[PZ_REPORT_LEVELS];
    for (uint32_t i = 0; i < d->report->count; i++) {
        uint16_t level = d->report->elements[i].level, parent = level > 0 ? open[level - 1] : (uint16_t)i;
        open[level] = (uint16_t)i;
        d->parents[i] = parent;
        d->last_children[i] = (uint16_t)i;
        d->last_children[parent] = (uint16_t)i;
    }
}

static bool is_selected(const struct drawing *d, uint32_t i)
{
    return d->marks[i] >> d->last & 1;
}

static int x_of(const struct drawing *d, uint32_t i)
{
    return LEFT + d->indent * d->report->elements[i].level;
}

/* So wide that every row has room, by a generous width of a letter. */
static void measure(struct drawing *d)
{
    int deepest = 0;
    for (uint32_t i = 0; i < d->report->count; i++)
        if (d->report->elements[i].level > deepest)
            deepest = d->report->elements[i].level;
    d->indent = deepest > 24 ? 12 : 24;
    d->width = 0;
    for (uint32_t i = 0; i < d->report->count; i++) {
        size_t letters = strlen(shown_label(d->names, d->report->elements[i].label).text) + 15;
        int right = x_of(d, i) + LEFT + GLYPH * (int)letters;
        if (right > d->width)
            d->width = right;
    }
}

void draw_selected(struct page *p, int x, int y)
{
    put(p, "<path d=\"M%d %dl%d %d %d %d %d %dz\" fill=\"%s\" stroke=\"#000\"/>", x, y - SIGN - 1, SIGN + 1, SIGN + 1,
        -SIGN - 1, SIGN + 1, -SIGN - 1, -SIGN - 1, sign_colour);
}

void draw_passed_over(struct page *p, int x, int y)
{
    put(p, "<circle cx=\"%d\" cy=\"%d\" r=\"%d\" fill=\"#fff\" stroke=\"#000\"/>", x, y, SIGN - 1);
}

/* The line from a parent down to its last child, as far as it runs through the rows of a strip. */
static void draw_down(struct page *p, const struct drawing *d, uint32_t i, uint32_t first, uint32_t end)
{
    uint32_t child = d->last_children[i];
    int from = i < first ? 0 : (int)(i - first) * ROW + ROW / 2;
    int to = child < end ? (int)(child - first) * ROW + ROW / 2 : (int)(end - first) * ROW;
    if (child > i && child >= first)
        put(p, "M%d %dV%d", x_of(d, i), from, to);
}

static void draw_lines(struct page *p, const struct drawing *d, uint32_t first, uint32_t end)
{
    put(p, "<path fill=\"none\" stroke=\"%s\" d=\"M0 0", line_colour);
    for (uint32_t i = first; i != d->parents[i]; i = d->parents[i])
        draw_down(p, d, d->parents[i], first, end);
    for (uint32_t i = first; i < end; i++) {
        draw_down(p, d, i, first, end);
        if (d->parents[i] != i)
            put(p, "M%d %dH%d", x_of(d, d->parents[i]), (int)(i - first) * ROW + ROW / 2, x_of(d, i));
    }
    put(p, "\"/>\n");
}

/* One element. Its word of marks is there for the buttons, and so is the frame, which they let be seen. */
static void draw_element(struct page *p, const struct drawing *d, uint32_t i, int y)
{
    const struct element *e = &d->report->elements[i];
    struct shown label = shown_label(d->names, e->label);
    bool selected = is_selected(d, i);
    int x = x_of(d, i);
    put(p, "<g class=\"element\" data-marks=\"%" PRIx64 "\"><title>element %u, label %u, level %u, %s</title>",
        d->marks[i], (unsigned)i, (unsigned)e->label, (unsigned)e->level, selected ? "selected" : "passed over");
    put(p, "<rect class=\"frame\" x=\"%d\" y=\"%d\" width=\"%d\" height=\"%d\" rx=\"4\" fill=\"#fff3c4\" "
        "stroke=\"#000\" stroke-dasharray=\"4 2\" visibility=\"hidden\"/>", x - SIGN - 4, y - ROW / 2 + 1,
        SIGN + 4 + LEFT + GLYPH * (int)(strlen(label.text) + (selected ? 14 : 5)), ROW - 2);
    if (selected)
        draw_selected(p, x, y);
    else
        draw_passed_over(p, x, y);
    put(p, "<text x=\"%d\" y=\"%d\"%s>%u %s%s</text></g>\n", x + LEFT, y + 5, selected ? " font-weight=\"bold\"" : "",
        (unsigned)i, label.text, selected ? " selected" : "");
}

static void draw_strip(struct page *p, const struct drawing *d, uint32_t first, uint32_t end)
{
    int height = (int)(end - first) * ROW;
    put(p, "<svg xmlns=\"http://www.w3.org/2000/svg\" width=\"%d\" height=\"%d\" viewBox=\"0 0 %d %d\" "
        "font-family=\"sans-serif\" font-size=\"14\" style=\"background:#fff\">\n", d->width, height, d->width, height);
    draw_lines(p, d, first, end);
    for (uint32_t i = first; i < end; i++)
        draw_element(p, d, i, (int)(i - first) * ROW + ROW / 2);
    put(p, "</svg>\n");
}

void draw_tree(struct page *p, const struct report *report, const struct names *names, const uint64_t *marks,
               size_t last)
{
    static struct drawing d;
    d.report = report;
    d.names = names;
    d.marks = marks;
    d.last = last;
    find_neighbours(&d);
    measure(&d);
    put(p, "<div class=\"tree%s\">\n", d.width <= NARROW ? " narrow" : "");
    for (uint32_t first = 0; first < report->count; first += ROWS)
        draw_strip(p, &d, first, first + ROWS < report->count ? first + ROWS : report->count);
    put(p, "</div>\n");
}
