/* picture.c: one page that needs nothing else: what a rule selects in a report. The marks are those that pz_evaluate
 * wrote. The verdicts are drawn without scripts; a script shows where an entry holds. */
#include "page.h"
#include <stdlib.h>
#include <string.h>

static const char style[] =
    ":root{color-scheme:light}\n"
    "body{font:16px/1.4 sans-serif;color:#000;background:#fff;margin:1.5em}\n"
    "h1{font-size:1.4em;overflow-wrap:anywhere}h2{font-size:1.1em}\n"
    "pre{font-size:1.05em;white-space:pre-wrap;overflow-wrap:anywhere;border:1px solid #888;padding:.5em}\n"
    "table{border-collapse:collapse}\n"
    "th,td{border:1px solid #888;padding:.15em .5em;text-align:left;vertical-align:top}\n"
    "tr{break-inside:avoid}\n"
    ".key svg{vertical-align:middle}\n"
    ".bar{position:sticky;top:0;background:#fff;border-bottom:1px solid #888;padding:.4em 0}\n"
    ".bar button{font:inherit;min-width:2.2em;margin:.1em;border:1px solid #000;border-radius:.3em}\n"
    ".bar button{background:#fff;color:#000}\n"
    ".bar button[aria-pressed=true]{background:#000;color:#fff}\n"
    ".tree{overflow-x:auto}.tree svg{display:block;break-inside:avoid}\n"
    ".shown .frame{visibility:visible}\n"
    "@media screen{.tree svg{content-visibility:auto}}\n"
    "@media print{body{margin:0}.bar{display:none}.tree{overflow:visible}.tree.narrow{columns:2}\n"
    ".tree svg{max-width:100%;height:auto}}\n";

/* Sees in each element's word whether the pressed button's entry holds there; pressed again, it hides the frames. */
static const char script[] =
    "(function () {\n"
    "  var bar = document.querySelector('.bar'), said = document.querySelector('.said');\n"
    "  var buttons = bar.querySelectorAll('button'), elements = document.querySelectorAll('.element');\n"
    "  function holds(marks, entry) {\n"
    "    var at = marks.length - 1 - (entry >> 2);\n"
    "    return at >= 0 && (parseInt(marks.charAt(at), 16) >> (entry & 3) & 1) === 1;\n"
    "  }\n"
    "  function press(button) {\n"
    "    var on = button.getAttribute('aria-pressed') === 'false', entry = +button.dataset.entry, count = 0, i, here;\n"
    "    for (i = 0; i < buttons.length; i++)\n"
    "      buttons[i].setAttribute('aria-pressed', on && buttons[i] === button ? 'true' : 'false');\n"
    "    for (i = 0; i < elements.length; i++) {\n"
    "      here = on && holds(elements[i].dataset.marks, entry);\n"
    "      elements[i].classList.toggle('shown', here);\n"
    "      if (here) count++;\n"
    "    }\n"
    "    said.textContent = on ? 'Entry ' + entry + ' holds at ' + count + ' of ' + elements.length +\n"
    "      ', those in a dashed frame: ' + button.title : '';\n"
    "  }\n"
    "  for (var i = 0; i < buttons.length; i++)\n"
    "    buttons[i].addEventListener('click', function () { press(this); });\n"
    "  bar.hidden = false;\n"
    "})();\n";

struct judged {
    struct names names;
    struct rule rule;
    struct table table;
    struct report report;
    uint64_t marks[PZ_REPORT_ELEMENTS];
    struct pz_evaluation_reply reply;
};

static void put_text(struct page *p, const char *text)
{
    put_escaped(p, text, strlen(text));
}

static void put_head(struct page *p, const struct judged *j)
{
    put(p, "<!DOCTYPE html>\n<html lang=\"en\">\n<head>\n<meta charset=\"utf-8\">\n"
        "<meta name=\"viewport\" content=\"width=device-width\">\n<title>selected %u of %u: ",
        (unsigned)j->reply.selected, (unsigned)j->reply.elements);
    put_text(p, j->report.name);
    put(p, "</title>\n<style>\n%s</style>\n</head>\n<body>\n<h1>Report ", style);
    put_text(p, j->report.name);
    put(p, "</h1>\n<p class=\"counts\"><b>selected %u of %u</b></p>\n", (unsigned)j->reply.selected,
        (unsigned)j->reply.elements);
}

static void put_sign(struct page *p, void (*draw)(struct page *page, int x, int y), const char *words)
{
    put(p, "<svg width=\"24\" height=\"24\" aria-hidden=\"true\">");
    draw(p, 12, 12);
    put(p, "</svg> %s", words);
}

static void put_key(struct page *p)
{
    put(p, "<p class=\"key\">");
    put_sign(p, draw_selected, "selected &nbsp; ");
    put_sign(p, draw_passed_over, "passed over &nbsp; Elements have their numbers in front.</p>\n");
}

/* At how many elements an entry holds, by the marks. */
static unsigned holds_at(const struct judged *j, size_t entry)
{
    unsigned count = 0;
    for (uint32_t i = 0; i < j->reply.elements; i++)
        count += j->marks[i] >> entry & 1;
    return count;
}

static void put_rule(struct page *p, const struct judged *j)
{
    const struct table *t = &j->table;
    put(p, "<h2>Rule</h2>\n");
    if (j->rule.typed.text != NULL) {
        put(p, "<pre class=\"typed\">");
        put_escaped(p, j->rule.typed.text, j->rule.typed.len);
        put(p, "</pre>\n");
    } else {
        put(p, "<p>From the file ");
        put_text(p, j->rule.about);
        put(p, "</p>\n");
    }
    put(p, "<table>\n<tr><th>entry<th>it asks<th>uses<th>looks<th>holds at\n");
    for (size_t i = 0; i < t->count; i++) {
        put(p, "<tr><td>%zu<td>", i);
        put_text(p, t->entries[i].asks);
        put(p, "<td>%s<td>%s<td>%u of %u\n", t->entries[i].uses, t->entries[i].ahead ? "ahead" : "back", holds_at(j, i),
            (unsigned)j->reply.elements);
    }
    put(p, "</table>\n<p>Entry %zu, the last, decides what is selected.", t->count - 1);
    put(p, "%s%s</p>\n", t->ways ? " " : "", t->ways ? way_words : "");
    if (t->ahead)
        put(p, "<p>The rule looks ahead, by %s: its verdicts need the whole report.</p>\n", t->makers);
    else
        put(p, "<p>The rule looks back: each element has its verdict at once, when it opens.</p>\n");
}

static void put_buttons(struct page *p, const struct judged *j)
{
    put(p, "<div class=\"bar\" hidden>Where does an entry hold?\n");
    for (size_t i = 0; i < j->table.count; i++) {
        put(p, "<button type=\"button\" aria-pressed=\"false\" data-entry=\"%zu\" title=\"", i);
        put_text(p, j->table.entries[i].asks);
        put(p, "\">%zu</button>\n", i);
    }
    put(p, "<div class=\"said\" role=\"status\"></div></div>\n");
}

static void put_page(struct page *p, const struct judged *j)
{
    put_head(p, j);
    put_rule(p, j);
    put(p, "<h2>Tree</h2>\n");
    put_key(p);
    put_buttons(p, j);
    draw_tree(p, &j->report, &j->names, j->marks, j->table.count - 1);
    put(p, "<script>\n%s</script>\n</body>\n</html>\n", script);
}

/* Lends rule and report to the library; a refusal has its line, as the record has it. */
static enum status evaluate(struct judged *j, const char *name)
{
    struct report *r = &j->report;
    r->name = name;
    if (read_file(name, r->bytes, sizeof r->bytes, &r->len) != ALL_ACCEPTED)
        return cannot_read(name);
    j->reply = pz_evaluate(j->rule.bytes, j->rule.len, r->bytes, r->len, j->marks, PZ_REPORT_ELEMENTS);
    if (j->reply.number != PZ_ACCEPTED) {
        printf("refused %u at %u\n", (unsigned)j->reply.number, (unsigned)j->reply.place);
        refused(j->reply.number <= PZ_RULE_FULL ? j->rule.about : name, j->reply.number, j->reply.place);
        return worse(SOME_REFUSED, printed());
    }
    read_elements(r, j->reply.elements);
    read_table(&j->table, &j->rule, &j->names);
    return ALL_ACCEPTED;
}

static enum status write_page(const struct judged *j, const struct request *request)
{
    struct page page = {NULL, 0, 0, false};
    enum status status = CANNOT;
    put_page(&page, j);
    if (page.lost)
        say(request->out, "is not written: there is too little memory for the page");
    else
        status = write_file(request->out, page.at, page.len, request->replace);
    free(page.at);
    if (status != ALL_ACCEPTED)
        return status;
    printf("selected %u of %u; the page is ", (unsigned)j->reply.selected, (unsigned)j->reply.elements);
    put_name(stdout, request->out);
    printf("\n");
    return printed();
}

enum status picture(const struct request *request)
{
    static struct judged j;
    int rules = request->text_file == NULL ? 1 : 0;
    enum status status = may_write(request->out, request->replace);
    if (status == ALL_ACCEPTED)
        status = read_names(&j.names, request->names_file);
    if (status == ALL_ACCEPTED)
        status = get_rule(&j.rule, request->given[0], request->text_file, &j.names);
    if (status == ALL_ACCEPTED)
        status = evaluate(&j, request->given[rules]);
    return status == ALL_ACCEPTED ? write_page(&j, request) : status;
}
