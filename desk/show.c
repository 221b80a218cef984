/* show.c: the tree of a report, a line for each element. */
#include "desk.h"

enum status show(const struct request *request)
{
    static struct names names;
    static struct report report;
    enum status status = read_names(&names, request->names_file);
    int wide;
    if (status == ALL_ACCEPTED)
        status = read_report(&report, request->given[0]);
    if (status != ALL_ACCEPTED)
        return status;
    wide = snprintf(NULL, 0, "%u", (unsigned)report.count - 1);
    for (uint32_t i = 0; i < report.count; i++)
        printf("%*u  %*s%s\n", wide, (unsigned)i, 4 * report.elements[i].level, "",
               shown_label(&names, report.elements[i].label).text);
    return printed();
}
