/* main.c: polonezar-desk, Polonezar for the desk and for engineers in the field: the commands, their options, and the
 * exit status. polonezar-desk.1 is its manual page. */
#define _GNU_SOURCE                             /* getopt_long */
#include "desk.h"
#include <fcntl.h>
#include <getopt.h>
#include <signal.h>
#include <string.h>
#include <unistd.h>

static const char help[] =
    "usage: polonezar-desk judge RULE REPORT...\n"
    "       polonezar-desk rule RULE [-o FILE]\n"
    "       polonezar-desk show REPORT\n"
    "       polonezar-desk picture RULE REPORT -o FILE\n"
    "       polonezar-desk --help\n"
    "       polonezar-desk --version\n"
    "\n"
    "judge    Prints the record of each report: a line for each element, and how many are selected.\n"
    "rule     Shows a rule as its table in words, and whether it looks back or ahead.\n"
    "show     Prints the tree of a report, a line for each element with its number.\n"
    "picture  Writes a page for a browser: the tree, the selected elements, and where each entry holds.\n"
    "\n"
    "RULE is the name of a rule's file; where no file has that name, it is the rule's text, typed in quotes.\n"
    "\n"
    "-f FILE    Takes the rule's text from this file, in place of RULE.\n"
    "-n NAMES   Takes words for labels from this file, a label and a word on each line.\n"
    "-o FILE    Writes the rule's bytes, or the page, to this file, which must not exist.\n"
    "--replace  Lets -o replace a file that exists.\n"
    "\n"
    "The exit status is 0 where all was accepted, 1 where something was refused, and 2 where a file could not be\n"
    "read or written or the usage was wrong.\n";

struct command {
    const char *name;
    enum status (*run)(const struct request *request);
    bool rule, writes, must_write;
    int least, most;                            /* how many reports */
};

static const struct command commands[] = {
    {"judge", judge, true, false, false, 1, 0},
    {"rule", rule, true, true, false, 0, 0},
    {"show", show, false, false, false, 1, 1},
    {"picture", picture, true, true, true, 1, 1},
};

static enum status wrong(const char *about, const char *what)
{
    say(about, "%s; polonezar-desk --help says how it is used", what);
    return CANNOT;
}

static const struct command *command_of(const char *name)
{
    for (size_t i = 0; i < sizeof commands / sizeof commands[0]; i++)
        if (strcmp(commands[i].name, name) == 0)
            return &commands[i];
    return NULL;
}

/* Runs a command, where it has what it needs and nothing that it does not know. */
static enum status run(const struct command *c, const struct request *r)
{
    int rules = c->rule && r->text_file == NULL ? 1 : 0, reports = r->count - rules;
    if (r->text_file != NULL && !c->rule)
        return wrong(c->name, "takes no rule, and so no -f");
    if (r->out != NULL && !c->writes)
        return wrong(c->name, "writes no file, and so takes no -o");
    if (r->out == NULL && c->must_write)
        return wrong(c->name, "wants -o and a name for what it writes");
    if (r->replace && r->out == NULL)
        return wrong(c->name, "takes --replace only with -o");
    if (r->count < rules)
        return wrong(c->name, "wants a rule");
    if (reports < c->least)
        return wrong(c->name, "wants a report");
    if (reports > c->most && !(c->least > c->most))
        return wrong(c->name, c->most == 0 ? "takes a rule and nothing more" : "takes one report");
    return c->run(r);
}

static enum status print_and_end(const char *text)
{
    printf("%s", text);
    return printed();
}

/* Reads the options into the request; gives false, with the status to end with, where nothing is to be run. */
static bool read_options(int argc, char **argv, struct request *r, enum status *status)
{
    static const struct option longs[] = {
        {"replace", no_argument, NULL, 'R'}, {"help", no_argument, NULL, 'h'}, {"version", no_argument, NULL, 'v'},
        {NULL, 0, NULL, 0}};
    int option;
    opterr = 0;
    while ((option = getopt_long(argc, argv, ":f:n:o:", longs, NULL)) != -1) {
        const char **value = option == 'f' ? &r->text_file : option == 'n' ? &r->names_file : &r->out;
        if (option == 'h' || option == 'v') {
            *status = print_and_end(option == 'h' ? help : "polonezar-desk " PZ_VERSION "\n");
            return false;
        }
        if (option == ':' || option == '?') {
            *status = wrong(argv[optind - 1], option == ':' ? "wants a value behind it" : "is not known");
            return false;
        }
        if (option == 'R') {
            r->replace = true;
        } else if (*value != NULL) {
            *status = wrong(option == 'f' ? "-f" : option == 'n' ? "-n" : "-o", "may stand once");
            return false;
        } else {
            *value = optarg;
        }
    }
    r->given = (const char **)argv + optind;
    r->count = argc - optind;
    return true;
}

/* Where standard input, output or error are closed, a file that is opened would take their place, and be written to. */
static void hold_standard_files(void)
{
    for (int file = STDIN_FILENO; file <= STDERR_FILENO; file++)
        if (fcntl(file, F_GETFD) == -1 && open("/dev/null", file == STDIN_FILENO ? O_WRONLY : O_RDONLY) != file)
            _exit(CANNOT);
}

int main(int argc, char **argv)
{
    struct request request = {0};
    const struct command *command;
    enum status status = CANNOT;
    hold_standard_files();
    signal(SIGPIPE, SIG_IGN);                   /* a pipe that nobody reads is a file that cannot be written */
    if (!read_options(argc, argv, &request, &status))
        return status;
    if (request.count == 0)
        return wrong(NULL, "a command is wanted: judge, rule, show or picture");
    command = command_of(request.given[0]);
    if (command == NULL)
        return wrong(request.given[0], "is no command: judge, rule, show and picture are");
    request.given++;
    request.count--;
    return run(command, &request);
}
