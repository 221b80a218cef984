/* polonezar.h: Polonezar for C and C++.
 *
 * A report is a tree of labelled elements, a rule is a formula that picks elements out; both are byte
 * strings. pz_read_rule and pz_read_report say whether one is accepted, and if not, why and where.
 * pz_read_path turns a rule that a person typed as text into the rule's bytes.
 * pz_evaluate marks the elements of a whole report at which each entry of a rule holds. pz_print writes
 * the same as text, a line for each element with its verdict, as the program polonezar prints it.
 * pz_start, pz_open and pz_close give the verdict of a rule that looks back only, at the moment an element
 * opens. pz_tally counts verdicts.
 *
 * Libraries, for x86-64 Linux. libpolonezar.a has every function: link with -lpolonezar.
 * libpolonezar-readers.a has pz_read_rule and pz_read_report alone: link with -lpolonezar-readers. From
 * the C library they take memcpy, memmove, memset and memcmp at most.
 *
 * What each function answers and leaves in lent memory is proved of its code for every input: nothing
 * has to be checked before a call. "Promise:" names the definition in Polonezar's source that says
 * exactly what.
 *
 * Names follow one rule, so that each tells what it is:
 *
 *   pz_verb, pz_verb_thing         a function
 *   struct pz_found_reply          what functions give: number, place (0 unless said), then what was found;
 *                                  a function that finds nothing else gives the number alone
 *   struct pz_things               what a caller keeps and lends
 *   PZ_THING_FAULT                 a number given back: what is at fault, and how (enum pz_number)
 *   PZ_THING_UNITS                 how many BYTES, ENTRIES, ELEMENTS or LEVELS a thing may have; a state has
 *                                  exactly so many bytes
 *   PZ_THING_LEAST, PZ_THING_MOST  the bounds of a number
 *   PZ_THING_AT_FIELD              the offset of a field in the bytes of a thing
 *
 *   FAULT is SIZE (of no length that is taken), RECORD (a record is malformed), ARGUMENT (what a record names
 *   is out of range), ORDER (parts do not follow each other), FULL (more parts than there may be), SHORT (too
 *   little room), AHEAD (it looks ahead), or BAD (it cannot be used, for whatever cause). PZ_ACCEPTED is no
 *   fault. Earlier names that do not follow the rule stay valid: each stands beside the one that it means.
 *
 * Records. A number in a rule or a report has two bytes, the low byte first. A record is a length
 * (how many bytes follow the length), a kind, and a body of numbers; so a record takes 2 bytes more
 * than its length says. Records follow each other with nothing between them.
 *
 *   A report record of kind 1 opens an element: length 4, body one label.
 *   A report record of kind 2 closes the innermost open element: length 2, no body.
 *   A report has one root and ends when the root is closed. The root is at level 0, a child one level
 *   below its parent. Elements are numbered from 0 in order of opening.
 *
 *   A rule record is an entry; entries are numbered from 0. The last entry is what the rule selects by.
 *   In a body a and b are entry numbers, each below the number of the entry that it stands in.
 *
 *   kind  length  body   the entry holds at an element s exactly when                        looks
 *   1     2       none   (at every element)                                                  back
 *   2     4       label  s has this label                                                    back
 *   3     4       a      a does not hold at s                                                back
 *   4     6       a, b   at least one of a and b holds at s                                  back
 *   5     6       a, b   both a and b hold at s                                              back
 *   6     4       a      a holds at one child of s or more                                   ahead
 *   7     4       a      s is not the root, and a holds at its parent                        back
 *   8     4       a      a sibling comes right after s, and a holds at it                    ahead
 *   9     4       a      a sibling comes right before s, and a holds at it                   back
 *   10    6       a, b   b is reached from s downwards through a                             ahead
 *   11    6       a, b   b is reached from s upwards through a                               back
 *   12    6       a, b   b is reached from s through a along the siblings after it           ahead
 *   13    6       a, b   b is reached from s through a along the siblings before it          back
 *   14    4       a      s has children, and a holds at each of them                         ahead
 *
 *   "b is reached from s through a": going step by step (to a child, to the parent, to the next or to
 *   the previous sibling) one can come to an element where b holds, so that a holds at every element
 *   before it on the way, s included. The way may have no step: where b holds at s, a is not asked.
 *   pz_evaluate takes every rule; pz_open and pz_close take those whose entries all look back.
 *
 * What a caller owes, and nothing checks: each pointer is valid for as many bytes (words, for marks)
 * as its length says, marks is aligned for uint64_t, lent buffers do not overlap, and nobody else
 * writes what is lent, or reads what is lent to be written, during the call. A length in bytes is at
 * most PTRDIFF_MAX. NULL with length 0 has been tried with every function that takes a length and is
 * fine: it is an empty string, or a buffer without room. NULL with another length is the caller's fault.
 *
 * No function keeps or frees a pointer, allocates, writes to a file or fails to return, and all may be called from
 * several threads at once, each with buffers of its own. pz_evaluate needs some 40 KiB of stack, pz_print
 * some 145 KiB, and pz_read_path some 210 KiB for the most deeply nested string of 1,024 bytes, up to 15 KiB
 * for the texts that were taken when it was measured; the others need less than 1 KiB. (No proof speaks of
 * stack.)
 */
#ifndef POLONEZAR_H
#define POLONEZAR_H

#define PZ_VERSION "0.3.0"

#include <stddef.h>
#include <stdint.h>

#ifdef __cplusplus
extern "C" {
#endif

/* Sizes that are accepted. */
enum pz_size {
    PZ_RULE_BYTES = 512,        /* a rule has 1 to 512 bytes .. */
    PZ_RULE_ENTRIES = 64,       /* .. and 1 to 64 entries */
    PZ_REPORT_BYTES = 40960,    /* a report has 1 to 40,960 bytes, .. */
    PZ_REPORT_ELEMENTS = 4096,  /* .. 1 to 4,096 elements .. */
    PZ_REPORT_LEVELS = 64,      /* .. and levels 0 to 63 */
    PZ_LABEL_LEAST = 1,         /* labels are 1 to 999, in rules and in reports */
    PZ_LABEL_MOST = 999,
    PZ_TEXT_BYTES = 1024,       /* a rule typed as text has 1 to 1,024 bytes */
    PZ_PRINTOUT_BYTES = 81920   /* no printout has more bytes, whatever its rule and report are */
};

/* The numbers given back. pz_read_rule gives 0 to 4; pz_read_report gives 0 and 5 to 8; pz_evaluate and
 * pz_print give 0 to 9; pz_start gives 0 and 11; pz_open gives 0 to 4, 6 to 8, 10 and 11; pz_close gives
 * 0 to 4, 7, 10 and 11; pz_tally gives 0 and 12; pz_read_path gives 0, 9, 13 and 14. */
enum pz_number {
    PZ_ACCEPTED = 0,          /* taken as it is */
    PZ_RULE_SIZE = 1,         /* the rule has no bytes, or more than 512 */
    PZ_RULE_RECORD = 2,       /* a record of the rule is cut off, its kind is none of 1 to 14, or its
                                 length is not that of its kind */
    PZ_RULE_ARGUMENT = 3,     /* a number in the rule is out of range: an entry names itself or a later
                                 entry, or its label is not one of 1 to 999 */
    PZ_RULE_FULL = 4,         /* the rule goes on after its 64th entry */
    PZ_REPORT_SIZE = 5,       /* the report has no bytes, or more than 40,960 */
    PZ_REPORT_RECORD = 6,     /* a record of the report is cut off, its kind is not 1 or 2, its length
                                 is not that of its kind, or its label is not one of 1 to 999 */
    PZ_REPORT_ORDER = 7,      /* tags do not pair: a closing with no element open, an opening after the
                                 root is closed, or an element still open where the report ends */
    PZ_REPORT_FULL = 8,       /* more than 64 levels, or more than 4,096 elements */
    PZ_BUFFER_SHORT = 9,      /* a lent buffer has no room for what is to be written: fewer words than
                                 there are elements, or fewer bytes than the rule that was typed, or the
                                 printout, has */
    PZ_RULE_AHEAD = 10,       /* one pass was asked for with a rule that looks ahead in an entry,
                                 whether the last entry uses it or not */
    PZ_STATE_BAD = 11,        /* the state of one pass is damaged or of another length */
    PZ_TALLY_BAD = 12,        /* the tally is full, or its counts do not add up; it stays as it was */
    PZ_TEXT_BAD = 13,         /* a typed rule is empty, has more than 1,024 bytes, or is no text of the
                                 grammar */
    PZ_TEXT_FULL = 14,        /* a typed rule makes more than 64 entries */
    /* Earlier names, which stay. */
    PZ_MARKS_SHORT = PZ_BUFFER_SHORT,
    PZ_LOOKS_AHEAD = PZ_RULE_AHEAD,
    PZ_TALLY = PZ_TALLY_BAD
};

/* What pz_read_rule gives. */
struct pz_rule_reply {
    uint32_t number;          /* 0 accepted, else why not: 1, 2, 3 or 4 of pz_number */
    uint32_t place;           /* for 2, 3 and 4 the byte offset in the rule at which the faulty record
                                 begins; else 0 */
    uint32_t entries;         /* how many entries an accepted rule has, 1 to 64; 0 where it is refused */
};

/* What pz_read_report gives. */
struct pz_report_reply {
    uint32_t number;          /* 0 accepted, else why not: 5, 6, 7 or 8 of pz_number */
    uint32_t place;           /* for 6, 7 and 8 the byte offset in the report at which the faulty record
                                 begins; for 7 at the end, where an element is still open, the report's
                                 length; else 0 */
    uint32_t elements;        /* how many elements an accepted report has, 1 to 4,096; 0 where it is refused */
};

/* Reads a rule. Lent for this call: rule, rule_len bytes, only read; nothing is kept.
 * Gives: number 0, place 0 and the number of entries; else the number, its place, and entries 0.
 * Order: 1 first. Then the records in byte order: the first faulty one decides the number and the
 * place. At one record 4 comes before 2, and 2 before 3. Where no record is faulty, 0.
 * Promise: rule_reply (crates/records/specs/Reply.antt). */
struct pz_rule_reply pz_read_rule(const uint8_t *rule, size_t rule_len);

/* Reads a report. Lent for this call: report, report_len bytes, only read; nothing is kept.
 * Gives: number 0, place 0 and the number of elements; else the number, its place, and elements 0.
 * Order: 5 first. Then the records in byte order: the first faulty one decides the number and the
 * place. At one record 6 comes before 7, and 7 before 8; a record after the root's closing is faulty
 * by these rows too. Where no record is faulty and an element is open at the end, 7; else 0.
 * Promise: report_reply (crates/records/specs/Reply.antt). */
struct pz_report_reply pz_read_report(const uint8_t *report, size_t report_len);

/* A rule typed as text. It is one test; a test holds at an element or does not.
 *
 *   +------------------------------------------------------------------------------------------+
 *   | test   true                every element                                                 |
 *   |        label N             elements with label N: 1 to 999, in digits, the first not 0   |
 *   |        not test            elements where the test does not hold                         |
 *   |        (test or test)      elements where one of the two holds, or both                  |
 *   |        <path>              elements from which the path leads to some element            |
 *   | path   step/step/..        one step or more, taken from left to right                    |
 *   | step   axis                one step along the axis                                       |
 *   |        axis*               any number of such steps, none too                            |
 *   |        ?test               stay, where the test holds                                    |
 *   |        (axis?test)*        any number of steps, none too, each to where the test holds   |
 *   | axis   child  parent  right  left     (the next sibling is right, the previous one left) |
 *   +------------------------------------------------------------------------------------------+
 *
 *   One space stands between two words or numbers that follow each other, and no other space anywhere:
 *   not label 5, not<left>, (label 10 or label 30), (<child>or<left>). Tests and paths may hold each other
 *   to any depth. A rule that names neither child nor right looks back only, so that pz_open takes it. */

/* What pz_read_path and pz_print give. */
struct pz_written_reply {
    uint32_t number;          /* 0 taken, else why not, of pz_number: from pz_read_path 9, 13 or 14, from
                                 pz_print 1 to 9 */
    uint32_t place;           /* for 13 where the size is good, how many bytes of the text some text of the
                                 grammar, however long, begins with: the offset of the first byte that
                                 cannot stand there, or the length where the text ends too soon; for 2 to 4
                                 and 6 to 8 as the reader of the rule or of the report gives it; else 0 */
    uint32_t written;         /* how many bytes were written at the front of the lent buffer: of a rule 4 to
                                 456, of a printout 53 to 56,275; 0 where it is refused */
};
#define pz_written pz_written_reply         /* earlier name */

/* Reads a rule that was typed as text, and writes the rule's bytes. Lent for this call: text, text_len
 * bytes, only read; rule, a buffer of rule_len bytes, written where the text is taken: 512 (PZ_RULE_BYTES)
 * are always room. Nothing is kept.
 * Gives: number 0, place 0 and how many bytes were written, at the front of rule; the bytes past them
 * are as they were. pz_read_rule takes what was written, and its last entry holds exactly where the text
 * does. Else the number, its place, written 0, and rule as it was.
 * Order: 13 for the size, 13 for the grammar of the whole text, 14, and 9 where rule_len is below the
 * rule's length.
 * Promise: Typed (crates/typing/specs/Typed.antt). */
struct pz_written_reply pz_read_path(const uint8_t *text, size_t text_len, uint8_t *rule, size_t rule_len);

/* What pz_evaluate gives. */
struct pz_evaluation_reply {
    uint32_t number;          /* 0 accepted, else why not: 1 to 9 of pz_number */
    uint32_t place;           /* as the reader of the rule (2, 3, 4) or of the report (6, 7, 8) gives it;
                                 else 0 */
    uint32_t elements;        /* how many elements the report has; 0 where anything is refused */
    uint32_t selected;        /* at how many of them the rule's last entry holds; 0 where anything is refused */
};
#define pz_evaluation pz_evaluation_reply   /* earlier name */

/* Evaluates a rule on a report. Lent for this call: rule and report, only read; marks, a buffer of
 * `words` 64-bit words, written where all is accepted; 4,096 words are room for any report. Nothing is
 * kept.
 * Gives: number 0, place 0, the elements and the selected count; bit i of marks[s] is then 1 exactly
 * where entry i holds at element s (elements are numbered from 0 in order of opening), its bits past
 * the last entry are 0, and words past the last element are as they were. Else the number and its
 * place, elements and selected 0, and marks as it was.
 * Order: what pz_read_rule gives for the rule, then what pz_read_report gives for the report, then 9
 * where the report has more elements than there are words.
 * Promise: Evaluated (crates/marking/specs/Evaluation.antt). */
struct pz_evaluation_reply pz_evaluate(const uint8_t *rule, size_t rule_len,
                                       const uint8_t *report, size_t report_len,
                                       uint64_t *marks, size_t words);

/* Prints the verdicts of a rule on a report as text, byte for byte what the program polonezar prints for an
 * accepted rule and report. Lent for this call: rule and report, only read; text, a buffer of text_len
 * bytes, written where all is accepted: 81,920 (PZ_PRINTOUT_BYTES) are always room. Nothing is kept.
 * The text is ASCII, in lines that each end with a line feed, with no zero byte behind them: first
 *     element label level selected
 * then a line for each element in order, four decimal numbers with one space between them: the element's
 * number from 0, its label, its level, and 1 where the rule's last entry holds at it, else 0; last
 *     selected S of N
 * with S, at how many elements it holds, and N, how many elements there are.
 * Gives: number 0, place 0 and how many bytes were written, at the front of text; the bytes past them are
 * as they were. Else the number and its place, written 0, and text as it was; the line `refused N at P`
 * of the program is not written.
 * Order: what pz_read_rule gives for the rule, then what pz_read_report gives for the report, then 9
 * where text_len is below the text's length.
 * Promise: PrintoutGiven (crates/printing/specs/Given.antt). */
struct pz_written_reply pz_print(const uint8_t *rule, size_t rule_len,
                                 const uint8_t *report, size_t report_len,
                                 uint8_t *text, size_t text_len);

/* The state of one pass: 1,040 bytes that the caller keeps. Numbers and words have the low byte first.
 *
 *   at    bytes       what
 *   0     2           depth: how many elements are open, 0 to 64
 *   2     2           elements: how many have been opened, 0 to 4,096, never below depth
 *   4     2           root closed: 0 or 1; 1 only with depth 0
 *   6     2           zero
 *   8     8           presence, a word: bit i says whether last word i counts
 *   16    64 times 8  open words: word i, at 16 + 8 i, is that of the open element at level i
 *   528   64 times 8  last words: word i, at 528 + 8 i, is that of the element closed last at level i
 *
 * Bad (11) is exactly: another length than 1,040, or one of the first four rows broken. Nothing else is
 * tested. In a word bit e says whether entry e holds at that element, as in pz_evaluate's marks. Open
 * words count below depth; the others, and last words without their presence bit, are left over.
 *
 * An opening at depth d takes open word d - 1 as the parent's (d 0: no parent) and last word d as the
 * previous sibling's (presence bit d 0: none). It writes open word d, clears presence bit d + 1 where d
 * is below 63, since the new element has no children yet, and adds 1 to depth and to elements. A closing
 * at depth d copies open word d - 1 to last word d - 1, sets presence bit d - 1, takes 1 from depth, and
 * sets root closed where depth is 0 then. All other bytes stay.
 *
 * A state may be copied, saved and brought back at any time between two calls, also by another process:
 * it has no pointers. The rule is not in it, and its words are that rule's marks: save the rule's bytes
 * beside the state and bring the same rule to every call from pz_start on. Another rule, or damage to
 * presence or to a word, is not noticed, and the verdicts then mean nothing. */
enum pz_state {
    PZ_STATE_BYTES = 1040,
    PZ_STATE_AT_DEPTH = 0,
    PZ_STATE_AT_ELEMENTS = 2,
    PZ_STATE_AT_ROOT_CLOSED = 4,
    PZ_STATE_AT_ZEROS = 6,
    PZ_STATE_AT_PRESENCE = 8,
    PZ_STATE_AT_OPEN_WORDS = 16,
    PZ_STATE_AT_LAST_WORDS = 528,
    /* Earlier names, which stay. */
    PZ_STATE_DEPTH = PZ_STATE_AT_DEPTH,
    PZ_STATE_ELEMENTS = PZ_STATE_AT_ELEMENTS,
    PZ_STATE_ROOT_CLOSED = PZ_STATE_AT_ROOT_CLOSED,
    PZ_STATE_ZEROS = PZ_STATE_AT_ZEROS,
    PZ_STATE_PRESENCE = PZ_STATE_AT_PRESENCE,
    PZ_STATE_OPEN_WORDS = PZ_STATE_AT_OPEN_WORDS,
    PZ_STATE_LAST_WORDS = PZ_STATE_AT_LAST_WORDS
};

/* What the calls of one pass give. */
struct pz_step_reply {
    uint32_t number;          /* 0 accepted, else why not */
    uint32_t place;           /* for 2, 3 and 4 as pz_read_rule gives it; else 0 */
    uint32_t verdict;         /* at an accepted opening 1 where the last entry holds at the element, else 0 */
};
#define pz_step pz_step_reply               /* earlier name */

/* Begins a pass. Lent for this call: state, state_len bytes, written; what it holds does not matter.
 * Gives: number 0 and a state of zeros; a length other than 1,040 is 11, and the bytes stay as they were.
 * Promise: Started (crates/onepass/specs/Step.antt). */
struct pz_step_reply pz_start(uint8_t *state, size_t state_len);

/* Opens an element. Lent for this call: rule, rule_len bytes, only read; state, state_len bytes, read
 * and written. Nothing is kept.
 * Gives: number 0 and the verdict; else the number, place for 2, 3 and 4, verdict 0, and the state as it
 * was. After pz_start and with the same rule throughout, the verdict is the last entry's bit that
 * pz_evaluate gives this element in every report that begins with the tags accepted so far; calls that
 * were refused count for nothing.
 * A refused opening opens nothing, so its closing must not be sent either: it would close the parent.
 * Label 0 asks about rule and state alone: 6 says that both are good, and nothing changes.
 * Order: what pz_read_rule gives for the rule, then 10, 11, 6 (the label is not one of 1 to 999), 7 (the
 * root is closed), 8 (64 elements are open, or 4,096 have been opened).
 * Promise: Opened (crates/onepass/specs/Step.antt). */
struct pz_step_reply pz_open(const uint8_t *rule, size_t rule_len, uint8_t *state, size_t state_len,
                             uint32_t label);

/* Closes the innermost open element. Lent as for pz_open. Gives number 0, verdict 0; else as pz_open.
 * Order: what pz_read_rule gives for the rule, then 10, 11, 7 (no element is open).
 * Promise: Closed (crates/onepass/specs/Step.antt). */
struct pz_step_reply pz_close(const uint8_t *rule, size_t rule_len, uint8_t *state, size_t state_len);

/* Three counts that a caller keeps: begin with zeros. */
struct pz_counts {
    uint32_t seen;            /* how many verdicts have been counted */
    uint32_t selected;        /* how many of them were true */
    uint32_t passed_over;     /* how many of them were false */
};

/* Counts one verdict: 0 is a false one, anything else a true one. Lent for this call: tally, read and
 * written; it is not NULL. Gives 0, and seen has risen by 1, and so has selected for a true verdict or
 * passed_over for a false one; or 12, with the tally as it was, exactly where seen is 4,294,967,295 or is
 * not the sum of the other two (which is not cut to 32 bits).
 * Promise: Tallied (crates/tally/specs/Tally.antt). */
uint32_t pz_tally(struct pz_counts *tally, uint32_t verdict);

#ifdef __cplusplus
}
#endif

#endif
