/* words.h: what polonezar-desk says of each number, P being the place. ./numbers writes it from numbers.txt. */
struct words {
    const char *is, *todo;
};

static const struct words words[] = {
    [PZ_RULE_SIZE] = {
        "the rule has no bytes, or more than 512",
        "have the rule sent again"},
    [PZ_RULE_RECORD] = {
        "a record of the rule is cut off, its kind is none of 1 to 14, or its length is not that of its kind",
        "have the rule written again by its tool"},
    [PZ_RULE_ARGUMENT] = {
        "a number in the rule is out of range: an entry names itself or a later entry, or its label is not one of 1 "
        "to 999",
        "correct the entry that begins at P"},
    [PZ_RULE_FULL] = {
        "the rule goes on after its 64th entry",
        "split the rule"},
    [PZ_REPORT_SIZE] = {
        "the report has no bytes, or more than 40,960",
        "fetch the report again; a larger one has to be split by site"},
    [PZ_REPORT_RECORD] = {
        "a record of the report is cut off, its kind is not 1 or 2, its length is not that of its kind, or its label "
        "is not one of 1 to 999",
        "fetch the report again; the sender's data are damaged"},
    [PZ_REPORT_ORDER] = {
        "tags do not pair: a closing with no element open, an opening after the root is closed, or an element still "
        "open where the report ends",
        "the report is not whole: fetch it again; nothing is guessed"},
    [PZ_REPORT_FULL] = {
        "more than 64 levels, or more than 4,096 elements",
        "split the report by site"},
    [PZ_BUFFER_SHORT] = {
        "a lent buffer has no room for what is to be written: fewer words than there are elements, or fewer bytes "
        "than the rule that was typed, or the printout, has",
        "lend a larger buffer: 4,096 words, 512 bytes for a rule and 81,920 bytes for a printout are always room"},
    [PZ_RULE_AHEAD] = {
        "one pass was asked for with a rule that looks ahead in an entry, whether the last entry uses it or not",
        "evaluate the whole report instead"},
    [PZ_STATE_BAD] = {
        "the state of one pass is damaged or of another length",
        "start again from the beginning of the report"},
    [PZ_TALLY_BAD] = {
        "the tally is full, or its counts do not add up; it stays as it was",
        "keep the tally, and count on in a new one"},
    [PZ_TEXT_BAD] = {
        "a typed rule is empty, has more than 1,024 bytes, or is no text of the grammar",
        "correct the text from P on; what stands before P may stay"},
    [PZ_TEXT_FULL] = {
        "a typed rule makes more than 64 entries",
        "type it shorter, or as two rules"},
};
