/* words.h: what the console says of each number. ./numbers writes it from numbers.txt. */
static const char *const words[] = {
    [PZ_ACCEPTED] = "taken",
    [PZ_RULE_SIZE] = "the rule file is empty or has more than 512 bytes; have the rule sent again",
    [PZ_RULE_RECORD] = "the rule has a broken entry here; have the rule written again",
    [PZ_RULE_ARGUMENT] = "the rule's entry here has a label that is not 1 to 999, or names an entry that does not "
                         "come before it; have the rule corrected",
    [PZ_RULE_FULL] = "the rule goes on here after 64 entries, which is the most; have it split",
    [PZ_REPORT_SIZE] = "the report is empty or has more than 40,960 bytes",
    [PZ_REPORT_RECORD] = "the label is not 1 to 999",
    [PZ_REPORT_ORDER] = "nothing is open to be closed, or the site is closed and nothing more can open",
    [PZ_REPORT_FULL] = "64 elements are open or 4,096 have been opened, which is the most; split the report",
    [PZ_BUFFER_SHORT] = "there is too little room for the marks",
    [PZ_RULE_AHEAD] = "the rule looks ahead, so nothing can be decided at the moment of opening; evaluate the whole "
                      "report instead",
    [PZ_STATE_BAD] = "the saved state is damaged; put the save file aside and begin the report again",
    [PZ_TALLY_BAD] = "the tally is full or its counts do not add up; it stays as it is, and no verdict is counted",
    [PZ_TEXT_FULL] = "it makes more than 64 entries, which is the most; type the rule shorter, or as two rules",
};
