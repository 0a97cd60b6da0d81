// Why a script was refused, in a sentence: the question, the command's place, the command in text form.
#include "driver.h"

static const char *const reasons[] = { // what it means that a question was answered no
    [TOTLOG_HEAD] = "the first output variable is above " IN_WORDS(TOTLOG_MOST_HEAD) ", or the first step is not 1 to " IN_WORDS(TOTLOG_MOST_HEAD),
    [TOTLOG_CLOSED] = "it comes after a close",
    [TOTLOG_NO_COMMAND] = "the code is not 1 to 4",
    [TOTLOG_LEAF_VARIABLE] = "the leaf's variable is not below the first output variable",
    [TOTLOG_LEAF] = "the leaf's negation is a leaf, or there are 64 leaves already",
    [TOTLOG_NO_NODE] = "there is no such node",
    [TOTLOG_SHARED_LEAF] = "a leaf lies below both nodes (it lies below itself, and windows hide no leaf)",
    [TOTLOG_WINDOW] = "an offset is not below its node's length, or a limit is above what the offset leaves of it",
    [TOTLOG_VALUE] = "the value is not 1 to the node's length",
    [TOTLOG_DIRECTION] = "the direction is not 1 (if), 2 (only-if) or 3 (both)",
    [TOTLOG_LOG_FULL] = "what it writes does not fit in the log",
    [TOTLOG_TOO_MANY_JOINS] = "there are 255 joins already",
};

void explain(FILE *to, const uint32_t answer[NUMBERS], const struct bytes *script, size_t log_size) {
    uint32_t number = answer[NUMBER], place = answer[PLACE];
    if (number == TOTLOG_TOO_LONG) {
        fprintf(to, "Question 1 refuses the script before its head: of its %zu bytes and the log's %zu, one is above %d.\n",
                script->length, log_size, TOTLOG_MOST_BYTES);
        return;
    }
    struct reader r = {script->at, script->length, 0, NULL};
    struct command c;
    for (uint32_t i = 0; i <= place; i++) read_command(&r, i, &c); // those before it were played, so they read

    fprintf(to, "Question %u refuses ", number);
    if (place == 0)
        fprintf(to, "the head");
    else
        fprintf(to, "command %u", place);
    if (c.form || number != TOTLOG_NO_NUMBER) { // else its code is what does not read
        fprintf(to, ", `");
        print_command(to, &c);
        fprintf(to, "`");
    }
    if (number == TOTLOG_NO_NUMBER)
        fprintf(to, ": no number reads at byte %zu (the first is 1): %s where %s is expected.\n", r.at + 1, r.fault,
                part_wanted(&c));
    else if (number == TOTLOG_LOG_FULL)
        fprintf(to, ": %s, %u of whose %zu bytes are taken.\n", reasons[number], answer[LOG_BYTES], log_size);
    else
        fprintf(to, ": %s.\n", reasons[number]);
}
