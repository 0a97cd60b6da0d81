// Times totlog_play on a script:
//
//   library ROUNDS < SCRIPT
//
// prints the answer, the log and the nanoseconds of a call, as `oracle time` does for the original. With 0 rounds the
// script is played once and nothing is timed: so valgrind counts the instructions of one call.
#include "totlog.h"

#include <stdio.h>
#include <stdlib.h>
#include <time.h>

enum { MOST_ROUNDS = 1000 };

static const double ROUND = 0.05; // a round takes at least so many seconds

static uint8_t script[TOTLOG_MOST_BYTES + 1], log_bytes[TOTLOG_MOST_BYTES], answer[TOTLOG_ANSWER_BYTES];
static size_t script_length;

static void play(void) {
    totlog_play(script, script_length, log_bytes, sizeof log_bytes, answer, sizeof answer);
}

static unsigned long number(int place) { // of the answer's six
    const uint8_t *b = answer + 4 * place;
    return b[0] | (unsigned long)b[1] << 8 | (unsigned long)b[2] << 16 | (unsigned long)b[3] << 24;
}

static void show(void) {
    for (int i = 0; i < 6; i++) printf(i == 0 ? "answer [%lu" : ", %lu", number(i));
    printf("]\nlog ");
    for (size_t i = 0; i < number(2); i++) printf(i == 0 ? "%02x" : " %02x", log_bytes[i]);
    printf("\n");
}

// The seconds of processor time that so many calls take.
static double seconds(long calls) {
    clock_t start = clock();
    for (long i = 0; i < calls; i++) play();
    return (double)(clock() - start) / CLOCKS_PER_SEC;
}

static int ascending(const void *a, const void *b) {
    double x = *(const double *)a, y = *(const double *)b;
    return (x > y) - (x < y);
}

// The nanoseconds of a call, the median of so many rounds. Finding how many calls fill a round is the warm-up.
static double median(int rounds) {
    static double times[MOST_ROUNDS];
    long calls = 1;
    while (seconds(calls) < ROUND) calls *= 2;
    for (int i = 0; i < rounds; i++) times[i] = seconds(calls) / (double)calls * 1e9;
    qsort(times, (size_t)rounds, sizeof *times, ascending);
    return times[rounds / 2];
}

int main(int count, char **words) {
    char *end = "";
    long rounds = count == 2 ? strtol(words[1], &end, 10) : -1;
    if (rounds < 0 || rounds > MOST_ROUNDS || end == words[1] || *end) {
        fprintf(stderr, "usage: library ROUNDS < SCRIPT, with at most %d rounds\n", MOST_ROUNDS);
        return 2;
    }
    script_length = fread(script, 1, sizeof script, stdin);
    if (ferror(stdin) || script_length > TOTLOG_MOST_BYTES) {
        fprintf(stderr, "library: the script does not read, or is longer than %d bytes\n", TOTLOG_MOST_BYTES);
        return 1;
    }
    play();
    show();
    if (rounds > 0) printf("time %.0f\n", median((int)rounds));
    return 0;
}
