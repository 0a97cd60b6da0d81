// Holds totlog_play to the answers of the original:
//
//   compare NAME < ANSWERS
//
// ANSWERS is what `oracle record`, `oracle answer` and `oracle fresh` write: a count and then, for each case, the log's
// length, the script's length, the script, the answer's six numbers, the log up to the answer's length. NAME stands in
// the messages. Before them come the cases of document 01, whose answers are written here.
//
// Each case is played twice, on slices that differ in all that must not matter: what log and answer held before, where
// the slices lie, and how long the answer is. Each slice has on one side a page that cannot be read or written, and on
// the other side bytes that must stay as they were.
#define _GNU_SOURCE
#include "totlog.h"

#include <pthread.h>
#include <signal.h>
#include <stdio.h>
#include <stdlib.h>
#include <string.h>
#include <sys/mman.h>
#include <unistd.h>

enum {
    LONGEST = 1 << 20,   // bytes of a slice
    GUARD = 64,          // bytes beside a slice that must stay as they were
    ANSWER = TOTLOG_ANSWER_BYTES,
    MOST_ANSWER = 40,    // bytes of the longest slice lent for it
    SHOWN = 5,           // cases that are not met and shown
    SHOWN_SCRIPT = 2000, // bytes of a script that are shown
    STACK = 8 << 20,     // bytes of the stack that all is run on
    UNUSED = 0xb7,       // a byte of it that nobody has written
};

struct play { // one case
    const uint8_t *script;
    size_t script_length;
    size_t log_length;
    uint32_t answer[6];
    const uint8_t *log; // up to the answer's length, answer[2]
};

static const char *name; // of the answers
static const char *part; // of them, in which a case is counted
static unsigned long case_number;
static unsigned long cases, plays, unmet;

static const struct play *call; // the call under way, for the handler of a fault
static size_t call_answer_length;

static void stop(const char *why) {
    fprintf(stderr, "compare: %s, %s %lu: %s\n", name, part, case_number, why);
    exit(1);
}

// ---- slices between guards

struct room { // pages that can be written, between two that cannot
    uint8_t *start, *end;
};

static struct room script_room, log_room, answer_room;

static struct room make_room(void) {
    size_t page = (size_t)sysconf(_SC_PAGESIZE), size = LONGEST + page;
    uint8_t *all = mmap(NULL, size + 2 * page, PROT_NONE, MAP_PRIVATE | MAP_ANONYMOUS, -1, 0);
    if (all == MAP_FAILED || mprotect(all + page, size, PROT_READ | PROT_WRITE)) stop("no memory");
    return (struct room){all + page, all + page + size};
}

static uint8_t guard_byte(int round, size_t i) { return (uint8_t)(101 * i + 59 + 128 * round); }

// In round 0 the slice starts where the room does, in round 1 it ends where the room does.
static uint8_t *place(struct room r, size_t length, int round) { return round == 0 ? r.start : r.end - length; }

static uint8_t *guard_of(struct room r, size_t length, int round) {
    return round == 0 ? r.start + length : r.end - length - GUARD;
}

static uint8_t *lend(struct room r, size_t length, int round) {
    if (length > LONGEST) stop("a slice is longer than this test takes");
    uint8_t *guard = guard_of(r, length, round);
    for (size_t i = 0; i < GUARD; i++) guard[i] = guard_byte(round, i);
    return place(r, length, round);
}

static int is_guard_kept(struct room r, size_t length, int round) {
    const uint8_t *guard = guard_of(r, length, round);
    for (size_t i = 0; i < GUARD; i++)
        if (guard[i] != guard_byte(round, i)) return 0;
    return 1;
}

// ---- what is not met

static void show_bytes(const char *what, const uint8_t *bytes, size_t length) {
    fprintf(stderr, "  %s, %zu bytes:", what, length);
    for (size_t i = 0; i < length && i < SHOWN_SCRIPT; i++) fprintf(stderr, " %02x", bytes[i]);
    fprintf(stderr, length > SHOWN_SCRIPT ? " ..\n" : "\n");
}

// All that is needed to repeat the call, as by `oracle play`.
static void show_call(const struct play *p, size_t answer_length) {
    fprintf(stderr, "compare: %s, %s %lu is not met, with a log of %zu bytes and an answer of %zu\n", name, part,
            case_number, p->log_length, answer_length);
    show_bytes("script", p->script, p->script_length);
}

// ---- one play

// The answer's bytes as far as they reach, zeros after.
static void expected_answer(const struct play *p, uint8_t bytes[MOST_ANSWER]) {
    memset(bytes, 0, MOST_ANSWER);
    for (int i = 0; i < ANSWER; i++) bytes[i] = (uint8_t)(p->answer[i / 4] >> (8 * (i % 4)));
}

// The first byte of the log that is not as recorded, or not zero after; the log's length where there is none.
static size_t log_difference(const struct play *p, const uint8_t *log) {
    static const uint8_t zeros[LONGEST];
    size_t used = p->answer[2], at = 0;
    if (!memcmp(log, p->log, used) && !memcmp(log + used, zeros, p->log_length - used)) return p->log_length;
    while (log[at] == (at < used ? p->log[at] : 0)) at++;
    return at;
}

static void play_once(const struct play *p, size_t answer_length, int round) {
    uint8_t *script = lend(script_room, p->script_length, round);
    uint8_t *log = lend(log_room, p->log_length, round);
    uint8_t *answer = lend(answer_room, answer_length, round);
    int garbage = round == 0 ? 0xa5 : 0x3c;
    memcpy(script, p->script, p->script_length);
    memset(log, garbage, p->log_length);
    memset(answer, garbage, answer_length);

    call = p;
    call_answer_length = answer_length;
    totlog_play(script, p->script_length, log, p->log_length, answer, answer_length);
    call = NULL;
    plays++;

    uint8_t wanted[MOST_ANSWER];
    expected_answer(p, wanted);
    int answer_met = !memcmp(answer, wanted, answer_length);
    size_t at = log_difference(p, log);
    int log_met = at == p->log_length;
    int script_kept = !memcmp(script, p->script, p->script_length);
    int script_guard = is_guard_kept(script_room, p->script_length, round);
    int log_guard = is_guard_kept(log_room, p->log_length, round);
    int answer_guard = is_guard_kept(answer_room, answer_length, round);
    if (answer_met && log_met && script_kept && script_guard && log_guard && answer_guard) return;

    if (++unmet > SHOWN) return;
    show_call(p, answer_length);
    const char *side = round == 0 ? "after" : "before";
    if (!answer_met) {
        show_bytes("answer wanted", wanted, answer_length);
        show_bytes("answer given ", answer, answer_length);
    }
    if (!log_met)
        fprintf(stderr, "  log byte %zu is %02x, wanted %02x\n", at, log[at], at < p->answer[2] ? p->log[at] : 0);
    if (!script_kept) fprintf(stderr, "  the script was changed\n");
    if (!script_guard) fprintf(stderr, "  bytes %s the script were changed\n", side);
    if (!log_guard) fprintf(stderr, "  bytes %s the log were changed\n", side);
    if (!answer_guard) fprintf(stderr, "  bytes %s the answer were changed\n", side);
}

// With an answer of 24 bytes, and with one of 0 to 40 bytes, whose turn it is.
static void play_case(const struct play *p) {
    case_number++;
    cases++;
    play_once(p, ANSWER, (int)(case_number % 2));
    play_once(p, case_number % (MOST_ANSWER + 1), (int)((case_number + 1) % 2));
}

// ---- document 01's cases

static const uint8_t WHOLE_SCRIPT[] = {0x02, 0x01, 0x01, 0x00, 0x01, 0x02, 0x02, 0x00, 0x00,
                                       0x00, 0x01, 0x00, 0x00, 0x03, 0x02, 0x01, 0x01};
static const uint8_t WHOLE_LOG[] = {0x01, 0x05, 0x03, 0x01, 0x01, 0x01, 0x03, 0x02, 0x04, 0x02, //
                                    0x01, 0x06, 0x03, 0x01, 0x00, 0x01, 0x02, 0x01, 0x05, 0x01, //
                                    0x02, 0x04, 0x00, 0x01, 0x01, 0x00, 0x02, 0x04,             //
                                    0x03, 0x03, 0x02, 0x03, 0x04,                               //
                                    0x02, 0x04, 0x00, 0x01, 0x01, 0x02, 0x02, 0x04,             //
                                    0x03, 0x04, 0x02, 0x01, 0x04};

static void play_null(const uint8_t *script, size_t script_length, uint8_t *log, size_t log_length, uint8_t *answer,
                      size_t answer_length, uint8_t wanted) {
    case_number++;
    cases++;
    plays++;
    totlog_play(script, script_length, log, log_length, answer, answer_length);
    if (answer_length > 0 && answer[0] != wanted) {
        unmet++;
        fprintf(stderr, "compare: %s, %s %lu: null pointers: the refusal number is %d, wanted %d\n", name, part,
                case_number, answer[0], wanted);
    }
}

static void play_document(void) {
    static const uint8_t zeros[LONGEST];
    const struct play list[] = {
        {WHOLE_SCRIPT, 17, 65536, {0, 4, 46, 4, 2, 3}, WHOLE_LOG},
        {WHOLE_SCRIPT, 17, 47, {0, 4, 46, 4, 2, 3}, WHOLE_LOG},
        {WHOLE_SCRIPT, 17, 46, {0, 4, 46, 4, 2, 3}, WHOLE_LOG},
        {WHOLE_SCRIPT, 17, 45, {14, 4, 0, 0, 0, 3}, WHOLE_LOG},
        {WHOLE_SCRIPT, 17, 0, {14, 4, 0, 0, 0, 3}, WHOLE_LOG},
        {WHOLE_SCRIPT, 0, 65536, {2, 0, 0, 0, 0, 0}, WHOLE_LOG},    // the empty script
        {WHOLE_SCRIPT, 2, 65536, {0, 0, 0, 0, 0, 0}, WHOLE_LOG},    // the head alone
        {zeros, 65537, 65536, {1, 0, 0, 0, 0, 0}, WHOLE_LOG},       // too long a script
        {zeros, LONGEST, 65536, {1, 0, 0, 0, 0, 0}, WHOLE_LOG},     //
        {WHOLE_SCRIPT, 17, 65537, {1, 0, 0, 0, 0, 0}, WHOLE_LOG},   // too long a log
        {WHOLE_SCRIPT, 17, LONGEST, {1, 0, 0, 0, 0, 0}, WHOLE_LOG}, //
        {WHOLE_SCRIPT, 0, 65537, {1, 0, 0, 0, 0, 0}, WHOLE_LOG},    //
        {zeros, LONGEST, LONGEST, {1, 0, 0, 0, 0, 0}, WHOLE_LOG},   //
    };
    for (size_t i = 0; i < sizeof list / sizeof *list; i++) {
        play_case(&list[i]);
        for (size_t length = 0; length <= MOST_ANSWER; length++)
            for (int round = 0; round < 2; round++) play_once(&list[i], length, round);
    }

    // null pointers of length 0
    uint8_t log[46], answer[ANSWER];
    play_null(NULL, 0, NULL, 0, NULL, 0, 0);
    play_null(NULL, 0, NULL, 0, answer, sizeof answer, 2);
    play_null(NULL, 0, log, sizeof log, answer, sizeof answer, 2);
    play_null(WHOLE_SCRIPT, 17, NULL, 0, answer, sizeof answer, 14);
    play_null(WHOLE_SCRIPT, 17, log, sizeof log, NULL, 0, 0);
    if (memcmp(log, WHOLE_LOG, sizeof log)) stop("with no answer the log is not written");
}

// ---- recorded answers

static uint32_t read_number(void) {
    uint32_t x = 0;
    for (int shift = 0; shift < 21; shift += 7) {
        int b = getchar();
        if (b == EOF) break;
        x |= (uint32_t)(b & 127) << shift;
        if (b < 128) return x;
    }
    stop("the file of answers does not read");
    return 0;
}

static void read_bytes(uint8_t *bytes, size_t length) {
    if (length > LONGEST || fread(bytes, 1, length, stdin) != length) stop("the file of answers does not read");
}

static void play_answers(void) {
    static uint8_t script[LONGEST], log[LONGEST];
    unsigned long count = read_number();
    if (count == 0) stop("the file has no answers");
    while (case_number < count) {
        struct play p = {.script = script, .log = log};
        p.log_length = read_number();
        p.script_length = read_number();
        read_bytes(script, p.script_length);
        for (int i = 0; i < 6; i++) p.answer[i] = read_number();
        read_bytes(log, p.answer[2]);
        if (p.answer[2] > p.log_length) stop("the file has more log than its case lends");
        play_case(&p);
    }
    if (getchar() != EOF) stop("bytes after the last case");
}

// ---- the stack, and the run

static uint8_t signal_stack[64 << 10]; // a fault may be that the stack is full

// The call under way is the library's, so that printing here disturbs nothing.
static void on_fault(int signal) {
    if (call) show_call(call, call_answer_length);
    fprintf(stderr,
            "compare: %s, %s %lu: signal %d: memory outside the slices is read or written, or the stack is full\n",
            name, part, case_number, signal);
    _exit(1);
}

static void *run(void *unused) {
    stack_t own = {.ss_sp = signal_stack, .ss_size = sizeof signal_stack};
    struct sigaction action = {.sa_handler = on_fault, .sa_flags = SA_ONSTACK};
    if (sigaltstack(&own, NULL) || sigaction(SIGSEGV, &action, NULL) || sigaction(SIGBUS, &action, NULL))
        stop("no handler for a fault");
    part = "document 01's case";
    play_document();
    part = "case";
    case_number = 0;
    play_answers();
    return unused;
}

// Runs all on a stack whose bytes are known, and says how many of them were written.
static size_t run_and_measure(void) {
    size_t page = (size_t)sysconf(_SC_PAGESIZE);
    uint8_t *pages = mmap(NULL, STACK + page, PROT_NONE, MAP_PRIVATE | MAP_ANONYMOUS, -1, 0);
    uint8_t *stack = pages + page;
    if (pages == MAP_FAILED || mprotect(stack, STACK, PROT_READ | PROT_WRITE)) stop("no memory");
    memset(stack, UNUSED, STACK);
    pthread_attr_t attributes;
    pthread_t thread;
    if (pthread_attr_init(&attributes) || pthread_attr_setstack(&attributes, stack, STACK) ||
        pthread_create(&thread, &attributes, run, NULL) || pthread_join(thread, NULL))
        stop("no thread");
    size_t left = 0;
    while (left < STACK && stack[left] == UNUSED) left++;
    return STACK - left;
}

int main(int count, char **words) {
    if (count != 2) {
        fprintf(stderr, "usage: compare NAME < ANSWERS\n");
        return 2;
    }
    name = words[1];
    part = "start";
    script_room = make_room();
    log_room = make_room();
    answer_room = make_room();
    size_t stack = run_and_measure();
    printf("compare: %s: %lu cases, %lu calls, %lu not met; %zu bytes of stack\n", name, cases, plays, unmet, stack);
    if (stack > TOTLOG_STACK_BYTES) {
        printf("compare: totlog.h promises at most %d bytes of stack\n", TOTLOG_STACK_BYTES);
        return 1;
    }
    return unmet != 0;
}
