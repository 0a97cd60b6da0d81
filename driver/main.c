// The driver: plays a script by totlog.h and shows the answer and the log; scripts from text to bytes and back.
// Exit status: 0 done; 1 the script is refused, or does not read; 2 it was called wrongly, or a file fails.
#include "driver.h"

#include <errno.h>
#include <stdlib.h>
#include <string.h>

static const char usage[] =
    "totlog play [--text] [--hex] SCRIPT [LOG-SIZE]  plays a script: the answer and the log in words\n"
    "totlog cnf [--text] SCRIPT                      plays a script: its clauses as DIMACS CNF, in the sheet's order\n"
    "totlog assemble TEXT                            a script from text to bytes\n"
    "totlog disassemble BYTES                        a script from bytes to text\n"
    "\n"
    "SCRIPT is text where its name ends in .txt or --text is given, else bytes. `-` is standard input.\n"
    "--hex prints the log's bytes alone, a record to a line. LOG-SIZE is in bytes, by default 65536.\n";

enum { MOST_FILE = 1 << 24 }; // bytes of a file: more is no script

_Noreturn static void stop(const char *name, const char *why) {
    fprintf(stderr, "totlog: %s: %s\n", name, why);
    exit(2);
}

static const char *name_of(const char *file) { return strcmp(file, "-") ? file : "standard input"; }

static struct bytes read_file(const char *path) {
    struct bytes b = {0};
    FILE *file = strcmp(path, "-") ? fopen(path, "rb") : stdin;
    const char *name = name_of(path);
    if (!file) stop(name, strerror(errno));
    for (int c; (c = getc(file)) != EOF; put_byte(&b, (uint8_t)c))
        if (b.length == MOST_FILE) stop(name, "longer than any script");
    if (ferror(file)) stop(name, strerror(errno));
    if (file != stdin) fclose(file);
    if (!b.at) put_byte(&b, 0), b.length = 0; // an empty file has an address too
    return b;
}

static bool is_text_name(const char *name) {
    size_t length = strlen(name);
    return length >= 4 && !strcmp(name + length - 4, ".txt");
}

// ---- one play

struct play {
    const char *name;
    struct bytes text, script; // no address of the text where the script came as bytes
    size_t log_size;
    uint8_t *log;
    uint32_t answer[NUMBERS];
};

// False where the text does not assemble.
static bool play(struct play *p, const char *file, bool is_text, size_t log_size) {
    *p = (struct play){.name = name_of(file), .log_size = log_size};
    if (is_text || is_text_name(file)) {
        p->text = read_file(file);
        if (!assemble(p->name, &p->text, &p->script)) return false;
    } else {
        p->script = read_file(file);
    }
    uint8_t answer[TOTLOG_ANSWER_BYTES];
    p->log = malloc(log_size + 1); // a log of 0 bytes has an address too
    if (!p->log) stop(p->name, "no memory");
    totlog_play(p->script.at, p->script.length, p->log, log_size, answer, sizeof answer);
    for (int i = TOTLOG_ANSWER_BYTES - 1; i >= 0; i--) p->answer[i / 4] = p->answer[i / 4] << 8 | answer[i];
    return true;
}

static struct reader log_of(const struct play *p) { return (struct reader){p->log, p->answer[LOG_BYTES], 0, NULL}; }

static void print_refusal(FILE *to, const struct play *p) {
    if (to == stderr) fprintf(to, "totlog: ");
    if (p->text.at && p->answer[NUMBER] != TOTLOG_TOO_LONG)
        fprintf(to, "%s, line %lu: ", p->name, line_of(&p->text, p->answer[PLACE]));
    explain(to, p->answer, &p->script, p->log_size);
}

static bool print_play(const struct play *p) {
    const uint32_t *a = p->answer;
    if (a[NUMBER]) {
        printf("refusal number: %u\nrefused command: %u\n", a[NUMBER], a[PLACE]);
    } else {
        printf("refusal number: 0, none\ncommands played: %u\n", a[PLACE]);
    }
    printf("bytes of log: %u\nsteps: %u\nclauses: %u\nnodes: %u\n", a[LOG_BYTES], a[STEPS], a[CLAUSES], a[NODES]);
    if (a[NUMBER]) print_refusal(stdout, p);
    struct reader script = {p->script.at, p->script.length, 0, NULL};
    struct command head;
    read_command(&script, 0, &head); // a log that is not empty has one
    return print_records(log_of(p), head.numbers[1], a[STEPS]);
}

// ---- the four commands

int main(int argc, char **argv) {
    const char *words[3]; // what is not a flag: the command, a file, a size
    int count = 0;
    bool is_text = false, in_hex = false;
    for (int i = 1; i < argc; i++) {
        if (!strcmp(argv[i], "--text"))
            is_text = true;
        else if (!strcmp(argv[i], "--hex"))
            in_hex = true;
        else if (!strncmp(argv[i], "--", 2) || count == 3)
            return fputs(usage, stderr), 2;
        else
            words[count++] = argv[i];
    }
    if (count < 2) return fputs(usage, stderr), 2;
    const char *command = words[0], *file = words[1];
    bool to_play = !strcmp(command, "play"), to_cnf = !strcmp(command, "cnf");
    if ((count == 3 && !to_play) || (is_text && !to_play && !to_cnf) || (in_hex && !to_play)) return fputs(usage, stderr), 2;

    bool done = true;
    if (to_play || to_cnf) {
        uint32_t log_size = TOTLOG_MOST_BYTES;
        if (count == 3 && !parse_number(words[2], strlen(words[2]), &log_size))
            stop(words[2], "expected the log's size, " NUMBER_RANGE);
        struct play p;
        if (!play(&p, file, is_text, log_size)) return 1;
        bool accepted = p.answer[NUMBER] == TOTLOG_ACCEPTED, reads = true;
        if (!accepted && (to_cnf || in_hex)) print_refusal(stderr, &p);
        if (in_hex)
            reads = print_hex(log_of(&p));
        else if (to_play)
            reads = print_play(&p);
        else if (accepted) // the clauses of a part of a script would pass for those of the whole
            reads = print_cnf(log_of(&p));
        if (!reads) stop(file, "the log that was written does not read");
        done = accepted;
    } else if (!strcmp(command, "assemble")) {
        struct bytes text = read_file(file), script = {0};
        done = assemble(name_of(file), &text, &script);
        if (done) fwrite(script.at, 1, script.length, stdout);
    } else if (!strcmp(command, "disassemble")) {
        struct bytes script = read_file(file);
        done = disassemble(name_of(file), &script);
    } else {
        return fputs(usage, stderr), 2;
    }
    if (fflush(stdout) || ferror(stdout)) stop("standard output", strerror(errno));
    return done ? 0 : 1;
}
