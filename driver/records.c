// The records of a log: in words, in hexadecimal, and its clauses in the form that SAT solvers read.
#include "driver.h"

#include <stdlib.h>

enum { SUM = 1, DERIVATION, CLAUSE, CLOSED };  // kinds of a record
enum { STEP, LITERAL, ADD, DIVIDE, SATURATE }; // tokens of a derivation

struct item { // a term: coefficient, literal; a token: code, operand; else 0, and a clause's literal or a deleted step
    uint32_t first, second;
};

struct record {
    uint32_t kind, about, count, bound; // about: a sum's witness, a clause's step
    struct item items[TOTLOG_MOST_BYTES];
};

// Every item takes a byte at least, so a log of the length allowed has no more than fit.
static bool read_record(struct reader *log, struct record *r) {
    r->about = r->bound = 0;
    if (!read_number(log, &r->kind) || r->kind < SUM || r->kind > CLOSED) return false;
    if ((r->kind == SUM || r->kind == CLAUSE) && !read_number(log, &r->about)) return false;
    if (!read_number(log, &r->count) || r->count > TOTLOG_MOST_BYTES) return false;
    for (uint32_t i = 0; i < r->count; i++) {
        struct item *item = &r->items[i];
        item->first = item->second = 0;
        if ((r->kind == SUM || r->kind == DERIVATION) && !read_number(log, &item->first)) return false;
        if (r->kind == DERIVATION && item->first > SATURATE) return false;
        bool alone = r->kind == DERIVATION && (item->first == ADD || item->first == SATURATE);
        if (!alone && !read_number(log, &item->second)) return false;
    }
    return r->kind != SUM || read_number(log, &r->bound);
}

static struct record record; // the one being shown

// ---- in words

static void print_literal(uint32_t l) { printf("%sx%u", l % 2 ? "¬" : "", l / 2); }

static void print_token(struct item token) {
    switch (token.first) {
    case STEP: printf(" #%u", token.second); break;
    case LITERAL: putchar(' '), print_literal(token.second); break;
    case ADD: printf(" +"); break;
    case DIVIDE: printf(" /%u", token.second); break;
    default: printf(" saturate");
    }
}

static void print_words(const struct record *r) {
    static const char *const names[] = {"sum", "derivation", "clause", "delete"}; // by kind, from 1
    fputs(names[r->kind - 1], stdout);
    for (uint32_t i = 0; i < r->count; i++) {
        struct item item = r->items[i];
        if (r->kind == SUM) {
            printf(i ? " + %u " : " %u ", item.first);
            print_literal(item.second);
        } else if (r->kind == CLAUSE) {
            putchar(' ');
            print_literal(item.second);
        } else {
            print_token(item); // a step that is deleted has 0 first, as the token that names it would
        }
    }
    if (r->kind == SUM) printf(" >= %u", r->bound);
    if (r->kind == SUM && r->about) printf(", witness "), print_literal(r->about - 1);
    if (r->kind == CLAUSE) printf(" by #%u", r->about);
    if (r->kind == CLOSED && r->count == 0) printf(" nothing");
    putchar('\n');
}

bool print_records(struct reader log, uint32_t first_step, uint32_t steps) {
    int width = snprintf(NULL, 0, "%u", steps ? first_step + steps - 1 : 0);
    for (uint32_t step = first_step; log.at < log.length;) {
        if (!read_record(&log, &record)) return false;
        if (record.kind == SUM || record.kind == DERIVATION)
            printf("  #%-*u  ", width, step++);
        else
            printf("   %*s  ", width, "");
        print_words(&record);
    }
    return true;
}

// ---- in hexadecimal, a record to a line

bool print_hex(struct reader log) {
    while (log.at < log.length) {
        size_t start = log.at;
        if (!read_record(&log, &record)) return false;
        for (size_t i = start; i < log.at; i++) printf(i > start ? " %02x" : "%02x", log.bytes[i]);
        putchar('\n');
    }
    return true;
}

// ---- the clauses as DIMACS CNF, in the order of the sheet's lines

struct clause {
    const uint32_t *literals;
    uint32_t count;
};

static uint32_t last_variable(const struct clause *c) { return c->count ? c->literals[c->count - 1] / 2 : 0; }

static int compare(uint32_t a, uint32_t b) { return (a > b) - (a < b); }

// By the variable of the last literal; then by the literals, place by place, a clause that is the start of another first.
static int compare_clauses(const void *first, const void *second) {
    const struct clause *a = first, *b = second;
    int order = compare(last_variable(a), last_variable(b));
    for (uint32_t i = 0; !order && i < a->count && i < b->count; i++) order = compare(a->literals[i], b->literals[i]);
    return order ? order : compare(a->count, b->count);
}

bool print_cnf(struct reader log) {
    static uint32_t literals[TOTLOG_MOST_BYTES]; // each takes a byte of the log at least, and so does each clause
    static struct clause clauses[TOTLOG_MOST_BYTES];
    uint32_t count = 0, used = 0, variables = 0;
    while (log.at < log.length) {
        if (!read_record(&log, &record)) return false;
        if (record.kind != CLAUSE) continue;
        clauses[count++] = (struct clause){literals + used, record.count};
        for (uint32_t i = 0; i < record.count; i++) {
            uint32_t l = record.items[i].second;
            literals[used++] = l;
            if (l / 2 >= variables) variables = l / 2 + 1;
        }
    }
    qsort(clauses, count, sizeof *clauses, compare_clauses);
    printf("c variable x of the script and its log is x + 1 here\n");
    printf("p cnf %u %u\n", variables, count);
    for (const struct clause *c = clauses; c < clauses + count; c++) {
        for (uint32_t i = 0; i < c->count; i++) printf(c->literals[i] % 2 ? "-%u " : "%u ", c->literals[i] / 2 + 1);
        printf("0\n");
    }
    return true;
}
