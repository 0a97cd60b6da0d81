// Scripts as bytes and as text. The text form has one command a line:
//
//   head VARIABLE STEP                                # first output variable, first step; the first line that is not free
//   leaf LITERAL                                      # 2 times the variable, plus 1 if negated
//   join NODE OFFSET LIMIT NODE OFFSET LIMIT          # left side, right side; limit 0 is none
//   request NODE VALUE if|only-if|both
//   close
//
// `#` starts a comment and blank lines are free. Numbers are decimal. Only the form is looked at: whether the commands can
// be played is for the player to say. So a direction may be given by its number too, and that way a wrong one is written.
#include "driver.h"

#include <string.h>

struct form {
    const char *word;
    int count; // numbers after the code
    const char *parts[MOST_PARTS];
};

static const struct form forms[] = { // by code; a head has none, and comes first
    {"head", 2, {"the first output variable", "the first step"}},
    {"leaf", 1, {"the literal"}},
    {"join", 6, {"the left node", "the left offset", "the left limit",
                 "the right node", "the right offset", "the right limit"}},
    {"request", 3, {"the node", "the value", "the direction"}},
    {"close", 0, {0}},
};

enum { HEAD, LEAF, JOIN, REQUEST, CLOSE, FORMS };

static const char *const directions[] = {NULL, "if", "only-if", "both"};

static bool is_direction(const struct form *f, int part) { return f == &forms[REQUEST] && part == 2; }

// ---- bytes to text

bool read_command(struct reader *script, uint32_t place, struct command *c) {
    size_t start = script->at;
    *c = (struct command){0};
    if (place > 0) {
        if (!read_number(script, &c->code)) return false;
        if (c->code < LEAF || c->code > CLOSE) {
            script->at = start;
            script->fault = "the code is not 1 to 4";
            return false;
        }
    }
    c->form = &forms[c->code];
    for (; c->count < c->form->count; c->count++)
        if (!read_number(script, &c->numbers[c->count])) return false;
    return true;
}

const char *part_wanted(const struct command *c) { return c->form ? c->form->parts[c->count] : "a command's code"; }

void print_command(FILE *to, const struct command *c) {
    if (!c->form) {
        fprintf(to, "code %u", c->code);
        return;
    }
    fputs(c->form->word, to);
    for (int i = 0; i < c->count; i++) {
        uint32_t n = c->numbers[i];
        if (is_direction(c->form, i) && 1 <= n && n <= 3)
            fprintf(to, " %s", directions[n]);
        else
            fprintf(to, " %u", n);
    }
    if (c->count < c->form->count) fputs(" ..", to);
}

bool disassemble(const char *name, const struct bytes *script) {
    struct command c;
    for (int printing = 0; printing < 2; printing++) { // nothing is printed of a script that does not read
        struct reader r = {script->at, script->length, 0, NULL};
        for (uint32_t place = 0; place == 0 || r.at < r.length; place++) {
            if (!read_command(&r, place, &c)) {
                fprintf(stderr, "totlog: %s, byte %zu (the first is 1): %s where %s is expected\n", name, r.at + 1, r.fault,
                        part_wanted(&c));
                return false;
            }
            if (printing) {
                print_command(stdout, &c);
                putchar('\n');
            }
        }
    }
    return true;
}

// ---- text to bytes

struct word {
    const char *at;
    int length;
};

enum { MOST_WORDS = 2 + MOST_PARTS }; // a command's, and one too many

struct lines {
    const char *at, *end;
    unsigned long number; // of the line last taken, from 1
};

static struct lines lines_of(const struct bytes *text) {
    const char *at = (const char *)text->at;
    return (struct lines){at, at + text->length, 0};
}

static bool is_blank(char c) { return c == ' ' || c == '\t' || c == '\r'; }

// The words of the next line that has any, at most MOST_WORDS of them; 0 where the text ends.
static int next_words(struct lines *l, struct word words[MOST_WORDS]) {
    int count = 0;
    while (l->at < l->end && count == 0) {
        const char *newline = memchr(l->at, '\n', (size_t)(l->end - l->at));
        const char *end = newline ? newline : l->end, *next = newline ? newline + 1 : l->end;
        const char *comment = memchr(l->at, '#', (size_t)(end - l->at));
        if (comment) end = comment;
        for (const char *p = l->at; p < end && count < MOST_WORDS;) {
            const char *start = p;
            while (p < end && !is_blank(*p)) p++;
            if (p > start) words[count++] = (struct word){start, (int)(p - start)};
            while (p < end && is_blank(*p)) p++;
        }
        l->at = next;
        l->number++;
    }
    return count;
}

static bool is_word(struct word w, const char *name) {
    return (size_t)w.length == strlen(name) && !memcmp(w.at, name, (size_t)w.length);
}

bool parse_number(const char *word, size_t length, uint32_t *number) {
    *number = 0;
    for (size_t i = 0; i < length; i++) {
        if (word[i] < '0' || word[i] > '9') return false;
        *number = 10 * *number + (uint32_t)(word[i] - '0');
        if (*number > TOTLOG_MOST_NUMBER) return false;
    }
    return length > 0;
}

static bool parse_part(struct word w, const struct form *f, int part, uint32_t *number) {
    for (uint32_t d = 1; d <= 3 && is_direction(f, part); d++)
        if (is_word(w, directions[d])) {
            *number = d;
            return true;
        }
    return parse_number(w.at, (size_t)w.length, number);
}

// Says what stands in the text and what was expected. A word may be any bytes: only plain ones are shown as they are.
static bool unexpected(const char *name, unsigned long line, const struct word *w, const char *expected, const char *more) {
    fprintf(stderr, "totlog: %s, line %lu: expected %s%s, and ", name, line, expected, more);
    if (!w) {
        fprintf(stderr, "the line ends\n");
        return false;
    }
    fputs("here stands `", stderr);
    for (int i = 0; i < w->length && i < 40; i++)
        fprintf(stderr, ' ' < w->at[i] && w->at[i] <= '~' ? "%c" : "\\x%02x", (unsigned char)w->at[i]);
    fprintf(stderr, "%s`\n", w->length > 40 ? ".." : "");
    return false;
}

bool assemble(const char *name, const struct bytes *text, struct bytes *script) {
    struct lines l = lines_of(text);
    struct word w[MOST_WORDS];
    bool has_head = false;
    for (int count; (count = next_words(&l, w)) > 0; has_head = true) {
        int code = has_head ? LEAF : HEAD;
        if (!has_head && !is_word(w[0], "head"))
            return unexpected(name, l.number, w, "`head` first, with ", "VARIABLE STEP");
        while (code < FORMS && !is_word(w[0], forms[code].word)) code++;
        if (code == FORMS) return unexpected(name, l.number, w, "leaf, join, request or close", "");
        const struct form *f = &forms[code];
        if (has_head) put_number(script, (uint32_t)code);
        for (int i = 0; i < f->count; i++) {
            const char *kind = is_direction(f, i) ? ", if, only-if or both" : ", " NUMBER_RANGE;
            uint32_t number;
            if (1 + i >= count) return unexpected(name, l.number, NULL, f->parts[i], kind);
            if (!parse_part(w[1 + i], f, i, &number)) return unexpected(name, l.number, &w[1 + i], f->parts[i], kind);
            put_number(script, number);
        }
        if (count > 1 + f->count) return unexpected(name, l.number, &w[1 + f->count], "the line's end after ", f->word);
    }
    if (!has_head) fprintf(stderr, "totlog: %s: expected `head` first, and the text has no command\n", name);
    return has_head;
}

unsigned long line_of(const struct bytes *text, uint32_t place) {
    struct lines l = lines_of(text);
    struct word w[MOST_WORDS];
    for (uint32_t i = 0; i <= place; i++) next_words(&l, w);
    return l.number;
}
