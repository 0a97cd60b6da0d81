// Byte strings that grow, and the numbers of scripts and logs: groups of seven bits, low group first, top bit set where
// another follows, shortest form, at most four groups.
#include "driver.h"

#include <stdlib.h>

void put_byte(struct bytes *b, uint8_t byte) {
    if (b->length == b->room) {
        b->room = b->room ? 2 * b->room : 4096;
        b->at = realloc(b->at, b->room);
        if (!b->at) {
            fprintf(stderr, "totlog: no memory\n");
            exit(2);
        }
    }
    b->at[b->length++] = byte;
}

void put_number(struct bytes *b, uint32_t number) {
    for (; number >= 128; number /= 128) put_byte(b, (uint8_t)(number % 128 + 128));
    put_byte(b, (uint8_t)number);
}

enum { MOST_GROUPS = 4 };
_Static_assert(TOTLOG_MOST_NUMBER == (1 << 7 * MOST_GROUPS) - 1, "the largest number has all groups full");

static bool fault(struct reader *r, const char *why) {
    r->fault = why;
    return false;
}

bool read_number(struct reader *r, uint32_t *number) {
    *number = 0;
    for (int group = 0;; group++) {
        if (r->at == r->length) return fault(r, group ? "it ends inside a number" : "it ends");
        uint8_t byte = r->bytes[r->at];
        if (group > 0 && byte == 0) return fault(r, "the number is not in shortest form");
        if (group == MOST_GROUPS - 1 && byte >= 128) return fault(r, "the number has more than four groups");
        *number |= (uint32_t)(byte % 128) << (7 * group);
        r->at++;
        if (byte < 128) return true;
    }
}
