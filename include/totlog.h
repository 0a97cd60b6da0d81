// The totalizer log: counters made by a script of bytes, and the log of their definitions, derivations and clauses.
#ifndef TOTLOG_H
#define TOTLOG_H

#include <stddef.h>
#include <stdint.h>

#ifdef __cplusplus
extern "C" {
#endif

// A script or a log is at most so long; a longer one is refused by number 1.
#define TOTLOG_MOST_BYTES 65536

// A number of a script or a log has at most four groups of seven bits, and is no larger than this.
#define TOTLOG_MOST_NUMBER 268435455

// The head's two numbers, the first output variable and the first step, are at most this.
#define TOTLOG_MOST_HEAD 100000000

// Six numbers of four bytes, low byte first.
#define TOTLOG_ANSWER_BYTES 24

// The free stack that a call needs. Its tables are local arrays: a call takes 334,880 bytes at most, as `tests/run` measures, which
// fails where it is more than this. A thread with a smaller stack has to be given one of this size at least.
#define TOTLOG_STACK_BYTES 393216

// The numbers by which a script is refused. 13 is not used.
enum {
    TOTLOG_ACCEPTED = 0,
    TOTLOG_TOO_LONG = 1,       // the script or the log is longer than 65,536 bytes
    TOTLOG_NO_NUMBER = 2,      // no number reads here: none is left, it is not in shortest form, or it has over four groups
    TOTLOG_HEAD = 3,           // the first output variable is above 100,000,000, or the first step is not 1 to 100,000,000
    TOTLOG_CLOSED = 4,         // a command after a close
    TOTLOG_NO_COMMAND = 5,     // the code is not 1 to 4
    TOTLOG_LEAF_VARIABLE = 6,  // the leaf's variable is not below the first output variable
    TOTLOG_LEAF = 7,           // the leaf's negation is a leaf, or there are 64 leaves
    TOTLOG_NO_NODE = 8,        // there is no such node
    TOTLOG_SHARED_LEAF = 9,    // a leaf lies below both nodes of the join, through windows or not; a leaf lies below itself
    TOTLOG_WINDOW = 10,        // the offset is not below the node's length, or the limit is above what the offset leaves of it
    TOTLOG_VALUE = 11,         // the value requested is not 1 to the node's length
    TOTLOG_DIRECTION = 12,     // the direction is not 1 (if), 2 (only-if) or 3 (both)
    TOTLOG_LOG_FULL = 14,      // what the command writes does not fit in the log
    TOTLOG_TOO_MANY_JOINS = 15 // there are 255 joins
};

// Plays a script, writes the log, and answers. `script` is only read.
//
// The answer's six numbers:
//   0  refusal number, 0 where the whole script is accepted
//   1  commands played or, where one is refused, its place: the first is 1, and 0 is the head, or the lengths
//   2  bytes of log
//   3  steps: records of kind 1 (definition) and 2 (derivation)
//   4  clauses: records of kind 3
//   5  nodes
// The last four are as after the last command that was accepted: a refused command writes nothing.
//
// Every byte of `log` is written: the log, and zeros from its length on. Every byte of `answer` is written: the numbers as
// far as it reaches, and zeros after. So what the two held before is of no matter.
//
// Each length may be any, 0 too, and where a length is 0 its pointer may be null. The slices must not overlap, and nobody
// else may write them meanwhile. Nothing outside them is read or written.
//
// A call keeps nothing for the next one, has no variables that outlive it and calls neither malloc nor the system: threads
// may call at the same time, each on slices of its own. It needs TOTLOG_STACK_BYTES of stack.
void totlog_play(const uint8_t *script, size_t script_len, uint8_t *log, size_t log_len, uint8_t *answer, size_t answer_len);

#ifdef __cplusplus
}
#endif

#endif
