/* Document 01 in C: the seven calls and the text of the run program. */
#ifndef REFERENCE_H
#define REFERENCE_H

#include <stddef.h>
#include <stdint.h>

/* The words of an answer. */
enum answer_kind {
    REFUSED,  /* number, place, cycles */
    ACCEPTED, /* a network is good */
    STRETCH,  /* a rule's body: place is its offset, size its length */
    LOADED,   /* size is the state's size */
    MARKED,   /* set and rules */
    DONE,     /* one cycle done */
    IDLE,     /* nothing marked: cycles */
    SPENT,    /* something marked and no budget left: cycles */
    WRITTEN   /* size is the length of the output file */
};

/* What a call answers; parts that its kind does not name are 0. */
struct answer {
    enum answer_kind kind;
    unsigned number;   /* refusal number, 1 to 9 */
    size_t place;
    unsigned cycles;
    size_t size;
    uint64_t set;      /* bit k for process k */
    uint8_t rules[32]; /* 16 for a box not marked or not there */
};

/* Bytes that are only read. */
struct input_bytes {
    const uint8_t *bytes;
    size_t length;
};

/* Bytes that are lent for writing. */
struct lent_bytes {
    uint8_t *bytes;
    size_t length;
};

/* Is this a good network file? */
struct answer reference_check(struct input_bytes network);

/* Where does the body of a rule of a box stand in the network file? */
struct answer reference_rule_body(struct input_bytes network, size_t box, size_t rule);

/* Makes the state of a fresh start in the lent bytes. */
struct answer reference_load(struct input_bytes network, struct input_bytes tokens, struct lent_bytes state);

/* Which processes are marked, and by which rules? */
struct answer reference_mark(struct input_bytes network, struct input_bytes tokens, struct input_bytes state);

/* Does one cycle in the given order of process numbers. */
struct answer reference_cycle(struct input_bytes network, struct input_bytes tokens, struct lent_bytes state,
                              struct input_bytes order);

/* Does cycles until idle, a fault, or the budget is spent. */
struct answer reference_run(struct input_bytes network, struct input_bytes tokens, struct lent_bytes state,
                            uint64_t budget);

/* Writes the output file of a state into the lent bytes. */
struct answer reference_write_outputs(struct input_bytes network, struct input_bytes state,
                                      struct lent_bytes output);

/* The text of the run program, to be freed by the caller; NULL only where memory fails. */
char *reference_print_run(struct input_bytes network, struct input_bytes tokens);

#endif
