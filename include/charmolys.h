/*
 * Charmolys for C: the seven calls of the bench, in the archive that `rt lib` makes in crates/bench_c
 * (out/libbench_c.a there, for x86-64 Linux). It keeps nothing between calls and asks for no memory, so calls on
 * different memory may run at the same time. Of the C library it needs memmove and memset and nothing else. A call takes
 * less than 8 KB of stack, whatever it is given (`make -C compare stack` works that out from the archive).
 *
 * What a caller owes: a pointer with a length n points to n bytes (for an answer, n numbers) that may be read, and
 * where it is not const, written. It is never NULL, also where n is 0. Memory that is not const overlaps no other
 * argument. Nothing else is asked: any bytes and any numbers get an answer.
 *
 * What a call does: it returns the answer's word and lays the answer's numbers into answer. An array shorter
 * than the answer gets as many numbers as it has places, and the word is the same. A longer one keeps what stands behind.
 * Words, numbers and every byte of state and output are those of the definitions in crates/model/specs/Calls.antt:
 * that is proved, for all arguments. A refusal changes no byte of state or output.
 *
 * Files and states are explained byte by byte in docs/FORMATS.md, refusals in docs/REFUSALS.md.
 */
#ifndef CHARMOLYS_H
#define CHARMOLYS_H

#include <stddef.h>
#include <stdint.h>

#ifdef __cplusplus
extern "C" {
#endif

/* The words. */
enum {
    CHARMOLYS_REFUSED = 0,  /* refused, or a run that ended by a fault: number, place, cycles */
    CHARMOLYS_ACCEPTED = 1, /* check: a good network file */
    CHARMOLYS_LOADED = 2,   /* load: value is the state's size in bytes */
    CHARMOLYS_MARKED = 3,   /* mark: value is the set, the rule numbers follow */
    CHARMOLYS_DONE = 4,     /* cycle: one cycle done; cycles is 1 */
    CHARMOLYS_IDLE = 5,     /* cycle, run: nothing is marked; cycles done in this call */
    CHARMOLYS_SPENT = 6,    /* run: something is marked and no budget is left; cycles done in this call */
    CHARMOLYS_WRITTEN = 7,  /* write_outputs: value is the length of the output file */
    CHARMOLYS_STRETCH = 8   /* rule_body: place is the offset of the body, value its length */
};

/* Where the numbers stand in answer. Those that a word doesn't name are 0. */
enum {
    CHARMOLYS_NUMBER = 0, /* the refusal's number, 1 to 9; 9 is a fault: a zero divisor in a box */
    CHARMOLYS_PLACE = 1,  /* the refusal's place: an offset, a wire, the bytes needed or a box, as its number says */
    CHARMOLYS_CYCLES = 2, /* cycles done in this call */
    CHARMOLYS_VALUE = 3,  /* a size, a length or the set of marks: bit k for process k */
    CHARMOLYS_RULES = 4   /* mark only: rule numbers of boxes 0 to 31, 16 for a box not marked or not there */
};

/* Limits. A file or a budget over its limit is refused; lent memory may always be longer than what is needed. */
enum {
    CHARMOLYS_ANSWER_LENGTH = 4,        /* numbers in the answer of every call but mark */
    CHARMOLYS_MARK_ANSWER_LENGTH = 36,  /* numbers in the answer of mark */
    CHARMOLYS_LARGEST_FILE = 16384,     /* bytes of a network file, and of a token file */
    CHARMOLYS_LARGEST_STATE = 61088,    /* bytes of a state */
    CHARMOLYS_LARGEST_OUTPUT = 40024,   /* bytes of an output file: 8 outputs of 1,000 tokens */
    CHARMOLYS_LARGEST_BUDGET = 65535    /* cycles of a run */
};

/* Is this a good network file? ACCEPTED, or REFUSED with 1 to 4. */
uint64_t charmolys_check(const uint8_t *network, size_t network_length,
                         uint64_t *answer, size_t answer_length);

/*
 * Where does the body of a rule stand in the network file? Boxes, and the rules of a box, are counted from 0. STRETCH:
 * the body is network[place] and the value - 1 bytes behind it. For an unknown box or rule, and for a refused
 * network, the stretch is empty at the file's end: place is network_length and value 0.
 */
uint64_t charmolys_rule_body(const uint8_t *network, size_t network_length, uint64_t box, uint64_t rule,
                             uint64_t *answer, size_t answer_length);

/*
 * Makes the state of a fresh start: wires and outputs empty, no token taken, variables initial. LOADED, and the first
 * value bytes of state are written, whatever stood there; or REFUSED with 1 to 6.
 */
uint64_t charmolys_load(const uint8_t *network, size_t network_length, const uint8_t *tokens, size_t tokens_length,
                        uint8_t *state, size_t state_length,
                        uint64_t *answer, size_t answer_length);

/*
 * What would fire now? MARKED: the set of processes (boxes first, then inputs, then outputs) and each box's rule; or
 * REFUSED with 1 to 7, or 9 for a fault. Beside a refusal all 32 rule numbers are 16.
 */
uint64_t charmolys_mark(const uint8_t *network, size_t network_length, const uint8_t *tokens, size_t tokens_length,
                        const uint8_t *state, size_t state_length,
                        uint64_t *answer, size_t answer_length);

/*
 * One cycle: the marked processes fire in the given order, a byte for each process number. DONE; or IDLE where nothing
 * is marked and order is empty; or REFUSED with 1 to 7, 9 for a fault, 8 for an order that isn't each marked process once.
 */
uint64_t charmolys_cycle(const uint8_t *network, size_t network_length, const uint8_t *tokens, size_t tokens_length,
                         uint8_t *state, size_t state_length, const uint8_t *order, size_t order_length,
                         uint64_t *answer, size_t answer_length);

/*
 * Cycles until nothing is marked (IDLE), the budget is spent with something marked (SPENT), or a fault (REFUSED with 9
 * and the box; state then holds the cycles done before, and cycles counts them). Or REFUSED with 1 to 7 and 0 cycles.
 */
uint64_t charmolys_run(const uint8_t *network, size_t network_length, const uint8_t *tokens, size_t tokens_length,
                       uint8_t *state, size_t state_length, uint64_t budget,
                       uint64_t *answer, size_t answer_length);

/*
 * Writes what the outputs got, a field for each output. WRITTEN, and the first value bytes of output are the output
 * file; or REFUSED with 1 to 4, 6 for a short state, 7, or 6 for a short output.
 */
uint64_t charmolys_write_outputs(const uint8_t *network, size_t network_length, const uint8_t *state, size_t state_length,
                                 uint8_t *output, size_t output_length,
                                 uint64_t *answer, size_t answer_length);

#ifdef __cplusplus
}
#endif

#endif
