/* A case is one call with its arguments, as a line of a file of cases writes it. */
#ifndef CASES_H
#define CASES_H

#include "reference.h"

#include <stdbool.h>
#include <stdio.h>

/* Bytes that a case owns; there is false where the call has no such thing. */
struct bytes {
    bool there;
    uint8_t *data;
    size_t length;
};

struct call_case {
    char call[8];
    struct bytes network, tokens, state;
    struct bytes order;     /* of cycle */
    uint64_t numbers[2];    /* budget of run, length of write, box and rule of body */
};

/* What a call answered: its words, and the lent buffer afterwards. */
struct outcome {
    char words[200];
    struct bytes lent;
};

/* Makes bytes of a length, all equal to fill. */
struct bytes bytes_make(size_t length, uint8_t fill);

/* A copy of bytes. */
struct bytes bytes_copy(struct bytes from);

/* Gives the memory back. */
void bytes_free(struct bytes *b);

/* Do both hold the same? */
bool bytes_same(struct bytes a, struct bytes b);

/* The same bytes, for a call that reads them. */
struct input_bytes bytes_view(struct bytes b);

/* Reads hexadecimal, "-" for empty bytes or "." for none; false if it is neither. */
bool bytes_parse(const char *text, struct bytes *b);

/* Writes bytes as bytes_parse reads them. */
void bytes_print(FILE *out, struct bytes b);

/* Reads the columns of a case from "call network tokens state argument". */
bool case_parse(char *text, struct call_case *c);

/* Writes those columns. */
void case_print(FILE *out, const struct call_case *c);

/* Gives the memory of a case back. */
void case_free(struct call_case *c);

/* The buffer that a case lends, as it is before the call. */
struct bytes case_lent(const struct call_case *c);

/* Puts the call of a case to a bench; lent is its buffer: the output's for write, else the state's. */
typedef struct answer bench_asked(const struct call_case *c, struct bytes lent);

/* Puts it to the reference. */
struct answer ask_reference(const struct call_case *c, struct bytes lent);

/* Asks a bench. */
struct outcome case_ask(const struct call_case *c, bench_asked *ask);

#endif
