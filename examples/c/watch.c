/*
 * Watches tokens move: watch NETWORK TOKENS. Loads a network with its tokens, and shows before each cycle what is
 * marked and what every wire holds, then what the outputs got. An example of calling Charmolys from C.
 */
#include "charmolys.h"

#include <inttypes.h>
#include <stdio.h>
#include <stdlib.h>

/* A file with one byte more than is allowed, so that one that is too long is noticed. */
struct file {
    uint8_t bytes[CHARMOLYS_LARGEST_FILE + 1];
    size_t length;
};

/* What the network file tells of itself: how many boxes and inputs it has, and how many tokens each wire holds. */
struct shape {
    unsigned wires, boxes, inputs;
    unsigned capacities[64];
};

/* Reads a file; one that can't be opened ends the program. */
static void read_file(const char *name, struct file *f) {
    FILE *in = fopen(name, "rb");
    if (in == NULL) {
        fprintf(stderr, "%s can't be opened\n", name);
        exit(2);
    }
    f->length = fread(f->bytes, 1, sizeof f->bytes, in);
    fclose(in);
}

/* Goes through the fields of an accepted network file: a tag, a length of two bytes, a body. */
static struct shape read_shape(const struct file *f) {
    struct shape s = {0};
    for (size_t at = 0; at < f->length;) {
        const uint8_t *field = f->bytes + at;
        if (field[0] == 1) s.capacities[s.wires++] = field[5];
        if (field[0] == 2) s.boxes++;
        if (field[0] == 4) s.inputs++;
        at += 3 + ((size_t)field[1] << 8) + field[2];
    }
    return s;
}

/* Prints tokens of five bytes each: a tag and a value, high byte first. */
static void print_tokens(const uint8_t *t, size_t count) {
    for (; count > 0; count--, t += 5) {
        int32_t value = (int32_t)((uint32_t)t[1] << 24 | (uint32_t)t[2] << 16 | (uint32_t)t[3] << 8 | t[4]);
        if (t[0] == 0) printf(" %" PRId32, value);
        else if (t[0] == 3) printf(" '%" PRId32, value);
        else printf(" '%c", t[0] == 1 ? '<' : '>');
    }
}

/* Prints the queue of each wire: in the state a count, then room for as many tokens as it holds, oldest first. */
static void print_wires(const struct shape *s, const uint8_t *state) {
    for (unsigned w = 0; w < s->wires; w++) {
        printf("   wire %u:", w);
        print_tokens(state + 1, state[0]);
        printf("\n");
        state += 1 + 5 * s->capacities[w];
    }
}

/* Prints the marked processes: boxes with their rules, then inputs, then outputs. */
static void print_marks(const struct shape *s, const uint64_t *answer) {
    for (unsigned k = 0; k < 64; k++) {
        if ((answer[CHARMOLYS_VALUE] >> k & 1) == 0) continue;
        if (k < s->boxes) printf(" box %u rule %" PRIu64, k, answer[CHARMOLYS_RULES + k]);
        else if (k < s->boxes + s->inputs) printf(" input %u", k - s->boxes);
        else printf(" output %u", k - s->boxes - s->inputs);
    }
    printf("\n");
}

/* Ends the program if the call was refused. */
static void go_on(uint64_t word, const uint64_t *answer) {
    if (word != CHARMOLYS_REFUSED) return;
    printf("refused %" PRIu64 " place %" PRIu64 "\n", answer[CHARMOLYS_NUMBER], answer[CHARMOLYS_PLACE]);
    exit(1);
}

/* Prints the tokens that each output got, from the output file. */
static void print_outputs(const struct file *n, const uint8_t *state) {
    static uint8_t output[CHARMOLYS_LARGEST_OUTPUT];
    uint64_t a[CHARMOLYS_ANSWER_LENGTH];
    go_on(charmolys_write_outputs(n->bytes, n->length, state, CHARMOLYS_LARGEST_STATE, output, sizeof output, a, 4), a);
    for (size_t at = 0, k = 0; at < a[CHARMOLYS_VALUE]; k++) {
        size_t length = (size_t)output[at + 1] << 8 | output[at + 2];
        printf("out %zu:", k);
        print_tokens(output + at + 3, length / 5);
        printf("\n");
        at += 3 + length;
    }
}

/* Steps cycle by cycle, until nothing is marked. */
int main(int count, char **arguments) {
    static struct file n, t;
    static uint8_t state[CHARMOLYS_LARGEST_STATE];
    uint64_t a[CHARMOLYS_MARK_ANSWER_LENGTH];
    uint8_t order[64];
    if (count != 3) {
        fprintf(stderr, "watch NETWORK TOKENS\n");
        return 2;
    }
    read_file(arguments[1], &n);
    read_file(arguments[2], &t);
    go_on(charmolys_load(n.bytes, n.length, t.bytes, t.length, state, sizeof state, a, 36), a);
    struct shape s = read_shape(&n);
    for (unsigned cycle = 1; cycle <= 1000; cycle++) {
        go_on(charmolys_mark(n.bytes, n.length, t.bytes, t.length, state, sizeof state, a, 36), a);
        size_t marked = 0;
        for (unsigned k = 0; k < 64; k++)
            if (a[CHARMOLYS_VALUE] >> k & 1) order[marked++] = (uint8_t)k;
        if (marked == 0) break;
        printf("cycle %u:", cycle);
        print_marks(&s, a);
        print_wires(&s, state);
        go_on(charmolys_cycle(n.bytes, n.length, t.bytes, t.length, state, sizeof state, order, marked, a, 36), a);
    }
    printf("the end\n");
    print_wires(&s, state);
    print_outputs(&n, state);
    return 0;
}
