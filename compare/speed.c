/* The same work through the library and through the reference, timed: speed. Times are of the processor, the best of a hundred tries.
   speed ROW 0 and speed ROW 1 do one row once, to count instructions. */
#include "cases.h"
#include "charmolys.h"

#include <inttypes.h>
#include <stdlib.h>
#include <string.h>
#include <time.h>

enum { TRIES = 100 };

/* ---- Networks and token files ---- */

struct file {
    uint8_t bytes[CHARMOLYS_LARGEST_FILE];
    size_t length;
};

/* Adds bytes. */
static void add(struct file *f, size_t count, const uint8_t *bytes) {
    if (f->length + count > sizeof f->bytes) {
        fprintf(stderr, "a file over its limit\n");
        exit(2);
    }
    memcpy(f->bytes + f->length, bytes, count);
    f->length += count;
}

#define ADD(f, ...) add(f, sizeof((const uint8_t[]){__VA_ARGS__}), (const uint8_t[]){__VA_ARGS__})

/* Adds a field with its body. */
static void add_field(struct file *f, uint8_t tag, const struct file *body) {
    ADD(f, tag, (uint8_t)(body->length >> 8), (uint8_t)body->length);
    add(f, body->length, body->bytes);
}

/* Adds a wire: signed, 16 bits. */
static void add_wire(struct file *f, unsigned capacity) { ADD(f, 1, 0, 3, 1, 16, (uint8_t)capacity); }

/* Adds the input of wire 0 and the output of a wire, with room 1,000. */
static void add_ends(struct file *f, uint8_t last) { ADD(f, 4, 0, 1, 0, 5, 0, 3, last, 1000 >> 8, 1000 & 255); }

/* Adds a box with one rule that sends the matched value, plus 1, on. */
static void add_increment(struct file *f, uint8_t from, uint8_t to) {
    ADD(f, 2, 0, 5, 1, 1, 0, from, to);
    ADD(f, 3, 0, 19, 1, 0, 0, 1, 0, 0, 0, 1, 1, 10, 1, 0, 0, 1, 16, 0, 0, 0, 1);
}

/* A chain of so many boxes that add 1. */
static void make_chain(struct file *f, unsigned boxes) {
    f->length = 0;
    for (unsigned w = 0; w <= boxes; w++) add_wire(f, 4);
    for (unsigned b = 0; b < boxes; b++) add_increment(f, (uint8_t)b, (uint8_t)(b + 1));
    add_ends(f, (uint8_t)boxes);
}

/* One box that adds 1, in every second cycle only, so that the wire before it stays full. */
static void make_queue(struct file *f, unsigned capacity) {
    f->length = 0;
    add_wire(f, capacity);
    add_wire(f, 1);
    ADD(f, 2, 0, 11, 1, 1, 1, 0, 1, 0, 1, 0, 0, 0, 0);
    ADD(f, 3, 0, 22, 0, 2, 0, 0, 0, 0, 0, 0, 1, 0, 0, 0, 1, 0, 1, 0, 0, 1, 0, 0, 0, 1);
    ADD(f, 3, 0, 28, 1, 0, 0, 0, 1, 0, 0, 0, 1, 1, 10, 1, 0, 0, 1, 16, 0, 0, 0, 1, 1, 0, 0, 1, 0, 0, 0, 0);
    add_ends(f, 1);
}

/* Adds an expression over the matched value with so many leaves, a power of 2. */
static void add_tree(struct file *f, unsigned leaves) {
    static const uint8_t operators[] = {10, 12, 11, 15, 16, 17};
    if (leaves == 1) {
        ADD(f, 1, 0);
        return;
    }
    ADD(f, operators[leaves % sizeof operators]);
    add_tree(f, leaves / 2);
    add_tree(f, leaves / 2);
}

/* One box whose action has an expression with so many leaves, and so does its guard, compared with itself. */
static void make_expressions(struct file *f, unsigned leaves) {
    static struct file body;
    body.length = f->length = 0;
    add_wire(f, 4);
    add_wire(f, 4);
    ADD(f, 2, 0, 5, 1, 1, 0, 0, 1);
    ADD(&body, 1, 20);
    add_tree(&body, leaves / 2);
    add_tree(&body, leaves / 2);
    ADD(&body, 1);
    add_tree(&body, leaves);
    add_field(f, 3, &body);
    add_ends(f, 1);
}

/* A filter: every fourth number goes on and is counted; the sum of the others is kept. */
static void make_filter(struct file *f) {
    static struct file body;
    f->length = 0;
    add_wire(f, 4);
    add_wire(f, 4);
    ADD(f, 2, 0, 17, 1, 1, 2, 0, 1, 2, 16, 0, 0, 0, 0, 1, 16, 0, 0, 0, 0);
    body.length = 0;
    ADD(&body, 1, 0, 0, 20, 14, 1, 0, 0, 1, 16, 0, 0, 0, 4, 0, 1, 16, 0, 0, 0, 0);
    ADD(&body, 1, 1, 0, 1, 10, 2, 0, 0, 2, 16, 0, 0, 0, 1, 0);
    add_field(f, 3, &body);
    body.length = 0;
    ADD(&body, 1, 0, 0, 0, 0, 1, 0, 0, 0, 1);
    ADD(&body, 0, 0, 1, 10, 2, 1, 1, 0);
    add_field(f, 3, &body);
    add_ends(f, 1);
}

/* A token file of one input: the numbers 1, 2, 3 and so on. */
static void make_tokens(struct file *f, unsigned count) {
    f->length = 0;
    ADD(f, 32, (uint8_t)(5 * count >> 8), (uint8_t)(5 * count));
    for (unsigned k = 1; k <= count; k++) ADD(f, 0, 0, 0, (uint8_t)(k >> 8), (uint8_t)k);
}

/* ---- Work ---- */

static uint8_t states[2][CHARMOLYS_LARGEST_STATE];

/* What a piece of work does with its files: through the reference (0) or the library (1); gives the cycles done. */
typedef uint64_t work(int through, const struct file *n, const struct file *t);

/* A load, and a run of up to 65,535 cycles. */
static uint64_t load_and_run(int through, const struct file *n, const struct file *t) {
    uint8_t *state = states[through];
    if (through == 0) {
        struct input_bytes network = {n->bytes, n->length}, tokens = {t->bytes, t->length};
        struct lent_bytes lent = {state, sizeof states[0]};
        reference_load(network, tokens, lent);
        return reference_run(network, tokens, lent, 65535).cycles;
    }
    uint64_t a[CHARMOLYS_ANSWER_LENGTH];
    charmolys_load(n->bytes, n->length, t->bytes, t->length, state, sizeof states[0], a, 4);
    charmolys_run(n->bytes, n->length, t->bytes, t->length, state, sizeof states[0], 65535, a, 4);
    return a[CHARMOLYS_CYCLES];
}

/* A load, then a call of run for each of a hundred cycles, as a bench does that shows them one by one. */
static uint64_t load_and_step(int through, const struct file *n, const struct file *t) {
    uint8_t *state = states[through];
    uint64_t a[CHARMOLYS_ANSWER_LENGTH], cycles = 0;
    struct input_bytes network = {n->bytes, n->length}, tokens = {t->bytes, t->length};
    struct lent_bytes lent = {state, sizeof states[0]};
    if (through == 0) reference_load(network, tokens, lent);
    else charmolys_load(n->bytes, n->length, t->bytes, t->length, state, sizeof states[0], a, 4);
    for (unsigned k = 0; k < 100; k++) {
        if (through == 0) {
            cycles += reference_run(network, tokens, lent, 1).cycles;
        } else {
            charmolys_run(n->bytes, n->length, t->bytes, t->length, state, sizeof states[0], 1, a, 4);
            cycles += a[CHARMOLYS_CYCLES];
        }
    }
    return cycles;
}

/* ---- Time ---- */

/* Seconds that this program has used a processor. */
static double now(void) { return (double)clock() / CLOCKS_PER_SEC; }

/* The one row to do, and through which bench: for a tool that counts the instructions of a program. None: all are timed. */
static int only_row = -1, only_through;

/* Does the work through both in turn, and prints the best times; the ends must be the same. */
static void measure(const char *name, unsigned size, work *w, const struct file *n, const struct file *t) {
    static int row = 0;
    if (only_row >= 0) {
        if (row++ == only_row) w(only_through, n, t);
        return;
    }
    double best[2] = {1e9, 1e9};
    uint64_t cycles[2] = {0, 0};
    for (unsigned k = 0; k < TRIES; k++) {
        for (int through = 0; through < 2; through++) {
            double start = now();
            cycles[through] = w(through, n, t);
            double taken = now() - start;
            if (taken < best[through]) best[through] = taken;
        }
    }
    if (cycles[0] == 0 || cycles[0] != cycles[1] || memcmp(states[0], states[1], sizeof states[0]) != 0) {
        printf("%s %u: refused, or the two differ\n", name, size);
        exit(1);
    }
    double each = 1e6 / (double)cycles[0];
    printf("%-34s %5u %7" PRIu64 " %10.3f %10.3f %9.3f %9.3f %7.2f\n", name, size, cycles[0], 1e3 * best[1], 1e3 * best[0],
           best[1] * each, best[0] * each, best[1] / best[0]);
}

/* Each piece of work as it grows. With two numbers: the work of that row (from 0) once, through the reference (0) or the library (1), and nothing printed. */
int main(int count, char **words) {
    static struct file n, t;
    if (count == 3) {
        only_row = atoi(words[1]);
        only_through = atoi(words[2]);
    } else printf("%-34s %5s %7s %10s %10s %9s %9s %7s\n", "work", "size", "cycles", "library ms", "ref. ms", "lib us/c", "ref us/c", "ratio");
    make_queue(&n, 64);
    for (unsigned k = 125; k <= 1000; k *= 2) {
        make_tokens(&t, k);
        measure("INC, a queue of 64; tokens", k, load_and_run, &n, &t);
    }
    for (unsigned k = 1; k <= 64; k *= 4) {
        make_queue(&n, k);
        measure("INC, 1,000 tokens; queue", k, load_and_run, &n, &t);
    }
    make_tokens(&t, 500);
    for (unsigned k = 1; k <= 32; k *= 2) {
        make_chain(&n, k);
        measure("chain, 500 tokens; boxes", k, load_and_run, &n, &t);
    }
    for (unsigned k = 4; k <= 64; k *= 2) {
        make_expressions(&n, k);
        measure("expressions, 500 tokens; leaves", k, load_and_run, &n, &t);
    }
    make_filter(&n);
    for (unsigned k = 375; k <= 3000; k *= 2) {
        make_tokens(&t, k);
        measure("filter with variables; tokens", k, load_and_run, &n, &t);
    }
    make_tokens(&t, 500);
    for (unsigned k = 1; k <= 32; k *= 2) {
        make_chain(&n, k);
        measure("chain by single cycles; boxes", k, load_and_step, &n, &t);
    }
    return 0;
}
