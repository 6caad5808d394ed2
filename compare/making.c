/* Cases of the seven calls, made from a seed. */
#include "making.h"

#include <stdlib.h>
#include <string.h>

/* ---- Chance: the same numbers for the same seed ---- */

static uint64_t chance_state;

/* The next number (splitmix64). */
static uint64_t next_number(void) {
    uint64_t z = chance_state += 0x9e3779b97f4a7c15u;
    z = (z ^ (z >> 30)) * 0xbf58476d1ce4e5b9u;
    z = (z ^ (z >> 27)) * 0x94d049bb133111ebu;
    return z ^ (z >> 31);
}

/* A number below n; 0 for n = 0. */
static unsigned below(size_t n) { return n == 0 ? 0 : (unsigned)(next_number() % n); }

/* True in so many of a hundred cases. */
static bool often(unsigned percent) { return below(100) < percent; }

/* One of a list of numbers. */
static unsigned one_of(const unsigned *list, unsigned count) { return list[below(count)]; }

#define ONE_OF(...) \
    one_of((const unsigned[]){__VA_ARGS__}, sizeof((const unsigned[]){__VA_ARGS__}) / sizeof(unsigned))

/* ---- Bytes being built ---- */

enum { ROOM = 70000 };

struct builder {
    uint8_t data[ROOM];
    size_t length;
};

/* Adds a byte; what does not fit any more is left out. */
static void add_byte(struct builder *b, unsigned v) {
    if (b->length < ROOM) b->data[b->length++] = (uint8_t)v;
}

/* Adds two bytes, high byte first. */
static void add_two(struct builder *b, unsigned v) {
    add_byte(b, v >> 8);
    add_byte(b, v);
}

/* Adds four bytes, high byte first. */
static void add_four(struct builder *b, int64_t v) {
    for (unsigned i = 0; i < 4; i++) add_byte(b, (unsigned)((uint64_t)v >> (24 - 8 * i)) & 255);
}

/* Begins a field; gives the place of its length. */
static size_t begin_field(struct builder *b, unsigned tag) {
    add_byte(b, tag);
    add_two(b, 0);
    return b->length - 2;
}

/* Ends a field: writes its length. */
static void end_field(struct builder *b, size_t at) {
    size_t length = b->length - at - 2;
    b->data[at] = (uint8_t)(length >> 8);
    b->data[at + 1] = (uint8_t)length;
}

/* Opens a gap of n bytes at an offset. */
static void open_gap(struct builder *b, size_t at, size_t n) {
    if (b->length + n > ROOM) return;
    memmove(b->data + at + n, b->data + at, b->length - at);
    b->length += n;
}

/* Takes n bytes out at an offset. */
static void close_gap(struct builder *b, size_t at, size_t n) {
    memmove(b->data + at, b->data + at + n, b->length - at - n);
    b->length -= n;
}

/* ---- The plan of a network ---- */

struct type {
    unsigned kind, p;
};

struct box_plan {
    unsigned inputs, outputs, variables;
    unsigned input_wires[4], output_wires[4];
    struct type variable_types[4];
};

struct plan {
    unsigned wires, boxes, inputs, outputs;
    struct type wire_types[64];
    struct box_plan box[32];
    unsigned input_wires[8], output_wires[8];
    struct type favoured[3];
    bool largest; /* everything at its limit: the state is 61,088 bytes */
};

/* Are two types one? */
static bool same_type(struct type a, struct type b) { return a.kind == b.kind && a.p == b.p; }

/* The type of what a wire carries. */
static struct type carried(struct type t) {
    if (t.kind > 2) t.kind -= 2;
    return t;
}

/* A type of a kind below so many. */
static struct type any_type(unsigned kinds) {
    struct type t;
    t.kind = below(kinds);
    t.p = often(75) ? ONE_OF(1, 2, 4, 5, 8, 8, 16, 29, 30) : 1 + below(30);
    if (t.kind == 0) t.p = 1;
    return t;
}

/* One of the types that the network likes, or any. */
static struct type likely_type(const struct plan *p, unsigned kinds) {
    struct type t = p->favoured[below(3)];
    if (kinds < 5) t = carried(t);
    return often(85) ? t : any_type(kinds);
}

/* A value of a type: small, at the edges, or any. */
static int64_t any_value(struct type t) {
    int64_t size = (int64_t)1 << t.p;
    int64_t low = t.kind == 1 ? -size / 2 : 0;
    int64_t high = low + size - 1;
    unsigned way = below(10);
    int64_t v = way < 6 ? (int64_t)below(5) - 1 : way == 6 ? low : way == 7 ? high : low + (int64_t)(next_number() % (uint64_t)size);
    return v < low ? low : v > high ? high : v;
}

/* How many ports of a side the boxes have together. */
static unsigned box_ports(const struct plan *p, bool reading) {
    unsigned sum = 0;
    for (unsigned b = 0; b < p->boxes; b++) sum += reading ? p->box[b].inputs : p->box[b].outputs;
    return sum;
}

/* Takes a port of a side from some box that has one. */
static void drop_box_port(struct plan *p, bool reading) {
    unsigned b = below(p->boxes);
    for (unsigned tries = 0; tries < p->boxes; tries++, b = (b + 1) % p->boxes) {
        unsigned *ports = reading ? &p->box[b].inputs : &p->box[b].outputs;
        if (*ports == 0) continue;
        --*ports;
        return;
    }
}

/* Makes as many writing as reading ports, and at most 64 of each. */
static void balance(struct plan *p) {
    while (box_ports(p, true) > 56) drop_box_port(p, true);
    while (box_ports(p, false) > 56) drop_box_port(p, false);
    for (;;) {
        unsigned writers = box_ports(p, false) + p->inputs, readers = box_ports(p, true) + p->outputs;
        if (writers == readers) break;
        unsigned *ports = writers < readers ? &p->inputs : &p->outputs;
        if (*ports < 8) ++*ports;
        else drop_box_port(p, writers < readers);
    }
    p->wires = box_ports(p, false) + p->inputs;
}

/* Shuffles numbers; with few swaps they stay near their places. */
static void shuffle(unsigned *list, unsigned count, unsigned swaps) {
    for (unsigned k = 0; count > 0 && k < swaps; k++) {
        unsigned i = below(count), j = below(count), kept = list[i];
        list[i] = list[j];
        list[j] = kept;
    }
}

/* Joins each wire to one writing and one reading port, mostly forwards. */
static void join(struct plan *p) {
    unsigned names[64], readers[64], n = 0;
    for (unsigned i = 0; i < 64; i++) names[i] = i;
    shuffle(names, p->wires, often(50) ? 0 : 200);
    memcpy(readers, names, sizeof names);
    shuffle(readers, p->wires, often(60) ? below(3) : 200);
    for (unsigned i = 0; i < p->inputs; i++) p->input_wires[i] = names[n++];
    for (unsigned b = 0; b < p->boxes; b++)
        for (unsigned i = 0; i < p->box[b].outputs; i++) p->box[b].output_wires[i] = names[n++];
    n = 0;
    for (unsigned b = 0; b < p->boxes; b++)
        for (unsigned i = 0; i < p->box[b].inputs; i++) p->box[b].input_wires[i] = readers[n++];
    for (unsigned i = 0; i < p->outputs; i++) p->output_wires[i] = readers[n++];
}

/* Plans a good network. */
static void make_plan(struct plan *p) {
    memset(p, 0, sizeof *p);
    p->boxes = often(75) ? 1 + below(4) : often(50) ? below(9) : often(60) ? 0 : 32;
    p->inputs = often(90) ? 1 + below(3) : below(9);
    p->outputs = often(90) ? 1 + below(3) : below(9);
    p->largest = below(500) == 0;
    if (p->largest) {
        p->boxes = 32;
        p->inputs = p->outputs = 8;
    }
    for (unsigned i = 0; i < 3; i++) p->favoured[i] = any_type(5);
    for (unsigned b = 0; b < p->boxes; b++) {
        struct box_plan *box = &p->box[b];
        box->inputs = often(90) ? 1 + below(2) : below(5);
        box->outputs = often(90) ? 1 + below(2) : below(5);
        box->variables = often(80) ? below(3) : below(5);
        if (p->largest) {
            box->inputs = box->outputs = 2;
            box->variables = 4;
        }
        for (unsigned j = 0; j < 4; j++) box->variable_types[j] = likely_type(p, 3);
    }
    balance(p);
    for (unsigned w = 0; w < p->wires; w++) p->wire_types[w] = likely_type(p, 5);
    join(p);
}

/* ---- Expressions: well typed, but for slips ---- */

/* Out of so many expressions one gets a type or an index that does not fit; 0 for none. */
static unsigned slips;

/* The box and the patterns that an expression may speak of. */
struct scope {
    const struct plan *plan;
    const struct box_plan *box;
    unsigned patterns[4];
};

static void make_expression(struct builder *b, const struct scope *s, struct type t, unsigned depth);

/* Adds a literal of the type. */
static void make_literal(struct builder *b, struct type t, int64_t v) {
    add_byte(b, 0);
    add_byte(b, t.kind);
    add_byte(b, t.p);
    add_four(b, v);
}

/* Lists what an expression may refer to: codes and indices with their types. */
static unsigned references(const struct scope *s, unsigned (*list)[2], struct type *types) {
    unsigned n = 0;
    for (unsigned i = 0; i < s->box->inputs; i++) {
        if (s->patterns[i] != 1 && s->patterns[i] != 5) continue;
        types[n] = carried(s->plan->wire_types[s->box->input_wires[i]]);
        list[n][0] = 1;
        list[n++][1] = i;
    }
    for (unsigned j = 0; j < s->box->variables; j++) {
        types[n] = s->box->variable_types[j];
        list[n][0] = 2;
        list[n++][1] = j;
    }
    return n;
}

/* Adds a matched value, a variable, a cast of one, or a literal. */
static void make_leaf(struct builder *b, const struct scope *s, struct type t, unsigned depth) {
    unsigned list[8][2], n;
    struct type types[8];
    n = references(s, list, types);
    unsigned k = below(n);
    for (unsigned tries = 0; tries < n && often(90); tries++, k = (k + 1) % n) {
        bool same = same_type(types[k], t);
        bool by_cast = !same && depth > 1 && t.kind != 0 && types[k].kind != 0;
        if (!same && !by_cast) continue;
        if (by_cast) {
            add_byte(b, 3);
            add_byte(b, t.kind);
            add_byte(b, t.p);
        }
        add_byte(b, list[k][0]);
        add_byte(b, slips > 0 && below(slips) == 0 ? below(6) : list[k][1]);
        return;
    }
    make_literal(b, t, any_value(t));
}

/* Adds an operator of two operands of one type, or a shift. */
static void make_two(struct builder *b, const struct scope *s, unsigned code, struct type left, unsigned depth) {
    const struct type count = {2, 5};
    bool shift = code == 18 || code == 19, divides = code == 13 || code == 14;
    add_byte(b, code);
    make_expression(b, s, left, depth - 1);
    int64_t divisor = any_value(left);
    if (divides && divisor != 0 && often(75)) make_literal(b, left, divisor);
    else make_expression(b, s, shift ? count : left, depth - 1);
}

/* Adds an operator that gives a bool. */
static void make_bool(struct builder *b, const struct scope *s, unsigned depth) {
    const struct type truth = {0, 1};
    unsigned way = below(10);
    if (way < 2) {
        add_byte(b, 4);
        make_expression(b, s, truth, depth - 1);
    } else if (way < 4) {
        make_two(b, s, 26 + below(2), truth, depth);
    } else {
        struct type t = likely_type(s->plan, 3);
        make_two(b, s, t.kind == 0 ? 20 + below(2) : 20 + below(6), t, depth);
    }
}

/* Adds a chain of not or lnot of exactly this depth. */
static void make_chain(struct builder *b, const struct scope *s, struct type t, unsigned depth) {
    for (; depth > 1; depth--) add_byte(b, t.kind == 0 ? 4 : 5);
    make_leaf(b, s, t, 1);
}

/* Adds an expression of the type, of at most this depth. */
static void make_expression(struct builder *b, const struct scope *s, struct type t, unsigned depth) {
    const struct type truth = {0, 1};
    if (slips > 0 && below(slips) == 0) t = any_type(3);
    if (depth <= 1 || often(30)) {
        make_leaf(b, s, t, depth);
    } else if (often(15)) {
        add_byte(b, 30);
        make_expression(b, s, truth, depth - 1);
        make_expression(b, s, t, depth - 1);
        make_expression(b, s, t, depth - 1);
    } else if (t.kind == 0) {
        make_bool(b, s, depth);
    } else if (often(12)) {
        add_byte(b, 5);
        make_expression(b, s, t, depth - 1);
    } else if (often(12)) {
        struct type from = likely_type(s->plan, 3);
        if (from.kind == 0) from = t;
        add_byte(b, 3);
        add_byte(b, t.kind);
        add_byte(b, t.p);
        make_expression(b, s, from, depth - 1);
    } else {
        make_two(b, s, 10 + below(10), t, depth);
    }
}

/* Adds the expression of a guard or an action; seldom one of depth 16 or, refused, 17. */
static void make_whole(struct builder *b, const struct scope *s, struct type t, unsigned depth) {
    if (below(400) == 0) make_chain(b, s, t, 17);
    else if (below(150) == 0) make_chain(b, s, t, 16);
    else make_expression(b, s, t, depth);
}

/* ---- The network file ---- */

/* Adds the patterns of a rule; an open one takes any value. */
static void make_patterns(struct builder *b, struct scope *s, bool open) {
    for (unsigned i = 0; i < s->box->inputs; i++) {
        struct type t = s->plan->wire_types[s->box->input_wires[i]];
        unsigned code = t.kind < 3 ? ONE_OF(0, 1, 1, 1, 1, 2) : ONE_OF(0, 3, 4, 5, 5, 5, 6);
        if (open) code = t.kind < 3 ? 1 : 5;
        s->patterns[i] = code;
        add_byte(b, code);
        if (code == 2 || code == 6) add_four(b, any_value(carried(t)));
    }
    for (unsigned j = 0; j < s->box->variables; j++) {
        unsigned code = open ? 0 : ONE_OF(0, 0, 0, 0, 2);
        add_byte(b, code);
        if (code == 2) add_four(b, any_value(s->box->variable_types[j]));
    }
}

/* Adds the actions of a rule. */
static void make_actions(struct builder *b, const struct scope *s, unsigned depth) {
    for (unsigned i = 0; i < s->box->outputs; i++) {
        struct type t = s->plan->wire_types[s->box->output_wires[i]];
        unsigned code = t.kind < 3 ? ONE_OF(0, 1, 1, 1, 1, 1) : ONE_OF(0, 3, 4, 5, 5, 5, 5);
        add_byte(b, code);
        if (code == 1 || code == 5) make_whole(b, s, carried(t), depth);
    }
    for (unsigned j = 0; j < s->box->variables; j++) {
        unsigned code = ONE_OF(0, 1, 1);
        add_byte(b, code);
        if (code == 1) make_whole(b, s, s->box->variable_types[j], depth);
    }
}

/* Adds a rule of a box; seldom one over 512 bytes. An open one fires on any values. */
static void make_rule(struct builder *b, const struct plan *p, const struct box_plan *box, bool open) {
    const struct type truth = {0, 1};
    size_t start = b->length;
    unsigned depth = often(3) ? 8 : 1 + below(4);
    for (;;) {
        struct scope s = {p, box, {0}};
        b->length = start;
        size_t at = begin_field(b, 3);
        make_patterns(b, &s, open);
        if (open || often(55)) make_literal(b, truth, 1);
        else make_whole(b, &s, truth, depth);
        make_actions(b, &s, depth);
        end_field(b, at);
        if (b->length - at - 2 <= 512 || depth == 1 || often(5)) return;
        depth--;
    }
}

/* Adds a box and its rules. */
static void make_box(struct builder *b, const struct plan *p, const struct box_plan *box) {
    size_t at = begin_field(b, 2);
    add_byte(b, box->inputs);
    add_byte(b, box->outputs);
    add_byte(b, box->variables);
    for (unsigned i = 0; i < box->inputs; i++) add_byte(b, box->input_wires[i]);
    for (unsigned i = 0; i < box->outputs; i++) add_byte(b, box->output_wires[i]);
    for (unsigned j = 0; j < box->variables; j++) {
        add_byte(b, box->variable_types[j].kind);
        add_byte(b, box->variable_types[j].p);
        add_four(b, any_value(box->variable_types[j]));
    }
    end_field(b, at);
    unsigned rules = often(96) ? 1 + below(4) : ONE_OF(0, 16, 16);
    if (p->largest) rules = 1;
    for (unsigned k = 0; k < rules; k++) make_rule(b, p, box, k + 1 == rules && often(80));
}

/* Writes the network file of a plan. */
static void make_network(struct builder *b, const struct plan *p) {
    b->length = 0;
    for (unsigned w = 0; w < p->wires; w++) {
        size_t at = begin_field(b, 1);
        add_byte(b, p->wire_types[w].kind);
        add_byte(b, p->wire_types[w].p);
        add_byte(b, p->largest ? 64 : often(97) ? 1 + below(4) : ONE_OF(1, 63, 64));
        end_field(b, at);
    }
    for (unsigned k = 0; k < p->boxes; k++) make_box(b, p, &p->box[k]);
    for (unsigned i = 0; i < p->inputs; i++) {
        size_t at = begin_field(b, 4);
        add_byte(b, p->input_wires[i]);
        end_field(b, at);
    }
    for (unsigned i = 0; i < p->outputs; i++) {
        size_t at = begin_field(b, 5);
        add_byte(b, p->output_wires[i]);
        add_two(b, p->largest ? 1000 : often(97) ? 1 + below(20) : ONE_OF(255, 256, 999, 1000));
        end_field(b, at);
    }
}

/* Writes a network file of exactly this length: boxes without ports whose guards fill it. */
static void make_long_network(struct builder *b, size_t length) {
    const struct type truth = {0, 1};
    unsigned rules = 16;
    b->length = 0;
    while (b->length < length) {
        size_t left = length - b->length;
        if (rules == 16) {
            size_t at = begin_field(b, 2);
            add_byte(b, 0);
            add_two(b, 0);
            end_field(b, at);
            rules = 0;
            continue;
        }
        unsigned field = left <= 81 ? (unsigned)left : left < 120 ? 40 : 81;
        size_t at = begin_field(b, 3);
        for (unsigned rest = field < 10 ? 0 : field - 10; rest > 0; rest -= rest >= 8 ? 8 : 1) {
            add_byte(b, rest >= 8 ? 26 : 4);
            if (rest >= 8) make_literal(b, truth, 1);
        }
        make_literal(b, truth, often(50));
        end_field(b, at);
        rules++;
    }
}

/* ---- The token file ---- */

/* Adds a token that a wire of the type carries. */
static void make_token(struct builder *b, struct type t) {
    unsigned tag = t.kind < 3 ? 0 : ONE_OF(1, 2, 3, 3, 3, 3, 3, 3, 3);
    add_byte(b, tag);
    add_four(b, tag == 1 || tag == 2 ? 0 : any_value(carried(t)));
}

/* Writes a good token file; where it can be, seldom one of exactly 16,384 bytes. */
static void make_tokens(struct builder *b, const struct plan *p) {
    bool full = below(300) == 0;
    b->length = 0;
    for (unsigned i = 0; i < p->inputs; i++) {
        size_t at = begin_field(b, 32);
        unsigned count = often(97) ? below(14) : below(70);
        if (full && i + 1 == p->inputs) count = (unsigned)((16384 - b->length) / 5);
        for (unsigned k = 0; k < count; k++) make_token(b, p->wire_types[p->input_wires[i]]);
        end_field(b, at);
    }
}

/* ---- Damage ---- */

/* Changes a byte: to anything, by one, or to a number that stands at some limit. */
static void change_byte(struct builder *b) {
    if (b->length == 0) return;
    uint8_t *v = &b->data[below(b->length)];
    unsigned way = below(4);
    if (way == 0) *v = (uint8_t)next_number();
    else if (way == 1) *v = (uint8_t)(*v + (often(50) ? 1 : 255));
    else if (way == 2) *v ^= (uint8_t)(1u << below(8));
    else *v = (uint8_t)ONE_OF(0, 1, 2, 3, 4, 5, 6, 16, 30, 31, 32, 33, 64, 65, 127, 128, 255);
}

/* The offsets of the fields of a file, as far as they are whole; 200 at most. */
static unsigned list_fields(const struct builder *b, size_t *at) {
    unsigned n = 0;
    for (size_t k = 0; n < 200 && k + 3 <= b->length;) {
        size_t length = 3 + ((size_t)b->data[k + 1] << 8) + b->data[k + 2];
        if (length > b->length - k) break;
        at[n++] = k;
        k += length;
    }
    at[n] = b->length;
    return n;
}

/* Changes the length that a field tells, with or without its body. */
static void change_length(struct builder *b, size_t at) {
    unsigned length = (unsigned)b->data[at + 1] << 8 | b->data[at + 2];
    unsigned other = often(70) ? length + (often(50) ? 1 : 65535) : below(65536);
    b->data[at + 1] = (uint8_t)(other >> 8);
    b->data[at + 2] = (uint8_t)other;
    if (other == length + 1 && often(50)) {
        size_t end = at + 3 + length;
        open_gap(b, end, 1);
        b->data[end] = (uint8_t)below(4);
    }
}

/* Repeats a field, often to just over a limit. */
static void repeat_field(struct builder *b, size_t at, size_t length) {
    unsigned copies = often(50) ? 1 : ONE_OF(2, 7, 8, 15, 16, 31, 32, 63, 64);
    for (unsigned k = 0; k < copies && b->length + length <= ROOM; k++) {
        open_gap(b, at, length);
        memmove(b->data + at, b->data + at + length, length);
    }
}

/* Puts a number at the edge of its limit into a field. */
static void change_edge(struct builder *b, size_t at, size_t length) {
    unsigned tag = b->data[at];
    if (tag == 1 && length == 6) {
        if (often(30)) b->data[at + 3] = (uint8_t)below(6);
        else if (often(50)) b->data[at + 4] = (uint8_t)ONE_OF(0, 1, 30, 31);
        else b->data[at + 5] = (uint8_t)ONE_OF(0, 1, 64, 65);
    } else if (tag == 5 && length == 6 && often(80)) {
        unsigned room = ONE_OF(0, 1, 1000, 1001);
        b->data[at + 4] = (uint8_t)(room >> 8);
        b->data[at + 5] = (uint8_t)room;
    } else if (length > 3) {
        b->data[at + 3 + below(length - 3)] = (uint8_t)ONE_OF(0, 1, 2, 3, 4, 5, 6, 7, 30, 31, 63, 64);
    }
}

/* Damages a field as a whole. */
static void change_field(struct builder *b) {
    size_t at[201];
    unsigned n = list_fields(b, at);
    if (n == 0) return;
    unsigned k = below(n);
    size_t length = at[k + 1] - at[k];
    if (k + 1 == n) length = 3 + ((size_t)b->data[at[k] + 1] << 8) + b->data[at[k] + 2];
    switch (below(5)) {
    case 0: change_length(b, at[k]); break;
    case 1: repeat_field(b, at[k], length); break;
    case 2: close_gap(b, at[k], length); break;
    case 3: b->data[at[k]] = (uint8_t)ONE_OF(0, 1, 2, 3, 4, 5, 6, 7, 32, 33); break;
    default: change_edge(b, at[k], length); break;
    }
}

/* Damages a file in one or a few ways. */
static void damage(struct builder *b) {
    unsigned times = often(75) ? 1 : 1 + below(4);
    for (unsigned k = 0; k < times; k++) {
        switch (below(8)) {
        case 0: b->length = below(b->length + 1); break;
        case 1: open_gap(b, below(b->length + 1), 1); break;
        case 2: if (b->length > 0) close_gap(b, below(b->length), 1); break;
        case 3: for (unsigned n = 1 + below(4); n > 0; n--) add_byte(b, below(256)); break;
        case 4:
        case 5: change_byte(b); break;
        default: change_field(b); break;
        }
    }
}

/* Makes a file of any bytes, up to a length. */
static void make_noise(struct builder *b, size_t most) {
    size_t length = below(most + 1);
    b->length = 0;
    while (b->length < length) add_byte(b, often(60) ? below(6) : below(256));
}

/* ---- States, orders and the other arguments ---- */

/* The built bytes as bytes of a case. */
static struct bytes finish(const struct builder *b) {
    struct bytes x = bytes_make(b->length, 0);
    memcpy(x.data, b->data, b->length);
    return x;
}

/* Damages a state: counts, values, what stands behind a queue, or its length. */
static void damage_state(struct builder *b) {
    unsigned way = below(10);
    if (way == 0) b->length = b->length == 0 ? 0 : often(60) ? b->length - 1 : below(b->length);
    else if (way == 1) make_noise(b, 200);
    else for (unsigned n = often(70) ? 1 : 3; n > 0; n--) change_byte(b);
}

/* Makes a state from a load and a run of some cycles, then perhaps damages it. */
static void make_state(struct builder *b, const struct call_case *c) {
    struct lent_bytes lent = {b->data, 61088};
    struct answer a = reference_load(bytes_view(c->network), bytes_view(c->tokens), lent);
    b->length = a.size;
    if (a.kind != LOADED) {
        make_noise(b, 80);
        return;
    }
    if (often(90)) reference_run(bytes_view(c->network), bytes_view(c->tokens), lent, below(often(90) ? 7 : 40));
    if (often(15)) damage_state(b);
    if (often(15)) for (unsigned n = 1 + below(4); n > 0; n--) add_byte(b, below(256));
}

/* Makes the order of a cycle: the marked processes shuffled, then perhaps damaged. */
static void make_order(struct builder *b, const struct call_case *c) {
    unsigned list[64], n = 0;
    struct answer a = reference_mark(bytes_view(c->network), bytes_view(c->tokens), bytes_view(c->state));
    for (unsigned k = 0; k < 64; k++)
        if (a.set >> k & 1) list[n++] = k;
    shuffle(list, n, 200);
    b->length = 0;
    for (unsigned k = 0; k < n; k++) add_byte(b, list[k]);
    if (often(80)) return;
    switch (below(5)) {
    case 0: if (b->length > 0) b->length--; break;
    case 1: if (b->length > 0) add_byte(b, b->data[below(b->length)]); break;
    case 2: add_byte(b, ONE_OF(0, 1, 47, 63, 64, 65, 127, 128, 255)); break;
    case 3: change_byte(b); break;
    default: make_noise(b, 70); break;
    }
}

/* A budget: mostly small, at times at the edge of the limit. */
static uint64_t any_budget(void) {
    if (often(70)) return below(20);
    if (often(80)) return ONE_OF(0, 0, 50, 200, 1000);
    return often(60) ? ONE_OF(65536, 65537, 131072) : 65535;
}

/* The length of an output buffer: about what is needed. */
static uint64_t any_output_length(struct builder *b, const struct call_case *c) {
    struct lent_bytes lent = {b->data, ROOM};
    size_t need = reference_write_outputs(bytes_view(c->network), bytes_view(c->state), lent).size;
    if (often(40)) return need;
    if (often(40)) return need == 0 ? 0 : need - 1;
    return often(50) ? need + below(9) : below(need + 60);
}

/* ---- A case ---- */

/* Makes the network and the token file of a case. */
static void make_files(struct builder *b, struct call_case *c) {
    static struct plan p;
    bool only_network = strcmp(c->call, "check") == 0 || strcmp(c->call, "body") == 0;
    make_plan(&p);
    slips = often(only_network ? 15 : 2) ? 20 : 0;
    make_network(b, &p);
    if (below(250) == 0) {
        make_long_network(b, ONE_OF(16383, 16384, 16385));
        p.inputs = 0;
    }
    if (below(150) == 0) make_noise(b, often(50) ? 300 : often(80) ? 17000 : ROOM);
    else if (often(only_network ? 55 : 8)) damage(b);
    c->network = finish(b);
    if (only_network) return;
    make_tokens(b, &p);
    if (often(8)) damage(b);
    if (below(300) == 0) make_noise(b, often(80) ? 17000 : ROOM);
    c->tokens = finish(b);
}

/* Makes the case of a number, from the seed and that number alone. */
void make_case(struct call_case *c, uint64_t seed, uint64_t number) {
    static struct builder built;
    struct builder *b = &built;
    static const char *const calls[] = {"check", "check", "check", "body", "load", "mark", "mark",
                                        "cycle", "cycle", "cycle", "run", "run", "run", "write"};
    chance_state = seed;
    chance_state = next_number() ^ (number * 0xd1342543de82ef95u);
    *c = (struct call_case){0};
    strcpy(c->call, calls[below(sizeof calls / sizeof *calls)]);
    make_files(b, c);
    if (strcmp(c->call, "body") == 0) {
        c->numbers[0] = often(80) ? below(3) : ONE_OF(31, 32, 33, 255, 256);
        c->numbers[1] = often(80) ? below(3) : ONE_OF(15, 16, 17, 255, 256);
    }
    if (!c->tokens.there) return;
    make_state(b, c);
    if (strcmp(c->call, "load") == 0) for (unsigned n = 0; n < 5; n++) change_byte(b);
    c->state = finish(b);
    if (strcmp(c->call, "cycle") == 0) {
        make_order(b, c);
        c->order = finish(b);
    }
    if (strcmp(c->call, "run") == 0) c->numbers[0] = any_budget();
    if (strcmp(c->call, "write") == 0) {
        c->numbers[0] = any_output_length(b, c);
        bytes_free(&c->tokens);
    }
}
