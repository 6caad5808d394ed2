/* Document 01 in C, written from the paper for clearness. See README.md. */
#include "reference.h"

#include <inttypes.h>
#include <stdarg.h>
#include <stdbool.h>
#include <stdio.h>
#include <stdlib.h>

/* ---- Numbers allowed ---- */

enum {
    MOST_BYTES = 16384,
    MOST_WIRES = 64,
    MOST_BOXES = 32,
    MOST_RULES = 16,
    MOST_PORTS = 4, /* inputs, outputs or variables of a box */
    MOST_INPUTS = 8,
    MOST_OUTPUTS = 8,
    MOST_PRECISION = 30,
    MOST_CAPACITY = 64,
    MOST_ROOM = 1000,
    MOST_BODY = 512,
    MOST_DEPTH = 16,
    MOST_BUDGET = 65535,
    MOST_STATE = 61088,
    TOKEN = 5,
    NO_RULE = 16
};

/* ---- The things of a network ---- */

enum { KIND_BOOL, KIND_SIGNED, KIND_UNSIGNED, KIND_DC_SIGNED, KIND_DC_UNSIGNED, KIND_NONE };

struct type {
    unsigned kind, p;
};

static const struct type bool_type = {KIND_BOOL, 1};
static const struct type count_type = {KIND_UNSIGNED, 5};
static const struct type no_type = {KIND_NONE, 0};

struct wire {
    struct type type;
    unsigned capacity;
    unsigned writers, readers;
    size_t at; /* offset in the state */
};

struct box {
    unsigned input_count, output_count, variable_count, rule_count;
    unsigned input_wires[MOST_PORTS], output_wires[MOST_PORTS];
    struct type variable_types[MOST_PORTS];
    int64_t initial[MOST_PORTS];
    size_t variables_at;                               /* offset in the state */
    size_t rule_at[MOST_RULES], rule_size[MOST_RULES]; /* in the network file */
};

struct port {
    unsigned wire, room; /* room only for outputs */
    size_t at;           /* offset in the state */
};

struct network {
    struct input_bytes file;
    unsigned wire_count, box_count, input_count, output_count;
    struct wire wires[MOST_WIRES];
    struct box boxes[MOST_BOXES];
    struct port inputs[MOST_INPUTS], outputs[MOST_OUTPUTS];
    size_t state_size;
};

/* ---- Answers ---- */

/* An answer of a kind and nothing else. */
static struct answer plain_answer(enum answer_kind kind) {
    struct answer a = {0};
    a.kind = kind;
    return a;
}

/* A refusal with its number and place. */
static struct answer refuse(unsigned number, size_t place) {
    struct answer a = plain_answer(REFUSED);
    a.number = number;
    a.place = place;
    return a;
}

/* ---- Bytes ---- */

/* Two bytes, high byte first. */
static unsigned get_two(const uint8_t *b) { return (unsigned)b[0] << 8 | b[1]; }

/* Four bytes, high byte first, two's complement. */
static int64_t get_four(const uint8_t *b) {
    int64_t v = (int64_t)b[0] << 24 | (int64_t)b[1] << 16 | (int64_t)b[2] << 8 | b[3];
    return b[0] >= 128 ? v - ((int64_t)1 << 32) : v;
}

/* Writes two bytes, high byte first. */
static void put_two(uint8_t *b, unsigned v) {
    b[0] = (uint8_t)(v >> 8);
    b[1] = (uint8_t)v;
}

/* Writes four bytes, high byte first, two's complement. */
static void put_four(uint8_t *b, int64_t v) {
    uint32_t u = (uint32_t)(uint64_t)v;
    for (unsigned i = 0; i < 4; i++) b[i] = (uint8_t)(u >> (24 - 8 * i));
}

/* A place in a stretch of bytes, and what was found wrong with the field so far. */
struct reader {
    const uint8_t *bytes;
    size_t at, end;
    bool bad_form, bad_limit, bad_fit;
};

/* A reader of the stretch from at to end. */
static struct reader reader_of(const uint8_t *bytes, size_t at, size_t end) {
    struct reader r = {bytes, at, end, false, false, false};
    return r;
}

/* The next byte; past the end it is a fault of form, and 0. */
static unsigned read_byte(struct reader *r) {
    if (r->at >= r->end) {
        r->bad_form = true;
        return 0;
    }
    return r->bytes[r->at++];
}

/* The next two bytes as a number. */
static unsigned read_two(struct reader *r) {
    uint8_t b[2];
    for (unsigned i = 0; i < 2; i++) b[i] = (uint8_t)read_byte(r);
    return get_two(b);
}

/* The next four bytes as a value. */
static int64_t read_four(struct reader *r) {
    uint8_t b[4];
    for (unsigned i = 0; i < 4; i++) b[i] = (uint8_t)read_byte(r);
    return get_four(b);
}

/* The number of the refusal that the field gets, 0 for none: the least that applies. */
static unsigned field_fault(const struct reader *r) {
    return r->bad_form ? 1 : r->bad_limit ? 2 : r->bad_fit ? 4 : 0;
}

/* ---- Types and values ---- */

/* Two types are one if kind and precision agree. */
static bool same_type(struct type a, struct type b) { return a.kind == b.kind && a.p == b.p; }

/* Signed and unsigned are the numbers. */
static bool is_number(struct type t) { return t.kind == KIND_SIGNED || t.kind == KIND_UNSIGNED; }

/* Is it a dc type? */
static bool is_dc(struct type t) { return t.kind == KIND_DC_SIGNED || t.kind == KIND_DC_UNSIGNED; }

/* The type of the values that a wire carries: for dc, that of its data. */
static struct type carried(struct type t) {
    if (is_dc(t)) t.kind -= 2;
    return t;
}

/* Is the value one of the type? */
static bool in_type(struct type t, int64_t v) {
    if (t.p < 1 || t.p > MOST_PRECISION) return false;
    if (t.kind == KIND_BOOL) return v == 0 || v == 1;
    int64_t half = (int64_t)1 << (t.p - 1);
    if (t.kind == KIND_SIGNED) return -half <= v && v < half;
    return 0 <= v && v < 2 * half;
}

/* The low p bits of a value. */
static uint64_t pattern_of(struct type t, int64_t v) { return (uint64_t)v & (((uint64_t)1 << t.p) - 1); }

/* The value of the type that is equal to v modulo 2^p. */
static int64_t wrap(struct type t, int64_t v) {
    int64_t low = (int64_t)pattern_of(t, v);
    if (t.kind == KIND_SIGNED && low >= (int64_t)1 << (t.p - 1)) return low - ((int64_t)1 << t.p);
    return low;
}

/* Reads kind and precision and notes what is wrong with them. */
static struct type read_type(struct reader *r) {
    struct type t;
    t.kind = read_byte(r);
    t.p = read_byte(r);
    if (t.kind > KIND_DC_UNSIGNED) r->bad_form = true;
    if (t.p < 1 || t.p > MOST_PRECISION) r->bad_limit = true;
    if (t.kind == KIND_BOOL && t.p != 1) r->bad_fit = true;
    return t;
}

/* Reads a value that must be of the type. */
static int64_t read_constant(struct reader *r, struct type t) {
    int64_t v = read_four(r);
    if (!in_type(t, v)) r->bad_fit = true;
    return v;
}

/* ---- Expressions: form, depth and type ---- */

enum {
    LITERAL = 0, INPUT_VALUE = 1, VARIABLE = 2, CAST = 3, NOT = 4, LNOT = 5,
    ADD = 10, SUBTRACT = 11, MULTIPLY = 12, DIVIDE = 13, MODULO = 14, LAND = 15, LOR = 16, LNAND = 17,
    SHIFT_LEFT = 18, SHIFT_RIGHT = 19, EQUAL = 20, UNEQUAL = 21, LESS = 22, LESS_EQUAL = 23,
    GREATER = 24, GREATER_EQUAL = 25, AND = 26, OR = 27, IF = 30
};

/* How many operands an expression code has; 4 for an unknown code. */
static unsigned operands_of(unsigned code) {
    if (code <= VARIABLE) return 0;
    if (code <= LNOT) return 1;
    if (code >= ADD && code <= OR) return 2;
    return code == IF ? 3 : 4;
}

/* Reads an expression of any depth for its form alone. */
static void skip_expression(struct reader *r) {
    size_t wanted = 1;
    while (wanted > 0 && !r->bad_form) {
        unsigned code = read_byte(r);
        unsigned operands = operands_of(code);
        if (operands > 3) {
            r->bad_form = true;
            return;
        }
        wanted = wanted - 1 + operands;
        if (code == LITERAL || code == CAST) read_type(r);
        if (code == LITERAL) read_four(r);
        if (code == INPUT_VALUE || code == VARIABLE) read_byte(r);
    }
}

/* What a rule's expressions can speak of. */
struct scope {
    const struct network *net;
    const struct box *box;
    unsigned patterns[MOST_PORTS];
};

static struct type check_expression(struct reader *r, const struct scope *s, unsigned depth_left);

/* A literal: its type must be no dc type, and its value in it. */
static struct type check_literal(struct reader *r) {
    struct type t = read_type(r);
    if (is_dc(t)) r->bad_fit = true;
    read_constant(r, t);
    return t;
}

/* The matched value of an input, whose pattern must be 1 or 5. */
static struct type check_input_value(struct reader *r, const struct scope *s) {
    unsigned i = read_byte(r);
    if (i >= s->box->input_count || (s->patterns[i] != 1 && s->patterns[i] != 5)) {
        r->bad_fit = true;
        return no_type;
    }
    return carried(s->net->wires[s->box->input_wires[i]].type);
}

/* A variable of the box. */
static struct type check_variable(struct reader *r, const struct scope *s) {
    unsigned j = read_byte(r);
    if (j >= s->box->variable_count) {
        r->bad_fit = true;
        return no_type;
    }
    return s->box->variable_types[j];
}

/* A cast, a not or a lnot. */
static struct type check_one(struct reader *r, const struct scope *s, unsigned code, unsigned depth_left) {
    struct type target = code == CAST ? read_type(r) : no_type;
    struct type operand = check_expression(r, s, depth_left);
    bool fits = code == NOT ? same_type(operand, bool_type) : is_number(operand);
    if (code == CAST && !is_number(target)) fits = false;
    if (!fits) r->bad_fit = true;
    return code == CAST ? target : operand;
}

/* An operator of two operands. */
static struct type check_two(struct reader *r, const struct scope *s, unsigned code, unsigned depth_left) {
    struct type left = check_expression(r, s, depth_left);
    struct type right = check_expression(r, s, depth_left);
    if (code == SHIFT_LEFT || code == SHIFT_RIGHT) {
        if (!is_number(left) || !same_type(right, count_type)) r->bad_fit = true;
        return left;
    }
    bool of_bools = same_type(left, bool_type);
    bool fits = same_type(left, right);
    if (code == AND || code == OR) fits = fits && of_bools;
    else if (code == EQUAL || code == UNEQUAL) fits = fits && (of_bools || is_number(left));
    else fits = fits && is_number(left);
    if (!fits) r->bad_fit = true;
    return code >= EQUAL ? bool_type : left;
}

/* An if: a bool condition and two branches of one type. */
static struct type check_if(struct reader *r, const struct scope *s, unsigned depth_left) {
    struct type condition = check_expression(r, s, depth_left);
    struct type yes = check_expression(r, s, depth_left);
    struct type no = check_expression(r, s, depth_left);
    if (!same_type(condition, bool_type) || !same_type(yes, no)) r->bad_fit = true;
    return yes;
}

/* Reads an expression, notes its faults and gives its type; too deep, it is still read for form. */
static struct type check_expression(struct reader *r, const struct scope *s, unsigned depth_left) {
    if (depth_left == 0) {
        r->bad_limit = true;
        skip_expression(r);
        return no_type;
    }
    unsigned code = read_byte(r);
    if (code == LITERAL) return check_literal(r);
    if (code == INPUT_VALUE) return check_input_value(r, s);
    if (code == VARIABLE) return check_variable(r, s);
    switch (operands_of(code)) {
    case 1: return check_one(r, s, code, depth_left - 1);
    case 2: return check_two(r, s, code, depth_left - 1);
    case 3: return check_if(r, s, depth_left - 1);
    }
    r->bad_form = true;
    return no_type;
}

/* Reads an expression that must have the type. */
static void check_filling(struct reader *r, const struct scope *s, struct type wanted) {
    struct type t = check_expression(r, s, MOST_DEPTH);
    if (!same_type(t, wanted)) r->bad_fit = true;
}

/* ---- Fields of the network file ---- */

/* The pattern of an input. */
static unsigned check_input_pattern(struct reader *r, struct type wire) {
    unsigned code = read_byte(r);
    if (code > 6) r->bad_form = true;
    if (code >= 3 && !is_dc(wire)) r->bad_fit = true;
    if ((code == 1 || code == 2) && is_dc(wire)) r->bad_fit = true;
    if (code == 2 || code == 6) read_constant(r, carried(wire));
    return code;
}

/* The action of an output. */
static void check_output_action(struct reader *r, const struct scope *s, struct type wire) {
    unsigned code = read_byte(r);
    if (code == 2 || code > 5) r->bad_form = true;
    if (code >= 3 && !is_dc(wire)) r->bad_fit = true;
    if (code == 1 && is_dc(wire)) r->bad_fit = true;
    if (code == 1 || code == 5) check_filling(r, s, carried(wire));
}

/* A rule of the newest box. */
static void check_rule(struct reader *r, struct network *net) {
    struct box *box = &net->boxes[net->box_count - 1];
    struct scope s = {net, box, {0}};
    size_t start = r->at;
    for (unsigned i = 0; i < box->input_count; i++)
        s.patterns[i] = check_input_pattern(r, net->wires[box->input_wires[i]].type);
    for (unsigned j = 0; j < box->variable_count; j++) {
        unsigned code = read_byte(r);
        if (code != 0 && code != 2) r->bad_form = true;
        if (code == 2) read_constant(r, box->variable_types[j]);
    }
    check_filling(r, &s, bool_type);
    for (unsigned i = 0; i < box->output_count; i++)
        check_output_action(r, &s, net->wires[box->output_wires[i]].type);
    for (unsigned j = 0; j < box->variable_count; j++) {
        unsigned code = read_byte(r);
        if (code > 1) r->bad_form = true;
        if (code == 1) check_filling(r, &s, box->variable_types[j]);
    }
    if (r->at != r->end) r->bad_form = true;
    if (r->end - start > MOST_BODY || box->rule_count == MOST_RULES) r->bad_limit = true;
    if (field_fault(r) != 0) return;
    box->rule_at[box->rule_count] = start;
    box->rule_size[box->rule_count] = r->end - start;
    box->rule_count++;
}

/* A wire. */
static void check_wire(struct reader *r, struct network *net) {
    struct wire w = {0};
    w.type = read_type(r);
    w.capacity = read_byte(r);
    if (r->at != r->end) r->bad_form = true;
    if (w.capacity < 1 || w.capacity > MOST_CAPACITY) r->bad_limit = true;
    if (net->wire_count == MOST_WIRES) r->bad_limit = true;
    if (field_fault(r) == 0) net->wires[net->wire_count++] = w;
}

/* A wire number that must be declared. */
static unsigned read_wire(struct reader *r, const struct network *net) {
    unsigned w = read_byte(r);
    if (w >= net->wire_count) r->bad_form = true;
    return w;
}

/* The variables of a box; only the first four are kept. */
static void check_variables(struct reader *r, struct box *box) {
    for (unsigned j = 0; j < box->variable_count; j++) {
        struct type t = read_type(r);
        if (is_dc(t)) r->bad_fit = true;
        int64_t v = read_constant(r, t);
        if (j >= MOST_PORTS) continue;
        box->variable_types[j] = t;
        box->initial[j] = v;
    }
}

/* A box; its counts may be over the limit, and then it is read for form all the same. */
static void check_box(struct reader *r, struct network *net) {
    struct box box = {0};
    box.input_count = read_byte(r);
    box.output_count = read_byte(r);
    box.variable_count = read_byte(r);
    for (unsigned i = 0; i < box.input_count; i++) {
        unsigned w = read_wire(r, net);
        if (i < MOST_PORTS) box.input_wires[i] = w;
    }
    for (unsigned i = 0; i < box.output_count; i++) {
        unsigned w = read_wire(r, net);
        if (i < MOST_PORTS) box.output_wires[i] = w;
    }
    check_variables(r, &box);
    if (r->at != r->end) r->bad_form = true;
    if (box.input_count > MOST_PORTS || box.output_count > MOST_PORTS) r->bad_limit = true;
    if (box.variable_count > MOST_PORTS || net->box_count == MOST_BOXES) r->bad_limit = true;
    if (field_fault(r) == 0) net->boxes[net->box_count++] = box;
}

/* An input of the network. */
static void check_input(struct reader *r, struct network *net) {
    struct port port = {0};
    port.wire = read_wire(r, net);
    if (r->at != r->end) r->bad_form = true;
    if (net->input_count == MOST_INPUTS) r->bad_limit = true;
    if (field_fault(r) == 0) net->inputs[net->input_count++] = port;
}

/* An output of the network. */
static void check_output(struct reader *r, struct network *net) {
    struct port port = {0};
    port.wire = read_wire(r, net);
    port.room = read_two(r);
    if (r->at != r->end) r->bad_form = true;
    if (port.room < 1 || port.room > MOST_ROOM) r->bad_limit = true;
    if (net->output_count == MOST_OUTPUTS) r->bad_limit = true;
    if (field_fault(r) == 0) net->outputs[net->output_count++] = port;
}

/* ---- The whole network file ---- */

/* May a field of this tag stand behind a field of the tag before (0 at the start)? */
static bool in_order(unsigned before, unsigned tag) {
    switch (tag) {
    case 1: return before <= 1;
    case 2: return before <= 3;
    case 3: return before == 2 || before == 3;
    case 4: return before <= 4;
    case 5: return true;
    }
    return false;
}

/* Reads the body of a field of a tag that stands in order; gives the refusal number or 0. */
static unsigned check_field(struct reader *r, unsigned tag, struct network *net) {
    if (tag == 1) check_wire(r, net);
    if (tag == 2) check_box(r, net);
    if (tag == 3) check_rule(r, net);
    if (tag == 4) check_input(r, net);
    if (tag == 5) check_output(r, net);
    return field_fault(r);
}

/* The length of the body of the field at an offset; past the file's end where the field is cut. */
static size_t body_length(struct input_bytes file, size_t at) {
    if (file.length - at < 3) return file.length;
    return get_two(file.bytes + at + 1);
}

/* Counts the ports of each wire; gives the lowest wire without one of each, or the number of wires. */
static unsigned lowest_bad_wire(struct network *net) {
    for (unsigned b = 0; b < net->box_count; b++) {
        const struct box *box = &net->boxes[b];
        for (unsigned i = 0; i < box->input_count; i++) net->wires[box->input_wires[i]].readers++;
        for (unsigned i = 0; i < box->output_count; i++) net->wires[box->output_wires[i]].writers++;
    }
    for (unsigned i = 0; i < net->input_count; i++) net->wires[net->inputs[i].wire].writers++;
    for (unsigned i = 0; i < net->output_count; i++) net->wires[net->outputs[i].wire].readers++;
    unsigned w = 0;
    while (w < net->wire_count && net->wires[w].writers == 1 && net->wires[w].readers == 1) w++;
    return w;
}

/* Gives each part of the state its offset. */
static void lay_out(struct network *net) {
    size_t at = 0;
    for (unsigned w = 0; w < net->wire_count; w++) {
        net->wires[w].at = at;
        at += 1 + TOKEN * (size_t)net->wires[w].capacity;
    }
    for (unsigned b = 0; b < net->box_count; b++) {
        net->boxes[b].variables_at = at;
        at += 4 * (size_t)net->boxes[b].variable_count;
    }
    for (unsigned i = 0; i < net->input_count; i++) {
        net->inputs[i].at = at;
        at += 2;
    }
    for (unsigned i = 0; i < net->output_count; i++) {
        net->outputs[i].at = at;
        at += 2 + TOKEN * (size_t)net->outputs[i].room;
    }
    net->state_size = at;
}

/* Reads a network file: accepted, or refused 1, 2, 3 or 4. */
static struct answer read_network(struct input_bytes file, struct network *net) {
    *net = (struct network){0};
    net->file = file;
    if (file.length > MOST_BYTES) return refuse(2, 0);
    unsigned before = 0;
    for (size_t at = 0; at < file.length;) {
        size_t length = body_length(file, at);
        if (file.length - at < 3 || file.length - at - 3 < length) return refuse(1, at);
        unsigned tag = file.bytes[at];
        if (!in_order(before, tag)) return refuse(1, at);
        struct reader r = reader_of(file.bytes, at + 3, at + 3 + length);
        unsigned number = check_field(&r, tag, net);
        if (number != 0) return refuse(number, at);
        before = tag;
        at += 3 + length;
    }
    unsigned w = lowest_bad_wire(net);
    if (w < net->wire_count) return refuse(3, w);
    lay_out(net);
    return plain_answer(ACCEPTED);
}

/* ---- Tokens, token file and saved state ---- */

/* Is this a token that a wire of the type carries? */
static bool good_token(struct type t, const uint8_t *token) {
    int64_t v = get_four(token + 1);
    if (!is_dc(t)) return token[0] == 0 && in_type(t, v);
    if (token[0] == 1 || token[0] == 2) return v == 0;
    return token[0] == 3 && in_type(carried(t), v);
}

/* Are the first count places of a queue good tokens, and the others zero? */
static bool good_queue(struct type t, const uint8_t *queue, unsigned count, unsigned capacity) {
    if (count > capacity) return false;
    for (unsigned i = 0; i < count; i++)
        if (!good_token(t, queue + TOKEN * i)) return false;
    for (unsigned i = TOKEN * count; i < TOKEN * capacity; i++)
        if (queue[i] != 0) return false;
    return true;
}

/* Where the tokens of each input stand in the token file, and how many they are. */
struct token_file {
    const uint8_t *bytes;
    size_t at[MOST_INPUTS];
    unsigned count[MOST_INPUTS];
};

/* Is there a good field of tokens of the type at an offset? */
static bool good_token_field(struct input_bytes file, size_t at, struct type t) {
    size_t length = body_length(file, at);
    if (file.length - at < 3 || file.length - at - 3 < length) return false;
    if (file.bytes[at] != 32 || length % TOKEN != 0) return false;
    for (size_t i = 0; i < length; i += TOKEN)
        if (!good_token(t, file.bytes + at + 3 + i)) return false;
    return true;
}

/* Reads a token file for a good network: accepted, or refused 5. */
static struct answer read_tokens(struct input_bytes file, const struct network *net, struct token_file *tokens) {
    *tokens = (struct token_file){0};
    tokens->bytes = file.bytes;
    if (file.length > MOST_BYTES) return refuse(5, 0);
    size_t at = 0;
    for (unsigned i = 0; i < net->input_count; i++) {
        if (!good_token_field(file, at, net->wires[net->inputs[i].wire].type)) return refuse(5, at);
        size_t length = body_length(file, at);
        tokens->at[i] = at + 3;
        tokens->count[i] = (unsigned)(length / TOKEN);
        at += 3 + length;
    }
    if (at != file.length) return refuse(5, at);
    return plain_answer(ACCEPTED);
}

/* Has the state the layout of the network, with values of their types? The taken counts only with a token file. */
static bool good_state(const struct network *net, const struct token_file *tokens, const uint8_t *state) {
    for (unsigned w = 0; w < net->wire_count; w++) {
        const struct wire *wire = &net->wires[w];
        const uint8_t *part = state + wire->at;
        if (!good_queue(wire->type, part + 1, part[0], wire->capacity)) return false;
    }
    for (unsigned b = 0; b < net->box_count; b++) {
        const struct box *box = &net->boxes[b];
        for (unsigned j = 0; j < box->variable_count; j++)
            if (!in_type(box->variable_types[j], get_four(state + box->variables_at + 4 * j))) return false;
    }
    for (unsigned i = 0; tokens != NULL && i < net->input_count; i++)
        if (get_two(state + net->inputs[i].at) > tokens->count[i]) return false;
    for (unsigned i = 0; i < net->output_count; i++) {
        const struct port *port = &net->outputs[i];
        const uint8_t *part = state + port->at;
        if (!good_queue(net->wires[port->wire].type, part + 2, get_two(part), port->room)) return false;
    }
    return true;
}

/* ---- Evaluation ---- */

/* A box in a state, and whether a zero divisor was met. */
struct scene {
    const struct network *net;
    const struct box *box;
    const uint8_t *state;
    bool fault;
};

struct value {
    struct type type;
    int64_t v;
};

static struct value evaluate(struct reader *r, struct scene *s);

/* The oldest token of a wire, five bytes. */
static const uint8_t *oldest(const struct network *net, const uint8_t *state, unsigned wire) {
    return state + net->wires[wire].at + 1;
}

/* Makes a value of a type, wrapped into it. */
static struct value value_of(struct type t, int64_t v) {
    struct value x = {t, wrap(t, v)};
    return x;
}

/* Operators 10 to 14. */
static int64_t arithmetic(unsigned code, int64_t a, int64_t b, struct scene *s) {
    if (code == ADD) return a + b;
    if (code == SUBTRACT) return a - b;
    if (code == MULTIPLY) return a * b;
    if (b == 0) {
        s->fault = true;
        return 0;
    }
    return code == DIVIDE ? a / b : a % b;
}

/* Operators 15 to 19, on the p-bit patterns. */
static int64_t bitwise(unsigned code, struct type t, int64_t a, int64_t b) {
    uint64_t left = pattern_of(t, a);
    uint64_t right = code >= SHIFT_LEFT ? (uint64_t)b : pattern_of(t, b);
    if (code == LAND) return (int64_t)(left & right);
    if (code == LOR) return (int64_t)(left | right);
    if (code == LNAND) return (int64_t)pattern_of(t, (int64_t)~(left & right));
    if (code == SHIFT_LEFT) return a * ((int64_t)1 << b);
    return (int64_t)(left >> right);
}

/* Operators 20 to 27. */
static bool comparison(unsigned code, int64_t a, int64_t b) {
    switch (code) {
    case EQUAL: return a == b;
    case UNEQUAL: return a != b;
    case LESS: return a < b;
    case LESS_EQUAL: return a <= b;
    case GREATER: return a > b;
    case GREATER_EQUAL: return a >= b;
    case AND: return a != 0 && b != 0;
    }
    return a != 0 || b != 0;
}

/* An operator of two operands; both are evaluated. */
static struct value evaluate_two(struct reader *r, struct scene *s, unsigned code) {
    struct value left = evaluate(r, s);
    struct value right = evaluate(r, s);
    if (code >= EQUAL) return value_of(bool_type, comparison(code, left.v, right.v));
    if (code >= LAND) return value_of(left.type, bitwise(code, left.type, left.v, right.v));
    return value_of(left.type, arithmetic(code, left.v, right.v, s));
}

/* An if: one branch is evaluated, the other only read. */
static struct value evaluate_if(struct reader *r, struct scene *s) {
    bool yes = evaluate(r, s).v != 0;
    if (!yes) skip_expression(r);
    struct value result = evaluate(r, s);
    if (yes) skip_expression(r);
    return result;
}

/* A literal, a matched value or a variable. */
static struct value evaluate_leaf(struct reader *r, struct scene *s, unsigned code) {
    if (code == LITERAL) {
        struct type t = read_type(r);
        return value_of(t, read_four(r));
    }
    unsigned k = read_byte(r);
    if (code == VARIABLE)
        return value_of(s->box->variable_types[k], get_four(s->state + s->box->variables_at + 4 * k));
    unsigned wire = s->box->input_wires[k];
    return value_of(carried(s->net->wires[wire].type), get_four(oldest(s->net, s->state, wire) + 1));
}

/* The value of a well typed expression; its depth is at most 16. */
static struct value evaluate(struct reader *r, struct scene *s) {
    unsigned code = read_byte(r);
    if (code <= VARIABLE) return evaluate_leaf(r, s, code);
    if (code == CAST) {
        struct type t = read_type(r);
        return value_of(t, evaluate(r, s).v);
    }
    if (code == NOT) return value_of(bool_type, evaluate(r, s).v == 0);
    if (code == LNOT) {
        struct value x = evaluate(r, s);
        return value_of(x.type, -x.v - 1);
    }
    return code == IF ? evaluate_if(r, s) : evaluate_two(r, s, code);
}

/* The value of the expression at an offset of the network file. */
static int64_t value_at(struct scene *s, size_t at) {
    struct reader r = reader_of(s->net->file.bytes, at, s->net->file.length);
    return evaluate(&r, s).v;
}

/* ---- Rules ---- */

/* The parts of a rule; an offset stands for each expression. */
struct rule {
    unsigned patterns[MOST_PORTS], variable_patterns[MOST_PORTS];
    int64_t constants[MOST_PORTS], variable_constants[MOST_PORTS];
    size_t guard_at;
    unsigned actions[MOST_PORTS], variable_actions[MOST_PORTS];
    size_t action_at[MOST_PORTS], variable_action_at[MOST_PORTS];
};

/* Finds the parts of a rule of a good network. */
static struct rule open_rule(const struct network *net, const struct box *box, unsigned number) {
    struct rule rule = {0};
    size_t at = box->rule_at[number];
    struct reader r = reader_of(net->file.bytes, at, at + box->rule_size[number]);
    for (unsigned i = 0; i < box->input_count; i++) {
        rule.patterns[i] = read_byte(&r);
        if (rule.patterns[i] == 2 || rule.patterns[i] == 6) rule.constants[i] = read_four(&r);
    }
    for (unsigned j = 0; j < box->variable_count; j++) {
        rule.variable_patterns[j] = read_byte(&r);
        if (rule.variable_patterns[j] == 2) rule.variable_constants[j] = read_four(&r);
    }
    rule.guard_at = r.at;
    skip_expression(&r);
    for (unsigned i = 0; i < box->output_count; i++) {
        rule.actions[i] = read_byte(&r);
        rule.action_at[i] = r.at;
        if (rule.actions[i] == 1 || rule.actions[i] == 5) skip_expression(&r);
    }
    for (unsigned j = 0; j < box->variable_count; j++) {
        rule.variable_actions[j] = read_byte(&r);
        rule.variable_action_at[j] = r.at;
        if (rule.variable_actions[j] == 1) skip_expression(&r);
    }
    return rule;
}

/* Does an input pattern other than ignore take this token? */
static bool token_matches(unsigned pattern, int64_t constant, const uint8_t *token) {
    int64_t v = get_four(token + 1);
    switch (pattern) {
    case 1: return true;
    case 2: return v == constant;
    case 3: return token[0] == 1;
    case 4: return token[0] == 2;
    case 5: return token[0] == 3;
    }
    return token[0] == 3 && v == constant;
}

/* Is every pattern of the rule ready? */
static bool patterns_ready(const struct rule *rule, const struct scene *s) {
    const struct box *box = s->box;
    for (unsigned i = 0; i < box->input_count; i++) {
        unsigned wire = box->input_wires[i];
        if (rule->patterns[i] == 0) continue;
        if (s->state[s->net->wires[wire].at] == 0) return false;
        if (!token_matches(rule->patterns[i], rule->constants[i], oldest(s->net, s->state, wire))) return false;
    }
    for (unsigned j = 0; j < box->variable_count; j++) {
        int64_t v = get_four(s->state + box->variables_at + 4 * j);
        if (rule->variable_patterns[j] == 2 && v != rule->variable_constants[j]) return false;
    }
    return true;
}

/* Is the wire full? */
static bool is_full(const struct network *net, const uint8_t *state, unsigned wire) {
    return state[net->wires[wire].at] >= net->wires[wire].capacity;
}

/* Is every wire that the rule writes not full? */
static bool outputs_free(const struct rule *rule, const struct scene *s) {
    for (unsigned i = 0; i < s->box->output_count; i++)
        if (rule->actions[i] != 0 && is_full(s->net, s->state, s->box->output_wires[i])) return false;
    return true;
}

/* What the rule's actions give, with the variables and tokens from before the firing. */
struct results {
    uint8_t tags[MOST_PORTS];
    int64_t outputs[MOST_PORTS], variables[MOST_PORTS];
};

/* Works out all actions of a rule. */
static struct results work_out(const struct rule *rule, struct scene *s) {
    static const uint8_t tag_of_action[6] = {0, 0, 0, 1, 2, 3};
    struct results x = {{0}, {0}, {0}};
    for (unsigned i = 0; i < s->box->output_count; i++) {
        unsigned code = rule->actions[i];
        x.tags[i] = tag_of_action[code];
        if (code == 1 || code == 5) x.outputs[i] = value_at(s, rule->action_at[i]);
    }
    for (unsigned j = 0; j < s->box->variable_count; j++) {
        x.variables[j] = get_four(s->state + s->box->variables_at + 4 * j);
        if (rule->variable_actions[j] == 1) x.variables[j] = value_at(s, rule->variable_action_at[j]);
    }
    return x;
}

/* The first fireable rule of the box, or 16; notes a fault of a guard reached or of the rule's actions. */
static unsigned choose_rule(struct scene *s) {
    for (unsigned k = 0; k < s->box->rule_count; k++) {
        struct rule rule = open_rule(s->net, s->box, k);
        if (!patterns_ready(&rule, s) || !outputs_free(&rule, s)) continue;
        bool fireable = value_at(s, rule.guard_at) != 0;
        if (s->fault) return NO_RULE;
        if (!fireable) continue;
        work_out(&rule, s);
        return k;
    }
    return NO_RULE;
}

/* ---- Marking and firing ---- */

/* A network with its tokens and a good state. */
struct bench {
    struct network net;
    struct token_file tokens;
};

/* Is input i of the network marked? */
static bool input_marked(const struct bench *bench, const uint8_t *state, unsigned i) {
    const struct port *port = &bench->net.inputs[i];
    return get_two(state + port->at) < bench->tokens.count[i] && !is_full(&bench->net, state, port->wire);
}

/* Is output i of the network marked? */
static bool output_marked(const struct bench *bench, const uint8_t *state, unsigned i) {
    const struct port *port = &bench->net.outputs[i];
    return state[bench->net.wires[port->wire].at] > 0 && get_two(state + port->at) < port->room;
}

/* Marks a good state: the set and the rules, or refused 9. */
static struct answer mark_state(const struct bench *bench, const uint8_t *state) {
    const struct network *net = &bench->net;
    struct answer a = plain_answer(MARKED);
    for (unsigned b = 0; b < MOST_BOXES; b++) a.rules[b] = NO_RULE;
    for (unsigned b = 0; b < net->box_count; b++) {
        struct scene s = {net, &net->boxes[b], state, false};
        a.rules[b] = (uint8_t)choose_rule(&s);
        if (s.fault) return refuse(9, b);
        if (a.rules[b] != NO_RULE) a.set |= (uint64_t)1 << b;
    }
    for (unsigned i = 0; i < net->input_count; i++)
        if (input_marked(bench, state, i)) a.set |= (uint64_t)1 << (net->box_count + i);
    for (unsigned i = 0; i < net->output_count; i++)
        if (output_marked(bench, state, i)) a.set |= (uint64_t)1 << (net->box_count + net->input_count + i);
    return a;
}

/* Takes the oldest token of a wire; the others move up and a zero comes in. */
static void take(const struct network *net, uint8_t *state, unsigned wire) {
    uint8_t *queue = state + net->wires[wire].at + 1;
    unsigned size = TOKEN * net->wires[wire].capacity;
    for (unsigned i = 0; i + TOKEN < size; i++) queue[i] = queue[i + TOKEN];
    for (unsigned i = size - TOKEN; i < size; i++) queue[i] = 0;
    queue[-1]--;
}

/* Puts a token on a wire that is not full. */
static void put(const struct network *net, uint8_t *state, unsigned wire, uint8_t tag, int64_t v) {
    uint8_t *part = state + net->wires[wire].at;
    uint8_t *token = part + 1 + TOKEN * (size_t)part[0];
    token[0] = tag;
    put_four(token + 1, v);
    part[0]++;
}

/* Fires a box by a rule: takes the matched tokens, then puts the results. */
static void fire_box(const struct network *net, uint8_t *state, unsigned b, unsigned rule_number) {
    const struct box *box = &net->boxes[b];
    struct rule rule = open_rule(net, box, rule_number);
    struct scene s = {net, box, state, false};
    struct results x = work_out(&rule, &s);
    for (unsigned i = 0; i < box->input_count; i++)
        if (rule.patterns[i] != 0) take(net, state, box->input_wires[i]);
    for (unsigned i = 0; i < box->output_count; i++)
        if (rule.actions[i] != 0) put(net, state, box->output_wires[i], x.tags[i], x.outputs[i]);
    for (unsigned j = 0; j < box->variable_count; j++)
        put_four(state + box->variables_at + 4 * j, x.variables[j]);
}

/* Fires an input: its next token goes on its wire. */
static void fire_input(const struct bench *bench, uint8_t *state, unsigned i) {
    const struct port *port = &bench->net.inputs[i];
    unsigned taken = get_two(state + port->at);
    const uint8_t *token = bench->tokens.bytes + bench->tokens.at[i] + TOKEN * (size_t)taken;
    put(&bench->net, state, port->wire, token[0], get_four(token + 1));
    put_two(state + port->at, taken + 1);
}

/* Fires an output: the oldest token of its wire is kept. */
static void fire_output(const struct bench *bench, uint8_t *state, unsigned i) {
    const struct port *port = &bench->net.outputs[i];
    unsigned count = get_two(state + port->at);
    uint8_t *kept = state + port->at + 2 + TOKEN * (size_t)count;
    const uint8_t *token = oldest(&bench->net, state, port->wire);
    for (unsigned k = 0; k < TOKEN; k++) kept[k] = token[k];
    put_two(state + port->at, count + 1);
    take(&bench->net, state, port->wire);
}

/* Fires one marked process. */
static void fire(const struct bench *bench, uint8_t *state, unsigned process, const uint8_t *rules) {
    const struct network *net = &bench->net;
    if (process < net->box_count) fire_box(net, state, process, rules[process]);
    else if (process < net->box_count + net->input_count) fire_input(bench, state, process - net->box_count);
    else fire_output(bench, state, process - net->box_count - net->input_count);
}

/* Does the order name each process of the set once and no other? */
static bool good_order(struct input_bytes order, uint64_t set) {
    for (size_t i = 0; i < order.length; i++) {
        if (order.bytes[i] >= 64 || (set >> order.bytes[i] & 1) == 0) return false;
        set &= ~((uint64_t)1 << order.bytes[i]);
    }
    return set == 0;
}

/* ---- The calls ---- */

/* Reads network and tokens and looks at the state's length and, but for a load, at its bytes. */
static struct answer open_bench(struct bench *bench, struct input_bytes network, struct input_bytes tokens,
                                struct input_bytes state, bool loading) {
    struct answer a = read_network(network, &bench->net);
    if (a.kind == REFUSED) return a;
    a = read_tokens(tokens, &bench->net, &bench->tokens);
    if (a.kind == REFUSED) return a;
    if (state.length < bench->net.state_size) return refuse(6, bench->net.state_size);
    if (!loading && !good_state(&bench->net, &bench->tokens, state.bytes)) return refuse(7, 0);
    return plain_answer(ACCEPTED);
}

/* Lent bytes, to be read only. */
static struct input_bytes to_read(struct lent_bytes lent) {
    struct input_bytes x = {lent.bytes, lent.length};
    return x;
}

/* Is this a good network file? */
struct answer reference_check(struct input_bytes network) {
    struct network net;
    return read_network(network, &net);
}

/* The stretch of a rule's body, or the empty one at the file's end. */
struct answer reference_rule_body(struct input_bytes network, size_t box, size_t rule) {
    struct network net;
    bool good = read_network(network, &net).kind == ACCEPTED;
    struct answer a = plain_answer(STRETCH);
    a.place = network.length;
    if (!good || box >= net.box_count || rule >= net.boxes[box].rule_count) return a;
    a.place = net.boxes[box].rule_at[rule];
    a.size = net.boxes[box].rule_size[rule];
    return a;
}

/* Makes wires and outputs empty, counts 0 and variables initial. */
struct answer reference_load(struct input_bytes network, struct input_bytes tokens, struct lent_bytes state) {
    struct bench bench;
    struct answer a = open_bench(&bench, network, tokens, to_read(state), true);
    if (a.kind == REFUSED) return a;
    for (size_t i = 0; i < bench.net.state_size; i++) state.bytes[i] = 0;
    for (unsigned b = 0; b < bench.net.box_count; b++) {
        const struct box *box = &bench.net.boxes[b];
        for (unsigned j = 0; j < box->variable_count; j++)
            put_four(state.bytes + box->variables_at + 4 * j, box->initial[j]);
    }
    a = plain_answer(LOADED);
    a.size = bench.net.state_size;
    return a;
}

/* The marked set and the rules. */
struct answer reference_mark(struct input_bytes network, struct input_bytes tokens, struct input_bytes state) {
    struct bench bench;
    struct answer a = open_bench(&bench, network, tokens, state, false);
    if (a.kind == REFUSED) return a;
    return mark_state(&bench, state.bytes);
}

/* One cycle: fault, then order check, then idle, then the firings. */
struct answer reference_cycle(struct input_bytes network, struct input_bytes tokens, struct lent_bytes state,
                              struct input_bytes order) {
    struct bench bench;
    struct answer a = open_bench(&bench, network, tokens, to_read(state), false);
    if (a.kind == REFUSED) return a;
    struct answer marks = mark_state(&bench, state.bytes);
    if (marks.kind == REFUSED) return marks;
    if (!good_order(order, marks.set)) return refuse(8, 0);
    if (marks.set == 0) return plain_answer(IDLE);
    for (size_t i = 0; i < order.length; i++) fire(&bench, state.bytes, order.bytes[i], marks.rules);
    a = plain_answer(DONE);
    a.cycles = 1;
    return a;
}

/* Cycles in rising order of the processes: fault, then idle, then spent, else one more. */
struct answer reference_run(struct input_bytes network, struct input_bytes tokens, struct lent_bytes state,
                            uint64_t budget) {
    struct bench bench;
    if (network.length > MOST_BYTES || budget > MOST_BUDGET) return refuse(2, 0);
    struct answer a = open_bench(&bench, network, tokens, to_read(state), false);
    if (a.kind == REFUSED) return a;
    for (unsigned cycles = 0;; cycles++) {
        struct answer marks = mark_state(&bench, state.bytes);
        if (marks.kind == REFUSED) a = marks;
        else a = plain_answer(marks.set == 0 ? IDLE : SPENT);
        a.cycles = cycles;
        if (a.kind != SPENT || cycles == budget) return a;
        for (unsigned k = 0; k < 64; k++)
            if (marks.set >> k & 1) fire(&bench, state.bytes, k, marks.rules);
    }
}

/* The length of the output file of a good state. */
static size_t output_length(const struct network *net, const uint8_t *state) {
    size_t length = 0;
    for (unsigned i = 0; i < net->output_count; i++)
        length += 3 + TOKEN * (size_t)get_two(state + net->outputs[i].at);
    return length;
}

/* One field of tag 33 for each output. */
struct answer reference_write_outputs(struct input_bytes network, struct input_bytes state,
                                      struct lent_bytes output) {
    struct network net;
    struct answer a = read_network(network, &net);
    if (a.kind == REFUSED) return a;
    if (state.length < net.state_size) return refuse(6, net.state_size);
    if (!good_state(&net, NULL, state.bytes)) return refuse(7, 0);
    size_t length = output_length(&net, state.bytes), at = 0;
    if (output.length < length) return refuse(6, length);
    for (unsigned i = 0; i < net.output_count; i++) {
        const uint8_t *part = state.bytes + net.outputs[i].at;
        size_t size = TOKEN * (size_t)get_two(part);
        output.bytes[at] = 33;
        put_two(output.bytes + at + 1, (unsigned)size);
        for (size_t k = 0; k < size; k++) output.bytes[at + 3 + k] = part[2 + k];
        at += 3 + size;
    }
    a = plain_answer(WRITTEN);
    a.size = length;
    return a;
}

/* ---- The run program ---- */

/* Text that grows in room enough for any run: 8 outputs of 1,000 tokens of at most 12 letters. */
enum { TEXT_ROOM = 8 * (16 + 1000 * 12) + 100 };

struct text {
    char *letters;
    size_t length;
};

/* Adds formatted text. */
static void add(struct text *t, const char *format, ...) {
    va_list arguments;
    va_start(arguments, format);
    int n = vsnprintf(t->letters + t->length, TEXT_ROOM - t->length, format, arguments);
    va_end(arguments);
    if (n > 0) t->length += (size_t)n;
}

/* Adds one token, after a blank. */
static void add_token(struct text *t, const uint8_t *token) {
    if (token[0] == 1) add(t, " '<");
    else if (token[0] == 2) add(t, " '>");
    else add(t, token[0] == 3 ? " '%" PRId64 : " %" PRId64, get_four(token + 1));
}

/* Adds a line for each output. */
static void add_outputs(struct text *t, const struct network *net, const uint8_t *state) {
    for (unsigned i = 0; i < net->output_count; i++) {
        const uint8_t *part = state + net->outputs[i].at;
        add(t, "out %u:", i);
        for (unsigned k = 0; k < get_two(part); k++) add_token(t, part + 2 + TOKEN * k);
        add(t, "\n");
    }
}

/* Loads, runs with a budget of 1,000, and tells what happened. */
char *reference_print_run(struct input_bytes network, struct input_bytes tokens) {
    uint8_t room[MOST_STATE];
    struct lent_bytes state = {room, sizeof room};
    struct text t = {malloc(TEXT_ROOM), 0};
    if (t.letters == NULL) return NULL;
    struct answer a = reference_load(network, tokens, state);
    if (a.kind != REFUSED) a = reference_run(network, tokens, state, 1000);
    if (a.kind == REFUSED && a.number != 9) {
        add(&t, "refused %u place %zu\n", a.number, a.place);
        return t.letters;
    }
    if (a.kind == REFUSED) add(&t, "outcome fault cycles %u box %zu\n", a.cycles, a.place);
    else add(&t, "outcome %s cycles %u\n", a.kind == IDLE ? "idle" : "spent", a.cycles);
    struct network net;
    read_network(network, &net);
    add_outputs(&t, &net, room);
    return t.letters;
}
