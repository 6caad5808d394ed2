/* The library, asked through include/charmolys.h, with guards around all that it is handed. */
#include "library.h"
#include "charmolys.h"

#include <inttypes.h>
#include <stdlib.h>
#include <string.h>

static const char *fault;

/* What went wrong beside the answer of the last call. */
const char *library_fault(void) { return fault; }

/* Keeps the first thing that went wrong. */
static void expect(bool good, const char *otherwise) {
    if (!good && fault == NULL) fault = otherwise;
}

/* ---- Memory between guards ---- */

enum { GUARD = 61, GUARD_BYTE = 0xa7, PLACES = CHARMOLYS_MARK_ANSWER_LENGTH, BEHIND = 4 };

static const uint64_t GUARD_NUMBER = 0xa7a7a7a7a7a7a7a7u;

/* A copy of bytes, between guard bytes and at an odd address. */
static struct bytes guarded(struct bytes from) {
    struct bytes b = bytes_make(from.length + 2 * GUARD, GUARD_BYTE);
    b.data += GUARD;
    b.length = from.length;
    if (from.length > 0) memcpy(b.data, from.data, from.length);
    return b;
}

/* Ends the use of such a copy: the guards stand, and so do the bytes if they were only to be read. */
static void release(struct bytes b, struct bytes from, bool lent) {
    for (size_t i = 0; i < GUARD; i++)
        expect(b.data[b.length + i] == GUARD_BYTE && *(b.data - 1 - i) == GUARD_BYTE, "a byte beside the memory was changed");
    if (from.length > 0 && lent) memcpy(from.data, b.data, from.length);
    else if (from.length > 0) expect(memcmp(from.data, b.data, from.length) == 0, "a byte that is not lent was changed");
    b.data -= GUARD;
    bytes_free(&b);
}

/* ---- One call ---- */

/* What the library said: the word, and the lent array with what stands behind it. */
struct said {
    uint64_t word;
    uint64_t numbers[PLACES + BEHIND];
};

/* Hands the arguments over, as they are. */
static uint64_t hand_over(const char *call, const struct call_case *c, struct bytes lent, uint64_t *numbers, size_t room) {
    struct bytes n = c->network, t = c->tokens;
    if (strcmp(call, "body") == 0)
        return charmolys_rule_body(n.data, n.length, c->numbers[0], c->numbers[1], numbers, room);
    if (strcmp(call, "load") == 0)
        return charmolys_load(n.data, n.length, t.data, t.length, lent.data, lent.length, numbers, room);
    if (strcmp(call, "mark") == 0)
        return charmolys_mark(n.data, n.length, t.data, t.length, lent.data, lent.length, numbers, room);
    if (strcmp(call, "cycle") == 0)
        return charmolys_cycle(n.data, n.length, t.data, t.length, lent.data, lent.length, c->order.data,
                               c->order.length, numbers, room);
    if (strcmp(call, "run") == 0)
        return charmolys_run(n.data, n.length, t.data, t.length, lent.data, lent.length, c->numbers[0], numbers, room);
    if (strcmp(call, "write") == 0)
        return charmolys_write_outputs(n.data, n.length, c->state.data, c->state.length, lent.data, lent.length,
                                       numbers, room);
    return charmolys_check(n.data, n.length, numbers, room);
}

/* Calls with an array of so many places. */
static struct said call_with(const struct call_case *c, struct bytes lent, size_t room) {
    struct said s;
    struct call_case copy = *c;
    struct bytes given = guarded(lent);
    copy.network = guarded(c->network);
    copy.tokens = guarded(c->tokens);
    copy.state = guarded(c->state);
    copy.order = guarded(c->order);
    for (size_t i = 0; i < PLACES + BEHIND; i++) s.numbers[i] = GUARD_NUMBER;
    s.word = hand_over(c->call, &copy, given, s.numbers, room);
    for (size_t i = room; i < PLACES + BEHIND; i++)
        expect(s.numbers[i] == GUARD_NUMBER, "a number behind the array was changed");
    release(copy.network, c->network, false);
    release(copy.tokens, c->tokens, false);
    release(copy.state, c->state, false);
    release(copy.order, c->order, false);
    release(given, lent, strcmp(c->call, "mark") != 0);
    return s;
}

/* ---- The answer ---- */

/* The rule numbers: of mark all 32, 16 beside a refusal; of other calls no place is touched. */
static void take_rules(struct answer *a, const struct said *s, bool mark) {
    for (unsigned b = 0; b < 32; b++) {
        uint64_t rule = s->numbers[CHARMOLYS_RULES + b];
        if (!mark) expect(rule == GUARD_NUMBER, "a number behind the answer was changed");
        else if (a->kind == REFUSED) expect(rule == 16, "a rule number beside a refusal");
        else a->rules[b] = (uint8_t)rule;
        expect(!mark || rule <= 16, "a rule number over 16");
    }
}

/* The answer of a word and its numbers; a number that the word doesn't name must be 0. */
static struct answer take_answer(const struct said *s, bool mark) {
    static const enum answer_kind kinds[] = {REFUSED, ACCEPTED, LOADED, MARKED, DONE, IDLE, SPENT, WRITTEN, STRETCH};
    struct answer a = {0};
    uint64_t number = s->numbers[CHARMOLYS_NUMBER], place = s->numbers[CHARMOLYS_PLACE];
    uint64_t cycles = s->numbers[CHARMOLYS_CYCLES], value = s->numbers[CHARMOLYS_VALUE];
    expect(s->word < sizeof kinds / sizeof *kinds, "an unknown word");
    if (fault != NULL) return a;
    a.kind = kinds[s->word];
    bool counts = a.kind == REFUSED || a.kind == DONE || a.kind == IDLE || a.kind == SPENT;
    expect(a.kind == REFUSED || number == 0, "a refusal's number without a refusal");
    expect(a.kind == REFUSED || a.kind == STRETCH || place == 0, "a place where none belongs");
    expect(counts || cycles == 0, "cycles where none belong");
    expect(!(counts || a.kind == ACCEPTED) || value == 0, "a value where none belongs");
    a.number = (unsigned)number;
    a.place = place;
    a.cycles = (unsigned)cycles;
    if (a.kind == MARKED) a.set = value;
    else a.size = value;
    take_rules(&a, s, mark);
    return a;
}

/* Puts the call of a case to the library: with an array for the whole answer, then with a shorter one. */
struct answer ask_library(const struct call_case *c, struct bytes lent) {
    bool mark = strcmp(c->call, "mark") == 0;
    fault = NULL;
    struct bytes second = bytes_copy(lent);
    struct said s = call_with(c, lent, PLACES);
    struct answer a = take_answer(&s, mark);
    size_t room = (c->network.length + c->state.length) % (mark ? PLACES : CHARMOLYS_ANSWER_LENGTH);
    struct said t = call_with(c, second, room);
    expect(t.word == s.word && memcmp(t.numbers, s.numbers, room * sizeof *t.numbers) == 0, "a short array, and another answer");
    expect(bytes_same(lent, second), "a short array, and other bytes");
    bytes_free(&second);
    return a;
}

/* ---- The run program ---- */

/* Adds the tokens of an output field to the text. */
static int print_tokens(char *text, const uint8_t *body, size_t length) {
    int n = 0;
    for (const uint8_t *t = body; t < body + length; t += 5) {
        int32_t value = (int32_t)((uint32_t)t[1] << 24 | (uint32_t)t[2] << 16 | (uint32_t)t[3] << 8 | t[4]);
        if (t[0] == 1 || t[0] == 2) n += sprintf(text + n, " '%c", t[0] == 1 ? '<' : '>');
        else n += sprintf(text + n, t[0] == 3 ? " '%" PRId32 : " %" PRId32, value);
    }
    return n;
}

/* Adds a line for each output. */
static void print_outputs(char *text, const uint8_t *file, size_t length) {
    for (size_t at = 0, k = 0; at < length; k++) {
        size_t body = (size_t)file[at + 1] << 8 | file[at + 2];
        text += sprintf(text, "out %zu:", k);
        text += print_tokens(text, file + at + 3, body);
        text += sprintf(text, "\n");
        at += 3 + body;
    }
}

/* The text of the run program by load, run and write_outputs. */
char *library_print_run(struct input_bytes network, struct input_bytes tokens) {
    static uint8_t state[CHARMOLYS_LARGEST_STATE], output[CHARMOLYS_LARGEST_OUTPUT];
    const uint8_t *n = network.length > 0 ? network.bytes : state, *t = tokens.length > 0 ? tokens.bytes : state;
    uint64_t a[CHARMOLYS_ANSWER_LENGTH], o[CHARMOLYS_ANSWER_LENGTH];
    char *text = malloc(200000);
    if (text == NULL) return NULL;
    uint64_t word = charmolys_load(n, network.length, t, tokens.length, state, sizeof state, a, 4);
    if (word == CHARMOLYS_LOADED)
        word = charmolys_run(n, network.length, t, tokens.length, state, sizeof state, 1000, a, 4);
    if (word == CHARMOLYS_REFUSED && a[CHARMOLYS_NUMBER] != 9) {
        sprintf(text, "refused %" PRIu64 " place %" PRIu64 "\n", a[CHARMOLYS_NUMBER], a[CHARMOLYS_PLACE]);
        return text;
    }
    const char *outcome = word == CHARMOLYS_IDLE ? "idle" : word == CHARMOLYS_SPENT ? "spent" : "fault";
    int length = sprintf(text, "outcome %s cycles %" PRIu64, outcome, a[CHARMOLYS_CYCLES]);
    if (word == CHARMOLYS_REFUSED) length += sprintf(text + length, " box %" PRIu64, a[CHARMOLYS_PLACE]);
    length += sprintf(text + length, "\n");
    charmolys_write_outputs(n, network.length, state, sizeof state, output, sizeof output, o, 4);
    print_outputs(text + length, output, o[CHARMOLYS_VALUE]);
    return text;
}
