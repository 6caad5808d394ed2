/* Cases of calls: read, written, and put to a bench. */
#include "cases.h"

#include <inttypes.h>
#include <stdlib.h>
#include <string.h>

/* Makes bytes of a length, all equal to fill. */
struct bytes bytes_make(size_t length, uint8_t fill) {
    struct bytes b = {true, malloc(length > 0 ? length : 1), length};
    if (b.data == NULL) {
        fprintf(stderr, "no memory\n");
        exit(2);
    }
    memset(b.data, fill, length);
    return b;
}

/* A copy of bytes. */
struct bytes bytes_copy(struct bytes from) {
    if (!from.there) return from;
    struct bytes b = bytes_make(from.length, 0);
    memcpy(b.data, from.data, from.length);
    return b;
}

/* Gives the memory back. */
void bytes_free(struct bytes *b) {
    if (b->there) free(b->data);
    *b = (struct bytes){false, NULL, 0};
}

/* Do both hold the same? */
bool bytes_same(struct bytes a, struct bytes b) {
    if (!a.there || !b.there) return a.there == b.there;
    return a.length == b.length && memcmp(a.data, b.data, a.length) == 0;
}

/* The same bytes, for a call that reads them. */
struct input_bytes bytes_view(struct bytes b) {
    struct input_bytes x = {b.data, b.length};
    return x;
}

/* The same bytes, for a call that writes them. */
static struct lent_bytes bytes_lend(struct bytes b) {
    struct lent_bytes x = {b.data, b.length};
    return x;
}

/* The value of a hexadecimal digit, or 16. */
static unsigned digit(char c) {
    if (c >= '0' && c <= '9') return (unsigned)(c - '0');
    if (c >= 'a' && c <= 'f') return (unsigned)(c - 'a') + 10;
    return 16;
}

/* Reads hexadecimal, "-" for empty bytes or "." for none; false if it is neither. */
bool bytes_parse(const char *text, struct bytes *b) {
    *b = (struct bytes){false, NULL, 0};
    if (strcmp(text, ".") == 0) return true;
    size_t letters = strcmp(text, "-") == 0 ? 0 : strlen(text);
    if (letters % 2 != 0) return false;
    *b = bytes_make(letters / 2, 0);
    for (size_t i = 0; i < letters / 2; i++) {
        unsigned high = digit(text[2 * i]), low = digit(text[2 * i + 1]);
        if (high > 15 || low > 15) {
            bytes_free(b);
            return false;
        }
        b->data[i] = (uint8_t)(16 * high + low);
    }
    return true;
}

/* Writes bytes as bytes_parse reads them. */
void bytes_print(FILE *out, struct bytes b) {
    static const char digits[] = "0123456789abcdef";
    if (!b.there) fputc('.', out);
    else if (b.length == 0) fputc('-', out);
    for (size_t i = 0; b.there && i < b.length; i++) {
        fputc(digits[b.data[i] >> 4], out);
        fputc(digits[b.data[i] & 15], out);
    }
}

/* The argument column, as the call takes it. */
static bool parse_argument(const char *text, struct call_case *c) {
    if (strcmp(c->call, "cycle") == 0) return bytes_parse(text, &c->order);
    if (strcmp(c->call, "body") == 0)
        return sscanf(text, "%" SCNu64 ",%" SCNu64, &c->numbers[0], &c->numbers[1]) == 2;
    if (strcmp(c->call, "run") == 0 || strcmp(c->call, "write") == 0)
        return sscanf(text, "%" SCNu64, &c->numbers[0]) == 1;
    return strcmp(text, ".") == 0;
}

/* Reads the columns of a case from "call network tokens state argument". */
bool case_parse(char *text, struct call_case *c) {
    char *columns[5];
    *c = (struct call_case){0};
    for (unsigned i = 0; i < 5; i++) {
        columns[i] = strtok(i == 0 ? text : NULL, " ");
        if (columns[i] == NULL) return false;
    }
    if (strtok(NULL, " ") != NULL || strlen(columns[0]) >= sizeof c->call) return false;
    strcpy(c->call, columns[0]);
    return bytes_parse(columns[1], &c->network) && bytes_parse(columns[2], &c->tokens) &&
           bytes_parse(columns[3], &c->state) && parse_argument(columns[4], c);
}

/* Writes those columns. */
void case_print(FILE *out, const struct call_case *c) {
    struct bytes columns[3] = {c->network, c->tokens, c->state};
    fputs(c->call, out);
    for (unsigned i = 0; i < 3; i++) {
        fputc(' ', out);
        bytes_print(out, columns[i]);
    }
    fputc(' ', out);
    if (strcmp(c->call, "cycle") == 0) bytes_print(out, c->order);
    else if (strcmp(c->call, "body") == 0) fprintf(out, "%" PRIu64 ",%" PRIu64, c->numbers[0], c->numbers[1]);
    else if (strcmp(c->call, "run") == 0 || strcmp(c->call, "write") == 0) fprintf(out, "%" PRIu64, c->numbers[0]);
    else fputc('.', out);
}

/* Gives the memory of a case back. */
void case_free(struct call_case *c) {
    bytes_free(&c->network);
    bytes_free(&c->tokens);
    bytes_free(&c->state);
    bytes_free(&c->order);
}

/* Puts the call to the reference; lent is its buffer. */
struct answer ask_reference(const struct call_case *c, struct bytes lent) {
    struct input_bytes network = bytes_view(c->network), tokens = bytes_view(c->tokens);
    if (strcmp(c->call, "body") == 0) return reference_rule_body(network, c->numbers[0], c->numbers[1]);
    if (strcmp(c->call, "load") == 0) return reference_load(network, tokens, bytes_lend(lent));
    if (strcmp(c->call, "mark") == 0) return reference_mark(network, tokens, bytes_view(lent));
    if (strcmp(c->call, "cycle") == 0)
        return reference_cycle(network, tokens, bytes_lend(lent), bytes_view(c->order));
    if (strcmp(c->call, "run") == 0) return reference_run(network, tokens, bytes_lend(lent), c->numbers[0]);
    if (strcmp(c->call, "write") == 0)
        return reference_write_outputs(network, bytes_view(c->state), bytes_lend(lent));
    return reference_check(network);
}

/* The set and the 32 rule numbers. */
static void put_marks(char *words, size_t room, const struct answer *a) {
    size_t n = (size_t)snprintf(words, room, "marks %" PRIu64, a->set);
    for (unsigned b = 0; b < 32; b++)
        n += (size_t)snprintf(words + n, room - n, "%c%u", b == 0 ? ' ' : ',', (unsigned)a->rules[b]);
}

/* An answer in the words of a file of cases. */
static void put_words(const char *call, const struct answer *a, char *words, size_t room) {
    bool counts = strcmp(call, "cycle") == 0 || strcmp(call, "run") == 0;
    switch (a->kind) {
    case REFUSED:
        if (counts) snprintf(words, room, "refused %u %zu %u", a->number, a->place, a->cycles);
        else snprintf(words, room, "refused %u %zu", a->number, a->place);
        break;
    case ACCEPTED: snprintf(words, room, "ok"); break;
    case STRETCH: snprintf(words, room, "%zu %zu", a->place, a->place + a->size); break;
    case LOADED:
    case WRITTEN: snprintf(words, room, "ok %zu", a->size); break;
    case MARKED: put_marks(words, room, a); break;
    case DONE: snprintf(words, room, "done %u", a->cycles); break;
    case IDLE: snprintf(words, room, "idle %u", a->cycles); break;
    case SPENT: snprintf(words, room, "spent %u", a->cycles); break;
    }
}

/* The buffer that a case lends, as it is before the call. */
struct bytes case_lent(const struct call_case *c) {
    return strcmp(c->call, "write") == 0 ? bytes_make(c->numbers[0], 0x5a) : bytes_copy(c->state);
}

/* Asks a bench. */
struct outcome case_ask(const struct call_case *c, bench_asked *ask) {
    struct outcome o = {{0}, case_lent(c)};
    struct answer a = ask(c, o.lent);
    put_words(c->call, &a, o.words, sizeof o.words);
    return o;
}
