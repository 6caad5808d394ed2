/* Puts cases of a seed to the library and to the reference and stops at the first difference: compare SEED COUNT. */
#include "library.h"
#include "making.h"

#include <inttypes.h>
#include <stdlib.h>
#include <string.h>

/* How many cases of each call there were, how many were refused, and how many lent bytes the library changed in these. */
struct tally {
    uint64_t calls[7], refusals, changed;
};

static const char *const names[7] = {"check", "body", "load", "mark", "cycle", "run", "write"};

/* How many bytes differ. */
static uint64_t differing(struct bytes a, struct bytes b) {
    uint64_t n = 0;
    for (size_t i = 0; a.there && i < a.length && i < b.length; i++) n += a.data[i] != b.data[i];
    return n;
}

/* Counts the case, and for a refusal the lent bytes that the library changed. A fault in a run keeps the cycles before it. */
static void count_case(struct tally *t, const struct call_case *c, const struct outcome *o) {
    for (unsigned k = 0; k < 7; k++) t->calls[k] += strcmp(c->call, names[k]) == 0;
    if (strncmp(o->words, "refused", 7) != 0) return;
    if (strcmp(c->call, "run") == 0 && strncmp(o->words, "refused 9 ", 10) == 0) return;
    struct bytes before = case_lent(c);
    t->refusals++;
    t->changed += differing(before, o->lent);
    bytes_free(&before);
}

/* Tells a difference: the case as a line, and what each said and left in the lent buffer. */
static void report(const struct call_case *c, uint64_t seed, uint64_t number, const struct outcome *r, const struct outcome *l) {
    size_t at = 0;
    while (at < r->lent.length && at < l->lent.length && r->lent.data[at] == l->lent.data[at]) at++;
    printf("case %" PRIu64 " of seed %" PRIu64 " differs\n", number, seed);
    case_print(stdout, c);
    printf("\nreference: %s | ", r->words);
    bytes_print(stdout, r->lent);
    printf("\nlibrary:   %s | ", l->words);
    bytes_print(stdout, l->lent);
    printf("\n");
    if (r->lent.there && at < r->lent.length) printf("first byte that differs: %zu\n", at);
    if (library_fault() != NULL) printf("beside the answer: %s\n", library_fault());
}

/* Puts one case to both; true if they agree. */
static bool compare_case(uint64_t seed, uint64_t number, struct tally *t) {
    struct call_case c;
    make_case(&c, seed, number);
    struct outcome r = case_ask(&c, ask_reference), l = case_ask(&c, ask_library);
    bool same = strcmp(r.words, l.words) == 0 && bytes_same(r.lent, l.lent) && library_fault() == NULL;
    count_case(t, &c, &l);
    if (!same) report(&c, seed, number, &r, &l);
    bytes_free(&r.lent);
    bytes_free(&l.lent);
    case_free(&c);
    return same;
}

/* Compares so many cases of a seed. */
int main(int count, char **arguments) {
    struct tally t = {0};
    if (count != 3) {
        fprintf(stderr, "compare SEED COUNT\n");
        return 2;
    }
    uint64_t seed = strtoull(arguments[1], NULL, 10), cases = strtoull(arguments[2], NULL, 10), number = 0;
    bool same = true;
    while (number < cases && same) same = compare_case(seed, number++, &t);
    for (unsigned k = 0; k < 7; k++) printf("%s %" PRIu64 "%s", names[k], t.calls[k], k < 6 ? ", " : "\n");
    printf("%" PRIu64 " refusals, %" PRIu64 " lent bytes changed in them\n", t.refusals, t.changed);
    printf("%" PRIu64 " cases of seed %" PRIu64 ", %d different\n", number, seed, same ? 0 : 1);
    return same && t.changed == 0 ? 0 : 1;
}
