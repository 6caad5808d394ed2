/* Prints cases of the seven calls from a seed: generate SEED COUNT [--answers]. */
#include "making.h"

#include <stdlib.h>
#include <string.h>

/* Writes so many cases of a seed, with the reference's answers if they are asked for. */
int main(int count, char **arguments) {
    bool answers = count == 4 && strcmp(arguments[3], "--answers") == 0;
    if (count != 3 && !answers) {
        fprintf(stderr, "generate SEED COUNT [--answers]\n");
        return 2;
    }
    uint64_t seed = strtoull(arguments[1], NULL, 10), cases = strtoull(arguments[2], NULL, 10);
    for (uint64_t number = 0; number < cases; number++) {
        struct call_case c;
        make_case(&c, seed, number);
        case_print(stdout, &c);
        if (answers) {
            struct outcome o = case_ask(&c, ask_reference);
            printf(" | %s | ", o.words);
            bytes_print(stdout, o.lent);
            bytes_free(&o.lent);
        }
        putchar('\n');
        case_free(&c);
    }
    return 0;
}
