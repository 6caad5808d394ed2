/* Compares a file of vectors with the reference, or, built with LIBRARY, with the library: vectors FILE. */
#include "cases.h"
#ifdef LIBRARY
#include "library.h"
#define ASKED ask_library
#define PRINTED library_print_run
#else
#define ASKED ask_reference
#define PRINTED reference_print_run
#endif

#include <stdlib.h>
#include <string.h>

/* The whole file as text. */
static char *read_file(const char *name) {
    FILE *in = fopen(name, "rb");
    if (in == NULL) return NULL;
    size_t length = 0, room = 1 << 16;
    char *text = malloc(room);
    while (text != NULL) {
        length += fread(text + length, 1, room - 1 - length, in);
        if (length < room - 1) break;
        room *= 2;
        char *larger = realloc(text, room);
        if (larger == NULL) free(text);
        text = larger;
    }
    fclose(in);
    if (text != NULL) text[length] = 0;
    return text;
}

/* Splits at " | ": gives what stands before it and moves on to what stands behind. */
static char *next_part(char **rest) {
    char *part = *rest;
    char *bar = part == NULL ? NULL : strstr(part, " | ");
    *rest = bar == NULL ? NULL : bar + 3;
    if (bar != NULL) *bar = 0;
    return part;
}

/* Compares a line of a file of calls; true if it agrees. */
static bool call_agrees(char *line, unsigned number) {
    char *columns = next_part(&line), *words = next_part(&line), *buffer = next_part(&line);
    struct call_case c = {0};
    struct bytes expected = {false, NULL, 0};
    bool good = words != NULL && buffer != NULL && case_parse(columns, &c) && bytes_parse(buffer, &expected);
    if (good) {
        struct outcome o = case_ask(&c, ASKED);
        good = strcmp(o.words, words) == 0 && bytes_same(o.lent, expected);
        if (!good) {
            printf("line %u (%s): expected %s, got %s%s\n", number, c.call, words, o.words,
                   bytes_same(o.lent, expected) ? "" : ", and other bytes");
        }
        bytes_free(&o.lent);
    } else {
        printf("line %u: cannot be read\n", number);
    }
    bytes_free(&expected);
    case_free(&c);
    return good;
}

/* A file in a line of runs: "." is an empty file there. */
static bool parse_run_file(const char *column, struct bytes *b) {
    return column != NULL && bytes_parse(strcmp(column, ".") == 0 ? "-" : column, b);
}

/* Does the printed text agree with the line, which has " / " where a line ends? */
static bool same_text(const char *printed, const char *expected) {
    while (*printed != 0) {
        if (printed[0] == '\n' && printed[1] == 0) return *expected == 0;
        if (printed[0] == '\n') {
            if (strncmp(expected, " / ", 3) != 0) return false;
            expected += 3;
        } else if (*expected++ != *printed) {
            return false;
        }
        printed++;
    }
    return false;
}

/* Compares a line of a file of runs; true if it agrees. */
static bool run_agrees(char *line, unsigned number) {
    char *columns = next_part(&line), *expected = next_part(&line);
    struct bytes network = {false, NULL, 0}, tokens = network;
    bool good = expected != NULL && parse_run_file(strtok(columns, " "), &network) &&
                parse_run_file(strtok(NULL, " "), &tokens);
    if (good) {
        char *printed = PRINTED(bytes_view(network), bytes_view(tokens));
        good = printed != NULL && same_text(printed, expected);
        if (!good) printf("line %u: expected %s, got\n%s", number, expected, printed == NULL ? "nothing\n" : printed);
        free(printed);
    } else {
        printf("line %u: cannot be read\n", number);
    }
    bytes_free(&network);
    bytes_free(&tokens);
    return good;
}

/* A line of a file of calls begins with a call's name. */
static bool is_call(const char *line) {
    static const char *const calls[] = {"check ", "body ", "load ", "mark ", "cycle ", "run ", "write "};
    for (size_t i = 0; i < sizeof calls / sizeof *calls; i++)
        if (strncmp(line, calls[i], strlen(calls[i])) == 0) return true;
    return false;
}

/* Compares each line of the file. */
int main(int count, char **arguments) {
    char *text = count == 2 ? read_file(arguments[1]) : NULL;
    if (text == NULL) {
        fprintf(stderr, "vectors FILE: a file of runs or of calls with answers\n");
        return 2;
    }
    unsigned lines = 0, different = 0;
    for (char *line = text; *line != 0;) {
        size_t length = strcspn(line, "\n");
        char *next = line + length + (line[length] == '\n');
        line[length] = 0;
        lines++;
        if (!(is_call(line) ? call_agrees(line, lines) : run_agrees(line, lines))) different++;
        line = next;
    }
    printf("%u lines, %u different\n", lines, different);
    free(text);
    return different == 0 ? 0 : 1;
}
