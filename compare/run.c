/* The run program by the reference, or, built with LIBRARY, by the library: reads network.bin and tokens.bin of the current folder and prints the run. */
#include "reference.h"
#ifdef LIBRARY
#include "library.h"
#define PRINTED library_print_run
#else
#define PRINTED reference_print_run
#endif

#include <stdio.h>
#include <stdlib.h>

enum { MOST = 70000 }; /* more than any file that is accepted, so that one that is too long is noticed */

/* A file's bytes; one that can't be opened counts as empty. */
static size_t read_file(const char *name, uint8_t *bytes)
{
    FILE *file = fopen(name, "rb");
    if (file == NULL)
        return 0;
    size_t length = fread(bytes, 1, MOST, file);
    fclose(file);
    return length;
}

int main(void)
{
    static uint8_t network[MOST], tokens[MOST];
    struct input_bytes first = {network, read_file("network.bin", network)};
    struct input_bytes second = {tokens, read_file("tokens.bin", tokens)};
    char *text = PRINTED(first, second);
    if (text == NULL)
        return 1;
    fputs(text, stdout);
    free(text);
    return 0;
}
