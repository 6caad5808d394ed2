/* The library, asked through include/charmolys.h. */
#ifndef LIBRARY_H
#define LIBRARY_H

#include "cases.h"

/*
 * Puts the call of a case to the library, twice: with an array for the whole answer, then with a shorter one. Each
 * buffer stands between guard bytes. What goes wrong beside the answer is kept for library_fault.
 */
struct answer ask_library(const struct call_case *c, struct bytes lent);

/* What went wrong beside the answer of the last call: a byte changed that is not lent, a number where none belongs; or NULL. */
const char *library_fault(void);

/* The text of the run program by load, run and write_outputs, to be freed by the caller; NULL only where memory fails. */
char *library_print_run(struct input_bytes network, struct input_bytes tokens);

#endif
