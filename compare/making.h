/* Cases of the seven calls, made from a seed. */
#ifndef MAKING_H
#define MAKING_H

#include "cases.h"

/* Makes the case of a number, from the seed and that number alone; case_free gives its memory back. */
void make_case(struct call_case *c, uint64_t seed, uint64_t number);

#endif
