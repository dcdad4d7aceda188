/* What the tests count and check, and their heap: it counts allocations, and refuses one of them. */
#ifndef CHECKS_H
#define CHECKS_H

#include <stdbool.h>

void check(bool holds, const char *what, const char *file, int line);

#define CHECK(holds) check((holds), #holds, __FILE__, __LINE__)
#define CODE(call, code) check((call) == (code), #call " gives " #code, __FILE__, __LINE__)
#define OK(call) CODE(call, FC_OK)

/* Prints 'N passed, M failed'. Returns the exit status. */
int tell(void);

extern unsigned long allocations, refused_one; /* how many were asked for, and which one is refused; 0: none */
extern long blocks;                            /* how many are not freed */

#endif
