/* quiet_takers.c - the same in a host that asks for checks and switches every assert off. */
#ifndef NDEBUG
#define NDEBUG
#endif
#define DTED_CHECK
#define takers quiet_takers
#include "takers.c"
