/* checked_takers.c - what takes answers apart, as a host has it that asks for checks. */
#undef NDEBUG
#define DTED_CHECK
#define takers checked_takers
#include "takers.c"
