/* others.h - what other programs have of the machine meanwhile. */
#ifndef OTHERS_H
#define OTHERS_H

/* Seconds that the machine's processors were busy, and all that they had, since it was started; 0 where that is not known. `own` is
 * this program's time of them. */
struct use {
    double busy, all, own;
};

struct use machine_use(void);

/* Prints the share of the machine that others had between two looks at it. */
void print_others(struct use before, struct use after);

#endif
