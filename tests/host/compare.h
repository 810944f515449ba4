/* compare.h - numbered cases, and what the parts of the test program share. */
#ifndef COMPARE_H
#define COMPARE_H

#include <stdint.h>

/* Runs one case, counts it, and reports the first difference in it, a fault, or that it did not end. */
void run_case(void (*body)(const void *), const void *context);

/* Names the running case for its report. */
void name_case(const char *format, ...);

/* A difference to what the paper or the case's making says. */
void expect(const char *what, uint64_t library, uint64_t due);

/* The bits of a refusal. */
uint64_t refusal(uint64_t number, uint64_t place);

/* On how many sides of the pages the cases that need no seed are run: on both, or each on one alone, now this and now that. */
extern unsigned sides;

/* The rule year in which a case begins. */
extern uint32_t case_year;

/* The cases that need no seed: the paper's examples, and every header byte and number in turn. */
void run_fixed_cases(void);

/* And those whose numbers are written out, over the stored cells. */
void run_literal_cases(void);
void run_literal_year_cases(void);

/* At the edges of the parts in which columns and grids are gone over. */
void run_part_cases(void);

/* The stored cells, each in both years. */
void run_stored_cases(void);

/* What the header takes out of answers, and the words that dted_words.h has for them. */
void run_answer_cases(void);
void run_word_cases(void);

#endif
