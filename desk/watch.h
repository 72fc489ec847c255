/*
 * Asks the library's watch, and holds it to document 01: its steps to a model that counts the least number of windows,
 * and its refusals to the states that the model leads to.
 */
#ifndef WATCH_H
#define WATCH_H

#include "watch_model.h"

/*
 * Ask the library. A start has to give the first state, or the right refusal and zeros. A step has to add one slot, and
 * one window if it opened one, or to be refused and hand back what it was given.
 */
struct icecoppice_started ask_start(int32_t k, uint16_t len, uint16_t h);
struct icecoppice_stepped ask_step(const struct icecoppice_watch *given, int32_t load);

/* Starts a model, and asks the library for the same start. */
struct watch_model start_model(int32_t k, uint16_t len, uint16_t h);

/* Takes one load more in the model, and in the library, which has to give the same. Gives the state after the load. */
struct icecoppice_watch compare_step(struct watch_model *m, int32_t load);

/* Asks for a step, whose code has to be this one. */
void check_step_code(const struct icecoppice_watch *given, int32_t load, uint16_t code, const char *what);

/* Prints what is wrong and the state, and ends the test. */
_Noreturn void fail_watch(const char *what, const struct icecoppice_watch *w);

void check_watch_starts(void);
void check_watch_counts(void);
void check_watch_states(void);

/* Prints how often each kind of answer came; fails if one is rare. */
void print_watch_tally(void);

#endif
