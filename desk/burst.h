/* A burst and its plan, drawn as text. */
#ifndef BURST_H
#define BURST_H

#include "../include/icecoppice.h"
#include "arguments.h"

struct burst {
    int32_t k;
    uint16_t len, h, settle;
    struct range windows, covered;
    size_t n;
    int32_t *given_lowest, *given_highest; /* as asked */
    int32_t *lowest, *highest;             /* as narrowed */
    uint8_t *marks;
};

/* A burst of n slots, in which everything else is 0. */
struct burst new_burst(size_t n);

void free_burst(struct burst *b);

/*
 * Plans a burst as asked, and prints the answer. Gives the exit code: 0 if there is a plan, 1 if there is none or the
 * request is refused.
 */
int plan_burst(struct burst *b);

/* The exit code of a program that has printed all: this one, or 2, with a word on why, if not all was written. */
int exit_code(int code);

void print_range(int32_t lowest, int32_t highest);

/* Prints the number of a refusal and what it says, and the slot where it is about one: 19 and 31. */
void print_refusal(uint16_t code, size_t slot);

#endif
