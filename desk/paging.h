/*
 * Holds the library's paging to the search, on random requests and given plans, whole and damaged; and whole pagings of
 * up to 12 slots to the list of all plans.
 */
#ifndef PAGING_H
#define PAGING_H

#include "compare.h"

void check_paging(void);

/*
 * Pages through the plans of a request from the first to the end, or, where there are too many, from the first on and
 * from some others, the last among them. Each page has to be the next plan of the list. A refusal has to be the right
 * one.
 */
void check_every_page(const struct request *r);

/* Prints how often each kind of answer came; fails if one is rare. */
void print_paging_tally(void);

#endif
