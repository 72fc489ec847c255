/*
 * A third opinion on the plans of a request, for more slots than the search can try: the plans are drawn slot by slot,
 * by what document 01 says of a mark and the one before it, and by how many slots are still owed to the settle count.
 * Each mark is tried after the smaller ones, so that they come in the order of document 02's T-03. It shares no code
 * with the library or the search.
 */
#ifndef PLAN_LIST_H
#define PLAN_LIST_H

#include "search.h"

/*
 * The most plans: a request of 12 slots has (3^12 + 1) / 2 of them where every slot is open, a window may have any
 * length and number of bridges, windows may touch, and both maximums are 12.
 */
enum { MOST_PLANS = 265721 };

struct plan_list {
    size_t length;
    uint8_t plans[MOST_PLANS][ICECOPPICE_PAGED];
};

/* Lists all plans of n slots, at most ICECOPPICE_PAGED. */
void list_plans(struct plan_list *l, const struct settings *s, const int32_t *lowest, const int32_t *highest, size_t n);

/* The place of the plan in the list; the list's length if it is not there. */
size_t place_of_plan(const struct plan_list *l, const uint8_t *plan, size_t n);

#endif
