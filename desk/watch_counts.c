/*
 * Holds the steps along lists of loads to the model, and the model's count, up to 12 loads, to the least over every
 * string of marks (search.h).
 */
#include "random.h"
#include "search.h"
#include "watch.h"

enum { SHORT_LISTS = 20000, LONG_LISTS = 200 };

static void take(struct watch_model *m, int32_t load)
{
    struct icecoppice_watch w = compare_step(m, load);
    if (m->n <= SEARCH_LOADS && w.windows != search_least_windows(m->k, m->len, m->h, m->loads, m->n)) {
        print_model(m);
        fail_watch("not the least number of windows", &w);
    }
}

static void check_some_list(size_t n)
{
    uint32_t share = below(9); /* about this many of every 8 loads are over */
    uint16_t len = 1 + below(one_in(2) ? ICECOPPICE_SLOTS : 6);
    struct watch_model m = start_model(some_load(0), len, len < 3 || one_in(4) ? 0 : below(len - 1));
    for (size_t j = 0; j < n; j++)
        take(&m, load_on_side(m.k, below(8) < share));
}

/* Case L of document 01. */
static void check_case_l(void)
{
    const int32_t loads[] = {1, 0, 0, 1};
    for (uint16_t h = 1; h <= 2; h++) {
        struct watch_model m = start_model(0, 4, h);
        for (size_t j = 0; j < sizeof loads / sizeof *loads; j++)
            take(&m, loads[j]);
        struct icecoppice_watch w = model_state(&m);
        if (w.windows != (h == 1 ? 2 : 1))
            fail_watch("case L, not as document 01 has it", &w);
    }
}

void check_watch_counts(void)
{
    check_case_l();
    for (unsigned i = 0; i < SHORT_LISTS; i++)
        check_some_list(1 + below(SEARCH_LOADS));
    for (unsigned i = 0; i < LONG_LISTS; i++)
        check_some_list(MODEL_LOADS);
}
