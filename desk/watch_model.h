/*
 * What a watch has to hold after a list of loads. It is worked out from the list and not from the state before: the
 * count is the least number of windows that covers the loads, the last window was opened where that count last grew,
 * and it is active as long as one slot more would keep len, and its bridges so far keep h.
 */
#ifndef WATCH_MODEL_H
#define WATCH_MODEL_H

#include "../include/icecoppice.h"

/* The most loads of a list. */
enum { MODEL_LOADS = 300 };

struct watch_model {
    int32_t k;
    uint16_t len, h;
    size_t n;
    int32_t loads[MODEL_LOADS];
    uint32_t least[MODEL_LOADS + 1]; /* least[j]: the least number of windows that covers the first j loads */
};

/* The state after all n loads. */
struct icecoppice_watch model_state(const struct watch_model *m);

/* Takes one load more, and gives what a step from the state before has to give. Lowering n takes loads back. */
struct icecoppice_stepped model_step(struct watch_model *m, int32_t load);

void print_model(const struct watch_model *m);

#endif
