#include "watch_model.h"

#include <inttypes.h>
#include <stdio.h>

static bool over(const struct watch_model *m, size_t slot)
{
    return m->loads[slot] > m->k;
}

static unsigned under_slots(const struct watch_model *m, size_t from, size_t end)
{
    unsigned slots = 0;
    for (size_t j = from; j < end; j++)
        slots += !over(m, j);
    return slots;
}

/* Whether the slots from `first` to below `end` may be a window. */
static bool is_window(const struct watch_model *m, size_t first, size_t end)
{
    return over(m, first) && over(m, end - 1) && end - first <= m->len && under_slots(m, first, end) <= m->h;
}

/*
 * The least number of windows of the first n slots, given those of fewer slots. If the last slot is under, it is
 * uncovered. If it is over, it ends a window, and each slot where that window may begin is tried.
 */
static uint32_t least_windows(const struct watch_model *m, size_t n)
{
    uint32_t best = UINT32_MAX;
    if (!over(m, n - 1))
        return m->least[n - 1];
    for (size_t first = 0; first < n; first++) {
        if (is_window(m, first, n) && m->least[first] + 1 < best)
            best = m->least[first] + 1;
    }
    return best;
}

/* The slot where the last window was opened. There has to be one. */
static size_t last_opening(const struct watch_model *m)
{
    size_t slot = m->n - 1;
    while (m->least[slot] == m->least[slot + 1])
        slot--;
    return slot;
}

struct icecoppice_watch model_state(const struct watch_model *m)
{
    struct icecoppice_watch w = {.k = m->k, .len = m->len, .h = m->h, .taken = m->n, .windows = m->least[m->n]};
    if (w.windows == 0)
        return w;
    size_t opening = last_opening(m), slots = m->n - opening;
    unsigned bridges = under_slots(m, opening, m->n);
    if (slots < m->len && bridges <= m->h) {
        w.room = m->len - slots;
        w.spare = m->h - bridges;
    }
    return w;
}

struct icecoppice_stepped model_step(struct watch_model *m, int32_t load)
{
    m->loads[m->n++] = load;
    m->least[m->n] = least_windows(m, m->n);
    return (struct icecoppice_stepped){.opened = m->least[m->n] > m->least[m->n - 1], .watch = model_state(m)};
}

void print_model(const struct watch_model *m)
{
    printf("k %" PRId32 " len %u h %u, %zu loads:", m->k, m->len, m->h, m->n);
    for (size_t j = 0; j < m->n; j++)
        printf(" %" PRId32, m->loads[j]);
    printf("\n");
}
