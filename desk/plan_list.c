#include "plan_list.h"

#include <stdlib.h>
#include <string.h>

/* What plans are drawn for, the marks drawn, and the list that they go to. */
struct task {
    const struct settings *s;
    const int32_t *lowest, *highest;
    size_t n;
    uint8_t marks[ICECOPPICE_PAGED];
    struct plan_list *list;
};

/* What the rule needs to know of the slots so far, to say whether a mark may follow. */
struct front {
    size_t slots;
    uint8_t last; /* uncovered before slot 0, so that slot 0 has mark 0 or 1 */
    unsigned windows, covered;
    unsigned window_slots, bridges; /* of the last window so far */
    unsigned owed; /* how many slots more have to be uncovered before the next window */
};

static struct front drawn_on(const struct settings *s, struct front f, uint8_t mark)
{
    if (mark == ICECOPPICE_FIRST) {
        f.windows++;
        f.window_slots = f.bridges = 0;
    }
    f.covered += mark != ICECOPPICE_UNCOVERED;
    f.window_slots += mark != ICECOPPICE_UNCOVERED;
    f.bridges += mark == ICECOPPICE_BRIDGE;
    if (mark != ICECOPPICE_UNCOVERED)
        f.owed = s->settle;
    else if (f.owed > 0)
        f.owed--;
    f.last = mark;
    f.slots++;
    return f;
}

static bool may_close(const struct front *f)
{
    return f->last != ICECOPPICE_BRIDGE;
}

static bool may_open(const struct settings *s, const struct front *f)
{
    return may_close(f) && f->owed == 0 && f->windows < s->windows_most && f->covered < s->covered_most;
}

static bool may_go_on(const struct settings *s, const struct front *f)
{
    return f->last != ICECOPPICE_UNCOVERED && f->window_slots < s->len && f->covered < s->covered_most;
}

static bool may_follow(const struct settings *s, const struct front *f, uint8_t mark)
{
    switch (mark) {
    case ICECOPPICE_UNCOVERED: return may_close(f);
    case ICECOPPICE_FIRST: return may_open(s, f);
    case ICECOPPICE_LATER: return may_go_on(s, f);
    default: return may_go_on(s, f) && f->bridges < s->h;
    }
}

/* Whether the slot's range has a load that the mark goes with. */
static bool has_load(const struct task *t, size_t slot, uint8_t mark)
{
    bool over = mark == ICECOPPICE_FIRST || mark == ICECOPPICE_LATER;
    return over ? t->highest[slot] > t->s->k : t->lowest[slot] <= t->s->k;
}

static void add_plan(struct plan_list *l, const uint8_t *marks, size_t n)
{
    if (l->length == MOST_PLANS)
        abort();
    memcpy(l->plans[l->length++], marks, n);
}

static void draw_from(struct task *t, struct front f)
{
    if (f.slots == t->n) {
        if (may_close(&f))
            add_plan(t->list, t->marks, t->n);
        return;
    }
    for (uint8_t mark = 0; mark <= ICECOPPICE_BRIDGE; mark++) {
        if (has_load(t, f.slots, mark) && may_follow(t->s, &f, mark)) {
            t->marks[f.slots] = mark;
            draw_from(t, drawn_on(t->s, f, mark));
        }
    }
}

void list_plans(struct plan_list *l, const struct settings *s, const int32_t *lowest, const int32_t *highest, size_t n)
{
    struct task t = {.s = s, .lowest = lowest, .highest = highest, .n = n, .list = l};
    if (n > ICECOPPICE_PAGED)
        abort();
    l->length = 0;
    draw_from(&t, (struct front){.slots = 0, .last = ICECOPPICE_UNCOVERED});
}

size_t place_of_plan(const struct plan_list *l, const uint8_t *plan, size_t n)
{
    size_t place = 0;
    while (place < l->length && memcmp(l->plans[place], plan, n) != 0)
        place++;
    return place;
}
