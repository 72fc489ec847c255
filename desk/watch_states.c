/*
 * Checks which states a step refuses. The states that up to 12 loads lead to are those of the model after every such
 * list. Of all states in a box around them exactly the others are refused with 32. The limit of 1,000,000 slots is
 * checked by taking that many.
 */
#include "random.h"
#include "watch.h"

/* The box: taken up to 12, windows up to 13, room up to 7, spare up to 6, for windows of at most 6 slots. */
enum { LONGEST = 6, TAKEN = 13, WINDOWS = 14, ROOMS = 8, SPARES = 7, STATES = TAKEN * WINDOWS * ROOMS * SPARES };

/* The first two loads are one on each side of the threshold; lists are made of these two. */
enum { SIDES = 2, LOADS = 4 };

struct box {
    struct icecoppice_watch start;
    int32_t loads[LOADS];
    bool reached[STATES];
};

/* The place of a state in the box. */
static unsigned place_of(const struct icecoppice_watch *w)
{
    if (w->taken >= TAKEN || w->windows >= WINDOWS || w->room >= ROOMS || w->spare >= SPARES)
        fail_watch("loads led out of the box", w);
    return ((w->taken * WINDOWS + w->windows) * ROOMS + w->room) * SPARES + w->spare;
}

static struct icecoppice_watch state_at(const struct box *b, unsigned place)
{
    struct icecoppice_watch w = b->start;
    w.spare = place % SPARES;
    w.room = place / SPARES % ROOMS;
    w.windows = place / SPARES / ROOMS % WINDOWS;
    w.taken = place / SPARES / ROOMS / WINDOWS;
    return w;
}

/* Marks the states after this list and after all that begin with it, and holds the steps to the model. */
static void explore(struct box *b, struct watch_model *m)
{
    struct icecoppice_watch w = model_state(m);
    b->reached[place_of(&w)] = true;
    if (w.taken + 1 == TAKEN)
        return;
    for (unsigned i = 0; i < LOADS; i++) {
        compare_step(m, b->loads[i]);
        if (i < SIDES)
            explore(b, m);
        m->n--;
    }
}

static void check_box(int32_t k, uint16_t len, uint16_t h)
{
    int32_t next = k < INT32_MAX ? k + 1 : k;
    struct watch_model m = start_model(k, len, h);
    struct box b = {.start = model_state(&m), .loads = {k, next, INT32_MIN, INT32_MAX}};
    explore(&b, &m);
    for (unsigned place = 0; place < STATES; place++) {
        struct icecoppice_watch w = state_at(&b, place);
        for (unsigned i = 0; i < LOADS; i++)
            check_step_code(&w, b.loads[i], b.reached[place] ? 0 : ICECOPPICE_UNREACHED, "a state in the box");
    }
}

static void check_boxes(void)
{
    const int32_t thresholds[] = {INT32_MIN, 0, INT32_MAX};
    for (uint16_t len = 1; len <= LONGEST; len++) {
        for (uint16_t h = 0; h == 0 || h + 1 < len; h++) {
            for (unsigned i = 0; i < sizeof thresholds / sizeof *thresholds; i++)
                check_box(thresholds[i], len, h);
        }
    }
}

static void check_unreached(struct icecoppice_watch w)
{
    check_step_code(&w, some_load(w.k), ICECOPPICE_UNREACHED, "a field that no step leads to");
}

/* One field of a reached state with a window is set to what no steps lead to, often so large that sums would wrap. */
static void check_far_fields(const struct icecoppice_watch *w)
{
    const uint32_t far_counts[] = {ICECOPPICE_WATCH_SLOTS + 1, 1u << 26, 1u << 30, 1u << 31, UINT32_MAX};
    const uint16_t far_others[] = {ICECOPPICE_SLOTS + 1, 256, 1u << 15, UINT16_MAX};
    for (unsigned i = 0; i < sizeof far_counts / sizeof *far_counts; i++) {
        struct icecoppice_watch taken = *w, windows = *w;
        taken.taken = windows.windows = far_counts[i];
        check_unreached(taken);
        check_unreached(windows);
    }
    for (unsigned i = 0; i < sizeof far_others / sizeof *far_others; i++) {
        struct icecoppice_watch len = *w, h = *w, room = *w, spare = *w;
        len.len = h.h = room.room = spare.spare = far_others[i];
        check_unreached(len);
        check_unreached(h);
        check_unreached(room);
        check_unreached(spare);
    }
    struct icecoppice_watch last = *w;
    last.k = INT32_MAX; /* no load is over, so no window was opened */
    check_unreached(last);
}

/*
 * From slot 0 on, one slot in `every` is over. 1,000,000 such slots need `windows` windows, and leave `room` slots and
 * `spare` bridges to the last one.
 */
struct pattern {
    uint16_t len, h;
    uint32_t every, windows;
    uint16_t room, spare;
};

static const struct pattern patterns[] = {
    {1, 0, 1, 1000000, 0, 0},
    {64, 0, 1, 15625, 0, 0},
    {7, 2, 1, 142858, 6, 2},  /* the last slot opens a window */
    {3, 0, 2, 500000, 0, 0},  /* a window covers one slot */
    {3, 1, 2, 250000, 0, 0},  /* slots 0 to 2 of every 4 */
    {64, 62, 63, 7937, 0, 0}, /* slots 0 to 63 of every 126 */
};

static void check_full(const struct pattern *p)
{
    struct icecoppice_watch w = ask_start(0, p->len, p->h).watch;
    for (uint32_t slot = 0; slot < ICECOPPICE_WATCH_SLOTS; slot++) {
        struct icecoppice_stepped stepped = ask_step(&w, slot % p->every == 0);
        if (stepped.code != 0)
            fail_watch("refused before it is full", &w);
        w = stepped.watch;
        if (slot == 0)
            check_far_fields(&w);
    }
    if (w.taken != ICECOPPICE_WATCH_SLOTS || w.windows != p->windows || w.room != p->room || w.spare != p->spare)
        fail_watch("a full watch with other counts", &w);
    for (unsigned i = 0; i < 300; i++)
        check_step_code(&w, some_load(w.k), ICECOPPICE_FULL, "a full watch");
    check_far_fields(&w);
}

void check_watch_states(void)
{
    check_boxes();
    for (unsigned i = 0; i < sizeof patterns / sizeof *patterns; i++)
        check_full(&patterns[i]);
}
