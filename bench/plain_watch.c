#include "plain.h"

static bool accepted(const struct icecoppice_watch *w)
{
    return w->len > 0 && w->len <= ICECOPPICE_SLOTS && (w->h == 0 || w->h + 1 < w->len);
}

/* The least number of slots from a window's opening to the next one's. */
static uint32_t spacing(const struct icecoppice_watch *w)
{
    return w->len == 1 ? 1 : w->h + 2u;
}

static bool idle(const struct icecoppice_watch *w)
{
    return w->spare == 0 && w->windows * spacing(w) <= w->taken;
}

static bool active(const struct icecoppice_watch *w)
{
    if (w->windows == 0 || w->room >= w->len || w->spare > w->h)
        return false;
    uint32_t slots = w->len - w->room, bridges = w->h - w->spare;
    return bridges < slots && (w->windows - 1) * spacing(w) + slots <= w->taken;
}

static bool reached(const struct icecoppice_watch *w)
{
    if (!accepted(w) || w->taken > ICECOPPICE_WATCH_SLOTS || w->windows > w->taken)
        return false;
    if (w->windows > 0 && w->k == INT32_MAX)
        return false;
    return w->room == 0 ? idle(w) : active(w);
}

static void move(struct icecoppice_watch *w, uint16_t room, uint16_t spare)
{
    w->taken++;
    w->room = room;
    w->spare = room == 0 ? 0 : spare;
}

/* Answers whether the load opened a window. */
static bool take(struct icecoppice_watch *w, int32_t load)
{
    bool over = load > w->k, opened = over && w->room == 0;
    w->windows += opened;
    if (opened)
        move(w, w->len - 1, w->h);
    else if (over)
        move(w, w->room - 1, w->spare);
    else if (w->spare == 0)
        move(w, 0, 0);
    else
        move(w, w->room - 1, w->spare - 1);
    return opened;
}

struct icecoppice_stepped plain_watch_step(struct icecoppice_watch watch, int32_t load)
{
    struct icecoppice_stepped stepped = {.code = 0, .opened = false, .watch = watch};
    if (!reached(&watch))
        stepped.code = ICECOPPICE_UNREACHED;
    else if (watch.taken == ICECOPPICE_WATCH_SLOTS)
        stepped.code = ICECOPPICE_FULL;
    else
        stepped.opened = take(&stepped.watch, load);
    return stepped;
}
