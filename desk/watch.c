#include "watch.h"
#include "compare.h"

#include <inttypes.h>
#include <stdio.h>
#include <stdlib.h>

static unsigned long start_tally[ICECOPPICE_FULL + 1], step_tally[ICECOPPICE_FULL + 1], opened_tally;

static void print_watch(const char *whose, const struct icecoppice_watch *w)
{
    printf("%s: k %" PRId32 " len %u h %u taken %" PRIu32 " windows %" PRIu32 " room %u spare %u\n", whose,
           w->k, w->len, w->h, w->taken, w->windows, w->room, w->spare);
}

void fail_watch(const char *what, const struct icecoppice_watch *w)
{
    print_watch(what, w);
    exit(1);
}

static bool same_settings(const struct icecoppice_watch *a, const struct icecoppice_watch *b)
{
    return a->k == b->k && a->len == b->len && a->h == b->h;
}

static bool same_watch(const struct icecoppice_watch *a, const struct icecoppice_watch *b)
{
    return same_settings(a, b) && a->taken == b->taken && a->windows == b->windows && a->room == b->room &&
           a->spare == b->spare;
}

/* Rows 23 and 24 of document 01's table, with 64 in place of n. */
static uint16_t start_refusal(uint16_t len, uint16_t h)
{
    if (len == 0 || len > 64)
        return ICECOPPICE_WINDOW_LENGTH;
    if (h > 0 && (uint32_t)h + 1 >= len)
        return ICECOPPICE_BRIDGES;
    return 0;
}

struct icecoppice_started ask_start(int32_t k, uint16_t len, uint16_t h)
{
    uint16_t refused = start_refusal(len, h);
    struct icecoppice_watch wanted = {0};
    if (refused == 0)
        wanted = (struct icecoppice_watch){.k = k, .len = len, .h = h};
    struct icecoppice_started got = icecoppice_watch_start(k, len, h);
    if (got.code != refused || !same_watch(&got.watch, &wanted)) {
        printf("k %" PRId32 " len %u h %u: code %u, not %u\n", k, len, h, got.code, refused);
        print_watch("library", &got.watch);
        fail_watch("the start differs; wanted was", &wanted);
    }
    start_tally[got.code]++;
    return got;
}

/* A taken load adds one slot, and one window if it opened one. */
static bool is_taken(const struct icecoppice_watch *given, const struct icecoppice_stepped *got)
{
    return got->code == 0 && same_settings(given, &got->watch) && got->watch.taken == given->taken + 1 &&
           got->watch.windows == given->windows + got->opened;
}

static bool is_refused(const struct icecoppice_watch *given, const struct icecoppice_stepped *got)
{
    return (got->code == ICECOPPICE_UNREACHED || got->code == ICECOPPICE_FULL) && !got->opened &&
           same_watch(given, &got->watch);
}

struct icecoppice_stepped ask_step(const struct icecoppice_watch *given, int32_t load)
{
    struct icecoppice_stepped got = icecoppice_watch_step(*given, load);
    if (!is_taken(given, &got) && !is_refused(given, &got)) {
        printf("load %" PRId32 ": code %u opened %d\n", load, got.code, got.opened);
        print_watch("library", &got.watch);
        fail_watch("neither a step nor a refusal; given was", given);
    }
    step_tally[got.code]++;
    opened_tally += got.opened;
    return got;
}

struct watch_model start_model(int32_t k, uint16_t len, uint16_t h)
{
    ask_start(k, len, h);
    return (struct watch_model){.k = k, .len = len, .h = h};
}

struct icecoppice_watch compare_step(struct watch_model *m, int32_t load)
{
    struct icecoppice_watch given = model_state(m);
    struct icecoppice_stepped wanted = model_step(m, load), got = ask_step(&given, load);
    if (got.code != wanted.code || got.opened != wanted.opened || !same_watch(&got.watch, &wanted.watch)) {
        print_model(m);
        printf("code %u opened %d, wanted code %u opened %d\n", got.code, got.opened, wanted.code, wanted.opened);
        print_watch("library", &got.watch);
        fail_watch("the step with the last load differs; wanted was", &wanted.watch);
    }
    return got.watch;
}

void check_step_code(const struct icecoppice_watch *given, int32_t load, uint16_t code, const char *what)
{
    struct icecoppice_stepped got = ask_step(given, load);
    if (got.code != code) {
        printf("load %" PRId32 ": code %u, not %u\n", load, got.code, code);
        fail_watch(what, given);
    }
}

/* 0 to 70, then some large ones. */
enum { SMALL_SETTINGS = 71 };
static const uint16_t large_settings[] = {127, 128, 255, 256, 257, 320, 32767, 32768, 65534, 65535};
enum { SETTINGS = SMALL_SETTINGS + sizeof large_settings / sizeof *large_settings };

static uint16_t setting(unsigned i)
{
    return i < SMALL_SETTINGS ? (uint16_t)i : large_settings[i - SMALL_SETTINGS];
}

/* A step from what a start gave, or from a state made with the same settings, is taken exactly if the start was. */
static void check_start(int32_t k, uint16_t len, uint16_t h)
{
    struct icecoppice_started started = ask_start(k, len, h);
    struct icecoppice_watch made = {.k = k, .len = len, .h = h};
    uint16_t code = started.code == 0 ? 0 : ICECOPPICE_UNREACHED;
    check_step_code(&started.watch, k, code, "what a start gave");
    check_step_code(&made, k, code, "a state before the first load");
}

void check_watch_starts(void)
{
    const int32_t thresholds[] = {INT32_MIN, -1, 0, INT32_MAX};
    for (unsigned len = 0; len < SETTINGS; len++) {
        for (unsigned h = 0; h < SETTINGS; h++) {
            for (unsigned i = 0; i < sizeof thresholds / sizeof *thresholds; i++)
                check_start(thresholds[i], setting(len), setting(h));
        }
    }
}

void print_watch_tally(void)
{
    print_kind("watch: started", start_tally[0]);
    print_kind("watch: refused 23", start_tally[ICECOPPICE_WINDOW_LENGTH]);
    print_kind("watch: refused 24", start_tally[ICECOPPICE_BRIDGES]);
    print_kind("watch: a load taken", step_tally[0]);
    print_kind("watch: a window opened", opened_tally);
    print_kind("watch: refused 32", step_tally[ICECOPPICE_UNREACHED]);
    print_kind("watch: refused 33", step_tally[ICECOPPICE_FULL]);
}
