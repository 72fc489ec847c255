#include "watch.h"
#include "plain.h"
#include "timing.h"

#include <stdio.h>
#include <stdlib.h>

/* A sample is a watch stepped from its start until it is full. */
enum { STEPS = ICECOPPICE_WATCH_SLOTS, SAMPLES = 31 };

typedef struct icecoppice_stepped step(struct icecoppice_watch, int32_t);

enum kind { UNDER, OVER, ALTERNATING, MIXED, KINDS };
static const char *const kind_names[KINDS] = {"under", "over", "alternating", "mixed"};

static int32_t loads[STEPS];

/*
 * under:       all loads under, so that no window is ever active
 * over:        all loads over
 * alternating: even slots over, odd slots under
 * mixed:       over or under by chance
 */
static void make_loads(enum kind kind)
{
    uint32_t state = 1;
    for (size_t j = 0; j < STEPS; j++) {
        state = state * 1664525 + 1013904223;
        switch (kind) {
        case OVER: loads[j] = 1; break;
        case ALTERNATING: loads[j] = j % 2 == 0; break;
        case MIXED: loads[j] = state >> 31; break;
        default: loads[j] = 0;
        }
    }
}

/* Windows of at most 8 slots, 2 of them bridges. */
static struct icecoppice_watch start(void)
{
    return icecoppice_watch_start(0, 8, 2).watch;
}

static struct icecoppice_watch compare_step(const struct icecoppice_watch *w, int32_t load)
{
    struct icecoppice_stepped x = icecoppice_watch_step(*w, load), y = plain_watch_step(*w, load);
    if (x.code != y.code || x.opened != y.opened ||
        x.watch.k != y.watch.k || x.watch.len != y.watch.len || x.watch.h != y.watch.h ||
        x.watch.taken != y.watch.taken || x.watch.windows != y.watch.windows ||
        x.watch.room != y.watch.room || x.watch.spare != y.watch.spare) {
        printf("the library's watch and plain C differ\n");
        exit(1);
    }
    return x.watch;
}

/* Compares every step, then a load too many, then a state that is refused. */
static void compare(void)
{
    struct icecoppice_watch w = start();
    for (size_t j = 0; j < STEPS; j++)
        w = compare_step(&w, loads[j]);
    compare_step(&w, 0);
    w.taken++;
    compare_step(&w, 0);
}

/* Nanoseconds of one step. */
static double time_steps(step *s)
{
    struct icecoppice_watch w = start();
    double start_time = now();
    for (size_t j = 0; j < STEPS; j++)
        w = s(w, loads[j]).watch;
    return (now() - start_time) / STEPS;
}

static void print_times(enum kind kind)
{
    double library[SAMPLES], plain[SAMPLES];
    make_loads(kind);
    compare();
    for (unsigned i = 0; i < SAMPLES; i++) {
        library[i] = time_steps(icecoppice_watch_step);
        plain[i] = time_steps(plain_watch_step);
    }
    double l = median(library, SAMPLES), p = median(plain, SAMPLES);
    printf("%-18s %12.2f %12.2f %8.2f\n", kind_names[kind], l, p, l / p);
}

void print_watch_table(void)
{
    printf("\nmedian of %d samples of %d steps, nanoseconds of one step\n", SAMPLES, STEPS);
    printf("%-18s %12s %12s %8s\n", "loads", "library", "plain C", "ratio");
    for (enum kind kind = 0; kind < KINDS; kind++)
        print_times(kind);
}
