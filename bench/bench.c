/*
 * Times the library's filter beside the same algorithm in plain C, on the same requests in the same run.
 *
 * `bench` prints the tables, and that of the watch below them. `bench data KIND N` prints one of the filter's requests
 * as MiniZinc data, for minizinc.sh.
 */
#define _XOPEN_SOURCE 700

#include "plain.h"
#include "timing.h"
#include "watch.h"

#include <inttypes.h>
#include <stdbool.h>
#include <stdio.h>
#include <stdlib.h>
#include <string.h>
#include <ucontext.h>

enum { SAMPLES = 101, SAMPLE_NANOSECONDS = 200000, TIMED_SETTLE = 3 };

/* The slots' load ranges are over 1..9, under -9..0 and open -9..9, with k = 0. Both minimums are 0. */
struct request {
    size_t n;
    uint16_t len, h, settle, windows_most, covered_most;
    int32_t lowest[ICECOPPICE_SLOTS], highest[ICECOPPICE_SLOTS];
    uint8_t marks[ICECOPPICE_SLOTS];
};

typedef struct icecoppice_answer filter(int32_t, uint16_t, uint16_t, uint16_t, uint16_t, uint16_t, uint16_t, uint16_t,
                                        int32_t *, size_t, int32_t *, size_t, uint8_t *, size_t);

enum kind { FEW, MANY, OPEN, ALTERNATING, KINDS };
static const char *const kind_names[KINDS] = {"few", "many", "open", "alternating"};

static void set_slot(struct request *r, size_t j, bool may_be_under, bool may_be_over)
{
    r->lowest[j] = may_be_under ? -9 : 1;
    r->highest[j] = may_be_over ? 9 : 0;
}

/*
 * few:         slots 0 and 5 of every 8 over, the rest open; len n/2, h 2, at most 3 windows
 * many:        every third slot over, the rest open; len 2, h 0, at most n windows
 * open:        all slots open; len n/2, h 2, at most n/4 windows and n/2 covered slots
 * alternating: even slots over, odd slots under, but slot 3 of every 8 open; len n/2, h n/4 - 1, at most n windows
 */
static struct request make_request(enum kind kind, size_t n, uint16_t settle)
{
    struct request r = {.n = n, .len = n / 2, .h = 2, .settle = settle, .windows_most = n, .covered_most = n};
    for (size_t j = 0; j < n; j++) {
        switch (kind) {
        case FEW: set_slot(&r, j, j % 8 != 0 && j % 8 != 5, true); break;
        case MANY: set_slot(&r, j, j % 3 != 0, true); break;
        case ALTERNATING: set_slot(&r, j, j % 2 != 0, j % 2 == 0 || j % 8 == 3); break;
        default: set_slot(&r, j, true, true);
        }
    }
    if (kind == FEW)
        r.windows_most = 3;
    if (kind == MANY) {
        r.len = 2;
        r.h = 0;
    }
    if (kind == OPEN) {
        r.windows_most = n / 4;
        r.covered_most = n / 2;
    }
    if (kind == ALTERNATING)
        r.h = n / 4 - 1;
    return r;
}

static struct icecoppice_answer ask(filter *f, struct request *r)
{
    return f(0, r->len, r->h, r->settle, 0, r->windows_most, 0, r->covered_most,
             r->lowest, r->n, r->highest, r->n, r->marks, r->n);
}

/* Nanoseconds of one call. The request is copied anew for each, since a call narrows it; both sides pay for that. */
static double time_calls(filter *f, const struct request *r, unsigned calls)
{
    double start = now();
    for (unsigned i = 0; i < calls; i++) {
        struct request copy = *r;
        ask(f, &copy);
    }
    return (now() - start) / calls;
}

static unsigned calls_for_sample(filter *f, const struct request *r)
{
    unsigned calls = 1;
    while (time_calls(f, r, calls) * calls < SAMPLE_NANOSECONDS)
        calls *= 2;
    return calls;
}

static void compare(const struct request *r)
{
    struct request a = *r, b = *r;
    struct icecoppice_answer x = ask(icecoppice_filter, &a), y = ask(plain_filter, &b);
    if (x.code != y.code || x.slot != y.slot ||
        x.windows_least != y.windows_least || x.windows_most != y.windows_most ||
        x.covered_least != y.covered_least || x.covered_most != y.covered_most || x.thrift != y.thrift ||
        memcmp(a.lowest, b.lowest, sizeof a.lowest) != 0 || memcmp(a.highest, b.highest, sizeof a.highest) != 0 ||
        memcmp(a.marks, b.marks, sizeof a.marks) != 0) {
        printf("the library and plain C differ\n");
        exit(1);
    }
}

static void print_heading(const char *number)
{
    printf("%-12s %5s %12s %12s %8s\n", "request", number, "library", "plain C", "ratio");
}

/* A line for a request of this kind, with the number that tells it from the others of the kind. */
static void print_times(const struct request *r, enum kind kind, size_t number)
{
    double library[SAMPLES], plain[SAMPLES];
    unsigned library_calls = calls_for_sample(icecoppice_filter, r), plain_calls = calls_for_sample(plain_filter, r);
    for (unsigned i = 0; i < SAMPLES; i++) {
        library[i] = time_calls(icecoppice_filter, r, library_calls);
        plain[i] = time_calls(plain_filter, r, plain_calls);
    }
    double l = median(library, SAMPLES), p = median(plain, SAMPLES);
    printf("%-12s %5zu %12.2f %12.2f %8.2f\n", kind_names[kind], number, l / 1000, p / 1000, l / p);
}

static void compare_settle_counts(enum kind kind, size_t n)
{
    for (uint16_t settle = 0; settle <= ICECOPPICE_MAX_SETTLE; settle++) {
        struct request r = make_request(kind, n, settle);
        compare(&r);
    }
}

/* By the number of slots, with the settle count 0. */
static void print_times_by_slots(void)
{
    printf("median of %d samples, microseconds of one call\n", SAMPLES);
    print_heading("slots");
    for (enum kind kind = 0; kind < KINDS; kind++) {
        for (size_t n = 8; n <= ICECOPPICE_SLOTS; n *= 2) {
            struct request r = make_request(kind, n, 0);
            compare_settle_counts(kind, n);
            print_times(&r, kind, n);
        }
    }
}

/* By the settle count, for those requests of the most slots that have a plan. */
static void print_times_by_settle(void)
{
    printf("\nthe same at %d slots with settle counts above 0, where there is a plan\n", ICECOPPICE_SLOTS);
    print_heading("count");
    for (enum kind kind = 0; kind < KINDS; kind++) {
        for (uint16_t settle = 1; settle <= TIMED_SETTLE; settle++) {
            const struct request r = make_request(kind, ICECOPPICE_SLOTS, settle);
            struct request copy = r;
            if (ask(plain_filter, &copy).code == ICECOPPICE_YES)
                print_times(&r, kind, settle);
        }
    }
}

/* The stack that a call uses is measured on a stack of its own, filled with PAINT beforehand. */
enum { STACK = 1 << 18, PAINT = 0xa5 };
static unsigned char stack[STACK];
static ucontext_t caller, callee;
static struct request on_stack_request;

static void run_nothing(void)
{
}

static void run_filter(void)
{
    ask(icecoppice_filter, &on_stack_request);
}

static size_t bytes_touched(void (*run)(void))
{
    size_t clean = 0;
    memset(stack, PAINT, sizeof stack);
    getcontext(&callee);
    callee.uc_stack.ss_sp = stack;
    callee.uc_stack.ss_size = sizeof stack;
    callee.uc_link = &caller;
    makecontext(&callee, run, 0);
    swapcontext(&caller, &callee);
    while (clean < sizeof stack && stack[clean] == PAINT)
        clean++;
    return sizeof stack - clean;
}

static void print_stack(void)
{
    size_t most = 0;
    for (enum kind kind = 0; kind < KINDS; kind++) {
        on_stack_request = make_request(kind, ICECOPPICE_SLOTS, 0);
        size_t touched = bytes_touched(run_filter);
        if (touched > most)
            most = touched;
    }
    printf("\nstack of one library call at %d slots: %zu bytes\n", ICECOPPICE_SLOTS, most - bytes_touched(run_nothing));
}

static void print_numbers(const char *name, const int32_t *numbers, size_t n)
{
    printf("%s = [", name);
    for (size_t j = 0; j < n; j++)
        printf("%s%" PRId32, j > 0 ? ", " : "", numbers[j]);
    printf("];\n");
}

static int print_data(const char *kind_name, const char *n)
{
    enum kind kind = 0;
    while (kind < KINDS && strcmp(kind_names[kind], kind_name) != 0)
        kind++;
    unsigned long slots = strtoul(n, NULL, 10);
    if (kind == KINDS || slots < 8 || slots > ICECOPPICE_SLOTS) {
        fprintf(stderr, "usage: bench [data few|many|open|alternating 8..%d]\n", ICECOPPICE_SLOTS);
        return 2;
    }
    struct request r = make_request(kind, slots, 0);
    printf("n = %zu; k = 0; len = %u; h = %u; settle = %u; windows_most = %u; covered_most = %u;\n",
           r.n, r.len, r.h, r.settle, r.windows_most, r.covered_most);
    print_numbers("lowest", r.lowest, r.n);
    print_numbers("highest", r.highest, r.n);
    return 0;
}

int main(int count, char **arguments)
{
    if (count == 4 && strcmp(arguments[1], "data") == 0)
        return print_data(arguments[2], arguments[3]);
    print_times_by_slots();
    print_times_by_settle();
    print_stack();
    print_watch_table();
    return 0;
}
