#include "plain.h"

#include <stdbool.h>

enum slot_class { UNDER, OVER, EITHER };

/* Stands for "no plan" in a row. */
#define NONE UINT16_MAX

struct problem {
    size_t n;
    uint16_t len, h, settle, windows_most, covered_most;
    uint8_t classes[ICECOPPICE_SLOTS];
};

/* least[j]: the least covered count of the slots from j on, with at most as many windows as the row is for. */
struct row {
    uint16_t least[ICECOPPICE_SLOTS + 1];
};

struct least_counts {
    uint16_t windows, thrift, covered;
};

static uint16_t smaller(uint16_t a, uint16_t b)
{
    return a < b ? a : b;
}

static uint16_t capped_sum(uint16_t a, uint16_t b)
{
    return a > NONE - b ? NONE : (uint16_t)(a + b);
}

/*
 * The least covered count of the slots from e on, where a window under way continues at slot e with `room` slots and
 * `bridges` bridges left to it, and the row `after` counts the slots after it.
 */
static uint16_t least_inside(const struct problem *p, size_t e, uint16_t room, uint16_t bridges,
                             const struct row *after)
{
    uint16_t best = NONE;
    for (uint16_t used = 1; e < p->n && room > 0; used++, e++, room--) {
        if (p->classes[e] != UNDER) {
            best = smaller(best, capped_sum(used, after->least[e + 1]));
        } else if (bridges == 0) {
            break;
        } else {
            bridges--;
        }
    }
    return best;
}

/* The row for one window more than `after`. */
static void next_row(const struct problem *p, const struct row *after, struct row *row)
{
    row->least[p->n] = 0;
    for (size_t j = p->n; j-- > 0;) {
        if (p->classes[j] == OVER) {
            uint16_t rest = smaller(after->least[j + 1], least_inside(p, j + 1, p->len - 1, p->h, after));
            row->least[j] = capped_sum(1, rest);
        } else {
            row->least[j] = row->least[j + 1];
        }
    }
}

/* Sets `after` to what comes after a window: the row, but no plan where one of the next `settle` slots must be over. */
static void close_windows(const struct problem *p, const struct row *row, struct row *after)
{
    uint16_t lacking = 0;
    after->least[p->n] = row->least[p->n];
    for (size_t j = p->n; j-- > 0;) {
        if (p->classes[j] == OVER)
            lacking = p->settle;
        else if (lacking > 0)
            lacking--;
        after->least[j] = lacking == 0 ? row->least[j] : NONE;
    }
}

/*
 * Sets `after` to what comes after a window, with w - 1 windows left. Gives how many of the window counts 0 to w - 1
 * are too few for a plan within the covered maximum, and sets `thrift` to the least covered count with the first that
 * is not, if there is one.
 */
static uint16_t rows(const struct problem *p, uint16_t w, struct row *after, uint16_t *thrift)
{
    uint16_t exceeding = 0;
    *thrift = NONE;
    for (size_t j = 0; j <= p->n; j++)
        after->least[j] = NONE;
    for (uint16_t i = 0; i < w; i++) {
        struct row row;
        next_row(p, after, &row);
        close_windows(p, &row, after);
        if (exceeding == i)
            *thrift = row.least[0];
        exceeding += row.least[0] > p->covered_most;
    }
    return exceeding;
}

static struct least_counts least_counts(const struct problem *p)
{
    struct row after, row;
    uint16_t thrift;
    uint16_t windows = rows(p, p->windows_most, &after, &thrift);
    next_row(p, &after, &row);
    return (struct least_counts){windows, windows < p->windows_most ? thrift : row.least[0], row.least[0]};
}

static bool plan_left(const struct problem *p, size_t slot, enum slot_class settled)
{
    struct problem changed = *p;
    changed.classes[slot] = settled;
    return least_counts(&changed).covered <= p->covered_most;
}

static void narrow(const struct problem *p, int32_t k, int32_t *lowest, int32_t *highest)
{
    for (size_t j = 0; j < p->n; j++) {
        if (p->classes[j] != EITHER)
            continue;
        if (!plan_left(p, j, UNDER))
            lowest[j] = k + 1;
        else if (!plan_left(p, j, OVER))
            highest[j] = k;
    }
}

/* The first plan: goes forward and closes each window as soon as the rest fits into what is left of both maximums. */
static void draw(const struct problem *p, uint8_t *marks)
{
    uint16_t windows = p->windows_most, covered = p->covered_most;
    bool inside = false;
    uint16_t thrift;
    struct row after;
    for (size_t j = 0; j < p->n; j++) {
        if (inside && marks[j - 1] != ICECOPPICE_BRIDGE && after.least[j] <= covered)
            inside = false;
        if (inside) {
            marks[j] = p->classes[j] == UNDER ? ICECOPPICE_BRIDGE : ICECOPPICE_LATER;
            covered--;
        } else if (p->classes[j] == OVER) {
            rows(p, windows, &after, &thrift);
            marks[j] = ICECOPPICE_FIRST;
            windows--;
            covered--;
            inside = true;
        } else {
            marks[j] = ICECOPPICE_UNCOVERED;
        }
    }
}

static uint16_t refusal(uint16_t len, uint16_t h, uint16_t settle, uint16_t windows_least, uint16_t windows_most,
                        uint16_t covered_least, uint16_t covered_most,
                        size_t n, size_t highest_length, size_t marks_length)
{
    if (n == 0 || n > ICECOPPICE_SLOTS)
        return ICECOPPICE_FIRST_LENGTH;
    if (highest_length != n || marks_length != n)
        return ICECOPPICE_OTHER_LENGTH;
    if (len == 0 || len > n)
        return ICECOPPICE_WINDOW_LENGTH;
    if (h > 0 && h + 1 >= len)
        return ICECOPPICE_BRIDGES;
    if (windows_least > windows_most || windows_most > n)
        return ICECOPPICE_WINDOW_COUNTS;
    if (covered_least > covered_most || covered_most > n)
        return ICECOPPICE_COVERED_COUNTS;
    if (settle > ICECOPPICE_MAX_SETTLE)
        return ICECOPPICE_SETTLE;
    return 0;
}

static enum slot_class class_of(int32_t k, int32_t lowest, int32_t highest)
{
    if (highest <= k)
        return UNDER;
    return lowest > k ? OVER : EITHER;
}

struct icecoppice_answer plain_filter(int32_t k, uint16_t len, uint16_t h, uint16_t settle,
                                      uint16_t windows_least, uint16_t windows_most,
                                      uint16_t covered_least, uint16_t covered_most,
                                      int32_t *lowest, size_t lowest_length,
                                      int32_t *highest, size_t highest_length,
                                      uint8_t *marks, size_t marks_length)
{
    struct icecoppice_answer answer = {0};
    size_t n = lowest_length;
    answer.code = refusal(len, h, settle, windows_least, windows_most, covered_least, covered_most,
                          n, highest_length, marks_length);
    if (answer.code != 0)
        return answer;
    struct problem p = {.n = n, .len = len, .h = h, .settle = settle, .windows_most = windows_most,
                        .covered_most = covered_most};
    for (size_t j = 0; j < n; j++) {
        if (lowest[j] > highest[j])
            return (struct icecoppice_answer){.code = ICECOPPICE_CROSSED, .slot = j};
        p.classes[j] = class_of(k, lowest[j], highest[j]);
    }
    struct least_counts least = least_counts(&p);
    if (least.covered > covered_most)
        return (struct icecoppice_answer){.code = ICECOPPICE_NO};
    narrow(&p, k, lowest, highest);
    draw(&p, marks);
    answer.windows_least = windows_least > least.windows ? windows_least : least.windows;
    answer.windows_most = windows_most;
    answer.covered_least = covered_least > least.covered ? covered_least : least.covered;
    answer.covered_most = covered_most;
    answer.thrift = least.thrift;
    return answer;
}
