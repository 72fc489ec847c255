#include "cases.h"
#include "compare.h"
#include "paging.h"

#include <stdio.h>
#include <string.h>

struct worked {
    const char *name;
    struct settings settings; /* k, len, h, settle, windows, covered */
    size_t n;
    int32_t ranges[2][8][2]; /* as given, and as they are afterwards */
    struct icecoppice_answer answer; /* code, slot, windows, covered, thrift */
    uint8_t marks[8]; /* of no account without a plan */
};

#define RANGES_A {{1, 3}, {-2, 4}, {5, 5}, {0, 0}}
#define RANGES_D {{0, 1}, {0, 1}, {1, 1}, {0, 1}, {1, 1}, {0, 1}, {1, 1}}
#define RANGES_F {{1, 1}, {0, 1}, {1, 1}, {1, 1}, {0, 1}, {1, 1}, {0, 1}, {1, 1}}
#define RANGES_I {{INT32_MAX, INT32_MAX}, {INT32_MAX, INT32_MAX}}
#define RANGES_J {{1, 1}, {1, 1}, {1, 1}, {1, 1}, {1, 1}, {1, 1}, {1, 1}}
#define RANGES_UNDER {{1, 1}, {0, 0}, {1, 1}}
#define RANGES_OPEN {{1, 1}, {0, 1}, {1, 1}}

static const struct worked cases[] = {
    {"A", {0, 3, 0, 0, 0, 1, 0, 4}, 4,
     {RANGES_A, {{1, 3}, {1, 4}, {5, 5}, {0, 0}}}, {0, 0, 1, 1, 3, 4, 3}, {1, 2, 2, 0}},
    {"B", {0, 3, 1, 0, 0, 1, 0, 4}, 4, {RANGES_A, RANGES_A}, {0, 0, 1, 1, 3, 4, 3}, {1, 2, 2, 0}},
    {"C", {0, 2, 0, 0, 0, 1, 0, 4}, 4, {RANGES_A, RANGES_A}, {1, 0, 0, 0, 0, 0, 0}, {0}},
    {"D", {0, 3, 0, 0, 0, 2, 0, 7}, 7, {RANGES_D, RANGES_D}, {0, 0, 2, 2, 4, 7, 4}, {0, 0, 1, 0, 1, 2, 2}},
    {"E", {0, 3, 0, 0, 0, 2, 0, 4}, 7,
     {RANGES_D, {{0, 0}, {0, 0}, {1, 1}, {0, 1}, {1, 1}, {0, 1}, {1, 1}}}, {0, 0, 2, 2, 4, 4, 4},
     {0, 0, 1, 0, 1, 2, 2}},
    {"F", {0, 5, 0, 0, 0, 2, 0, 7}, 8,
     {RANGES_F, {{1, 1}, {1, 1}, {1, 1}, {1, 1}, {0, 0}, {1, 1}, {1, 1}, {1, 1}}}, {0, 0, 2, 2, 7, 7, 7},
     {1, 2, 2, 2, 0, 1, 2, 2}},
    {"G", {0, 5, 0, 0, 0, 4, 0, 8}, 8, {RANGES_F, RANGES_F}, {0, 0, 2, 4, 5, 8, 7}, {1, 0, 1, 1, 0, 1, 2, 2}},
    {"H", {0, 1, 0, 0, 0, 1, 0, 1}, 1, {{{0, 0}}, {{0, 0}}}, {0, 0, 0, 1, 0, 1, 0}, {0}},
    {"H, over", {0, 1, 0, 0, 0, 0, 0, 1}, 1, {{{1, 1}}, {{1, 1}}}, {1, 0, 0, 0, 0, 0, 0}, {0}},
    {"I", {INT32_MAX, 1, 0, 0, 0, 0, 0, 2}, 2, {RANGES_I, RANGES_I}, {0, 0, 0, 0, 0, 2, 0}, {0, 0}},
    {"J", {0, 3, 0, 0, 0, 7, 0, 7}, 7, {RANGES_J, RANGES_J}, {0, 0, 3, 7, 7, 7, 7}, {1, 1, 1, 1, 1, 1, 1}},
    {"J, settle 1", {0, 3, 0, 1, 0, 7, 0, 7}, 7, {RANGES_J, RANGES_J}, {1, 0, 0, 0, 0, 0, 0}, {0}},
    {"K", {0, 2, 1, 0, 0, 1, 0, 4}, 4, {RANGES_A, RANGES_A}, {24, 0, 0, 0, 0, 0, 0}, {0}},
    {"D, windows 0..3, covered 0..4", {0, 3, 0, 0, 0, 3, 0, 4}, 7,
     {RANGES_D, {{0, 0}, {0, 1}, {1, 1}, {0, 1}, {1, 1}, {0, 1}, {1, 1}}}, {0, 0, 2, 3, 3, 4, 4},
     {0, 0, 1, 0, 1, 0, 1}},
    {"T-02, under", {0, 3, 0, 0, 0, 3, 0, 3}, 3, {RANGES_UNDER, RANGES_UNDER}, {0, 0, 2, 3, 2, 3, 2}, {1, 0, 1}},
    {"T-02, open", {0, 3, 0, 0, 0, 3, 0, 3}, 3, {RANGES_OPEN, RANGES_OPEN}, {0, 0, 1, 3, 2, 3, 3}, {1, 0, 1}},
};

static struct request request_of(const struct worked *c)
{
    struct request r = blank_request();
    r.settings = c->settings;
    r.lowest_length = r.highest_length = r.marks_length = c->n;
    for (size_t j = 0; j < c->n; j++) {
        r.lowest[MARGIN + j] = c->ranges[0][j][0];
        r.highest[MARGIN + j] = c->ranges[0][j][1];
    }
    return r;
}

static bool as_worked(const struct worked *c, const struct icecoppice_answer *a, const struct request *after)
{
    for (size_t j = 0; j < c->n; j++) {
        const int32_t *range = c->ranges[1][j];
        if (after->lowest[MARGIN + j] != range[0] || after->highest[MARGIN + j] != range[1])
            return false;
    }
    if (c->answer.code == ICECOPPICE_YES && memcmp(after->marks + MARGIN, c->marks, c->n) != 0)
        return false;
    return same_answer(a, &c->answer);
}

/* Loads 5, 1, 5 with len 3: one window at k = 0, two at k = 1. */
static void check_higher_threshold(void)
{
    static const uint8_t plans[2][3] = {{1, 2, 2}, {1, 0, 1}};
    for (int32_t k = 0; k < 2; k++) {
        struct request r = blank_request();
        r.settings = (struct settings){k, 3, 0, 0, 0, 3, 0, 3};
        r.lowest_length = r.marks_length = 3;
        memcpy(r.lowest + MARGIN, (int32_t[]){5, 1, 5}, 3 * sizeof *r.lowest);
        memcpy(r.marks + MARGIN, plans[k], 3);
        if (compare_judge(&r).windows != k + 1)
            fail("a higher threshold, not as document 01 has it", &r);
    }
}

void check_cases(void)
{
    for (size_t i = 0; i < sizeof cases / sizeof *cases; i++) {
        struct request r = request_of(&cases[i]);
        check_every_page(&r);
        struct icecoppice_answer a = compare_filter(&r);
        if (!as_worked(&cases[i], &a, &r)) {
            printf("case %s: ", cases[i].name);
            fail("not as the documents have it; left was:", &r);
        }
    }
    check_higher_threshold();
}
