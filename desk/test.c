/*
 * Holds the library to the search on the worked cases and on random requests and plans, whole and damaged; to what
 * follows from the definitions on requests too large to search; the paging to what paging.h says; the watch to what
 * watch.h says; and the reader, the look-up and the writer to what cards.h and writing.h say. The seed is fixed, so
 * every run asks the same.
 */
#include "cards.h"
#include "cases.h"
#include "compare.h"
#include "paging.h"
#include "random.h"
#include "requests.h"
#include "watch.h"
#include "writing.h"

#include <stdio.h>
#include <string.h>

enum { SMALL_SLOTS = 6, SMALL_REQUESTS = 400000, JUDGED_PLANS = 400000 };
enum { DAMAGED_REQUESTS = 15000, LARGE_REQUESTS = 3000, SETTLED_REQUESTS = 100 };

/* How many large requests would have another answer with the settle count 0. */
static unsigned long large_settle_tally;

static size_t large_length(void)
{
    return one_in(4) ? ICECOPPICE_SLOTS : SMALL_SLOTS + 1 + below(ICECOPPICE_SLOTS - SMALL_SLOTS);
}

static void compare_some_plan(void)
{
    size_t n = 1 + below(one_in(4) ? ICECOPPICE_SLOTS : SMALL_SLOTS);
    struct request r = some_request(n);
    uint8_t *marks = r.marks + MARGIN;
    draw_marks(&r.settings, marks, n);
    allow_marks(&r.settings, marks, n, 2);
    if (one_in(3))
        marks[below(n)] = one_in(4) ? below(256) : below(5);
    for (size_t j = 0; j < n; j++)
        r.lowest[MARGIN + j] = load_for_mark(r.settings.k, marks[j]);
    if (one_in(4))
        r.lowest[MARGIN + below(n)] = some_load(r.settings.k);
    if (one_in(8) && r.settings.windows_most > 0)
        r.settings.windows_least = --r.settings.windows_most;
    if (one_in(8) && r.settings.covered_most > 0)
        r.settings.covered_least = --r.settings.covered_most;
    if (one_in(8))
        r.settings.settle++;
    damage_often(&r);
    compare_judge(&r);
}

static void compare_some_request(void)
{
    size_t n = one_in(2) ? SMALL_SLOTS : 1 + below(SMALL_SLOTS);
    struct request r = one_in(3) ? some_request(n) : request_with_plan(n);
    damage_often(&r);
    compare_filter(&r);
}

static void compare_damaged_request(void)
{
    struct request r = request_with_plan(large_length());
    damage(&r);
    damage_often(&r);
    compare_filter(&r);
}

/*
 * Asks about a request made around a plan. It has to be planned, no load of that plan may be cut, and no plan may be
 * drawn that comes after it.
 */
static struct icecoppice_answer find_plan(struct request *r)
{
    const struct request given = *r;
    size_t n = r->lowest_length;
    memset(r->marks + MARGIN, 0xff, n); /* the plan itself is not lent */
    struct icecoppice_answer a = compare_filter(r);
    if (a.code != ICECOPPICE_YES)
        fail("no plan where one was drawn", &given);
    if (!search_is_plan(&r->settings, r->lowest + MARGIN, r->highest + MARGIN, given.marks + MARGIN, n))
        fail("a load of a plan was cut", &given);
    if (memcmp(r->marks + MARGIN, given.marks + MARGIN, n) > 0)
        fail("the plan drawn comes after this one", &given);
    return a;
}

/* Makes one maximum too low for the slots that are over in every choice of loads, if there are any. */
static bool lower_maximum(struct request *r)
{
    struct settings *s = &r->settings;
    unsigned over = 0;
    for (size_t j = MARGIN; j < MARGIN + r->lowest_length; j++)
        over += r->lowest[j] > s->k;
    if (over == 0)
        return false;
    if (one_in(2))
        s->covered_most = over - 1;
    else
        s->windows_most = (over - 1) / s->len;
    s->windows_least = below(s->windows_most + 1);
    s->covered_least = below(s->covered_most + 1);
    return true;
}

/* Asks the same with the settle count 0, and tallies whether that has another answer. */
static void check_touching(struct request r, const struct request *left, const struct icecoppice_answer *a)
{
    r.settings.settle = 0;
    struct icecoppice_answer loose = find_plan(&r);
    large_settle_tally += !same_answer(&loose, a) || !same_buffers(&r, left);
}

static void check_large_request(void)
{
    struct request given = request_with_plan(large_length()), r = given, lowered = given;
    struct icecoppice_answer a = find_plan(&r);
    check_touching(given, &r, &a);
    if (lower_maximum(&lowered) && compare_filter(&lowered).code != ICECOPPICE_NO)
        fail("planned, where a maximum is too low for the slots over; left was:", &lowered);
}

/*
 * Asks about a request that has no plans but some of a looser one's, with the plan drawn for the looser one as its
 * marks. That plan has to be drawn again where it is among them, and none may be drawn that comes before it.
 */
static uint16_t code_of_tighter(struct request r)
{
    const struct request given = r;
    size_t n = r.lowest_length;
    bool still = search_is_plan(&r.settings, r.lowest + MARGIN, r.highest + MARGIN, r.marks + MARGIN, n);
    struct icecoppice_answer a = still ? find_plan(&r) : compare_filter(&r);
    if (a.code == ICECOPPICE_YES && memcmp(r.marks + MARGIN, given.marks + MARGIN, n) < 0)
        fail("the plan drawn comes before this one, which was drawn for a looser request", &given);
    return a.code;
}

static void settle(struct request *r, size_t slot, bool over)
{
    if (over)
        r->lowest[MARGIN + slot] = r->settings.k + 1;
    else
        r->highest[MARGIN + slot] = r->settings.k;
}

static uint16_t code_when_settled(struct request r, size_t slot, bool over)
{
    settle(&r, slot, over);
    return code_of_tighter(r);
}

/* Each part of an open slot is left exactly when the request with the slot settled to that part has a plan. */
static void check_parts(const struct request *given, const struct request *left, size_t slot)
{
    int32_t k = given->settings.k, lowest = given->lowest[MARGIN + slot], highest = given->highest[MARGIN + slot];
    bool under = code_when_settled(*given, slot, false) == ICECOPPICE_YES;
    bool over = code_when_settled(*given, slot, true) == ICECOPPICE_YES;
    if (left->lowest[MARGIN + slot] != (under ? lowest : k + 1) || left->highest[MARGIN + slot] != (over ? highest : k))
        fail("a part is left and has no plan when settled, or is cut and has one", given);
}

/*
 * Settles each open slot by itself to either part; then, with those before it settled as drawn, to the part that is not
 * drawn; at last all of them as drawn.
 */
static void check_slots(const struct request *given, const struct request *left)
{
    struct request front = *given;
    int32_t k = given->settings.k;
    for (size_t j = 0; j < given->lowest_length; j++) {
        bool over = search_goes_with_over(given->marks[MARGIN + j]);
        if (given->lowest[MARGIN + j] > k || given->highest[MARGIN + j] <= k)
            continue;
        check_parts(given, left, j);
        code_when_settled(front, j, !over);
        settle(&front, j, over);
    }
    code_of_tighter(front);
}

/* Lowers h, then len: no settled slot tells mark 0 from mark 3, or mark 1 from mark 2. */
static void check_shapes(struct request r)
{
    for (; r.settings.h > 0; r.settings.h--)
        code_of_tighter(r);
    for (; r.settings.len > 0; r.settings.len--)
        code_of_tighter(r);
}

/* Raises the settle count. */
static void check_settles(struct request r)
{
    while (r.settings.settle++ < ICECOPPICE_MAX_SETTLE)
        code_of_tighter(r);
}

static uint16_t code_with_maximums(struct request r, uint16_t windows_most, uint16_t covered_most)
{
    r.settings.windows_most = windows_most;
    r.settings.covered_most = covered_most;
    return code_of_tighter(r);
}

/*
 * With a maximum at the least count there is a plan; with a maximum one below it there is none. The thrift is such a
 * count where the window maximum is the least number of windows.
 */
static void check_least_counts(const struct request *given, const struct icecoppice_answer *a)
{
    uint16_t windows = a->windows_least, covered = a->covered_least, thrift = a->thrift;
    if (code_with_maximums(*given, windows, thrift) != ICECOPPICE_YES ||
        code_with_maximums(*given, a->windows_most, covered) != ICECOPPICE_YES ||
        (windows > 0 && code_with_maximums(*given, windows - 1, a->covered_most) != ICECOPPICE_NO) ||
        (thrift > 0 && code_with_maximums(*given, windows, thrift - 1) != ICECOPPICE_NO) ||
        (covered > 0 && code_with_maximums(*given, a->windows_most, covered - 1) != ICECOPPICE_NO))
        fail("a least count is not the least", given);
}

/* The judge has to say yes to the plan that the filter drew, with loads from the ranges that it left. */
static void check_drawn_plan(const struct request *left, const struct icecoppice_answer *a)
{
    struct request r = *left;
    for (size_t j = MARGIN; j < MARGIN + r.lowest_length; j++)
        r.lowest[j] = search_goes_with_over(r.marks[j]) ? left->highest[j] : left->lowest[j];
    struct icecoppice_verdict v = compare_judge(&r);
    if (v.code != ICECOPPICE_YES || v.windows < a->windows_least || v.covered < a->covered_least)
        fail("the judge says no to the filter's plan, or the plan has less than the least", left);
}

static void check_settled_request(void)
{
    struct request r = request_with_plan(large_length());
    r.settings.windows_least = r.settings.covered_least = 0; /* so that the answer shows the least counts */
    struct request given = r;
    struct icecoppice_answer a = find_plan(&r);
    memcpy(given.marks, r.marks, sizeof given.marks);
    check_slots(&given, &r);
    check_shapes(given);
    check_settles(given);
    check_least_counts(&given, &a);
    check_drawn_plan(&r, &a);
}

/* Each window of the plan drawn has `slots` slots, but for the first, which has what is left. */
static void check_tiles(const struct request *left, size_t slots)
{
    for (size_t j = 1; j < left->marks_length; j++) {
        bool first = left->marks[MARGIN + j] == ICECOPPICE_FIRST;
        if (first != ((left->marks_length - j) % slots == 0))
            fail("slots over, with another plan than the first", left);
    }
}

/*
 * 64 slots that are all over, at every window length: the least windows are as many as it takes to tile them. The first
 * plan has as many windows as slots where it may, and short windows before long ones.
 */
static void check_all_over(void)
{
    const uint16_t n = ICECOPPICE_SLOTS;
    for (uint16_t len = 1; len <= n; len++) {
        const uint16_t least = (n + len - 1) / len;
        struct request r = blank_request();
        r.settings = (struct settings){0, len, 0, 0, 0, n, 0, n};
        r.lowest_length = r.highest_length = r.marks_length = n;
        for (size_t j = MARGIN; j < MARGIN + n; j++)
            r.lowest[j] = r.highest[j] = 1;
        struct request fewest = r;
        fewest.settings.windows_most = least;
        struct icecoppice_answer a = compare_filter(&r);
        if (a.code != ICECOPPICE_YES || a.windows_least != least || a.covered_least != n || a.thrift != n)
            fail("64 slots over", &r);
        check_drawn_plan(&r, &a);
        check_tiles(&r, 1);
        compare_filter(&fewest);
        check_tiles(&fewest, len);
    }
}

/*
 * 64 slots in runs of `len` slots over, with `gap` slots under from each to the next: a window for each run, where the
 * settle count is not above the gap. With one more there is no plan, unless there is but one run.
 */
static void check_runs(uint16_t len, uint16_t gap)
{
    const uint16_t n = ICECOPPICE_SLOTS, runs = (n + len + gap - 1) / (len + gap);
    struct request r = blank_request();
    r.settings = (struct settings){0, len, 0, gap, 0, n, 0, n};
    r.lowest_length = r.highest_length = r.marks_length = n;
    for (size_t j = 0; j < n; j++)
        r.lowest[MARGIN + j] = r.highest[MARGIN + j] = j % (len + gap) < len;
    struct request wider = r;
    wider.settings.settle++;
    struct icecoppice_answer a = compare_filter(&r);
    if (a.code != ICECOPPICE_YES || a.windows_least != runs)
        fail("runs of slots over, as far from each other as the settle count says", &r);
    uint16_t code = gap == ICECOPPICE_MAX_SETTLE ? ICECOPPICE_SETTLE : runs > 1 ? ICECOPPICE_NO : ICECOPPICE_YES;
    if (compare_filter(&wider).code != code)
        fail("runs of slots over, less far from each other than the settle count says", &wider);
}

static void check_all_runs(void)
{
    for (uint16_t len = 1; len <= ICECOPPICE_SLOTS; len++) {
        for (uint16_t gap = 0; gap <= ICECOPPICE_MAX_SETTLE; gap++)
            check_runs(len, gap);
    }
}

/* Six slots, each under, over or open by a digit of the string, in base 3. */
static struct request request_of_string(unsigned string)
{
    struct request r = blank_request();
    r.lowest_length = r.highest_length = r.marks_length = SMALL_SLOTS;
    for (size_t j = MARGIN; j < MARGIN + SMALL_SLOTS; j++, string /= 3) {
        r.lowest[j] = string % 3 == 1;
        r.highest[j] = string % 3 != 0;
    }
    return r;
}

static void compare_settle_counts(struct request r, uint16_t len, uint16_t h)
{
    for (uint16_t settle = 0; settle < SMALL_SLOTS; settle++) {
        struct request copy = r;
        copy.settings = (struct settings){0, len, h, settle, 0, SMALL_SLOTS, 0, SMALL_SLOTS};
        compare_filter(&copy);
    }
}

/* Every kind of six slots, with every accepted len and h, every settle count that can matter, and no lower maximum. */
static void check_all_strings(void)
{
    enum { STRINGS = 3 * 3 * 3 * 3 * 3 * 3 };
    for (unsigned string = 0; string < STRINGS; string++) {
        for (uint16_t len = 1; len <= SMALL_SLOTS; len++) {
            for (uint16_t h = 0; h == 0 || h + 1 < len; h++)
                compare_settle_counts(request_of_string(string), len, h);
        }
    }
}

/* A length of 0 asks nothing of its pointer. */
static void check_null(void)
{
    struct request r = blank_request();
    int32_t load = 5;
    uint8_t mark = 7;
    if (icecoppice_filter(0, 1, 0, 0, 0, 0, 0, 0, NULL, 0, NULL, 0, NULL, 0).code != ICECOPPICE_FIRST_LENGTH ||
        icecoppice_filter(0, 1, 0, 0, 0, 0, 0, 0, &load, 1, NULL, 0, &mark, 1).code != ICECOPPICE_OTHER_LENGTH ||
        icecoppice_judge(0, 1, 0, 0, 0, 0, 0, 0, NULL, 0, NULL, 0).code != ICECOPPICE_FIRST_LENGTH ||
        icecoppice_judge(0, 1, 0, 0, 0, 0, 0, 0, &load, 1, NULL, 0).code != ICECOPPICE_OTHER_LENGTH ||
        load != 5 || mark != 7)
        fail("NULL with length 0", &r);
}

static bool holds_only(uint8_t byte, const void *slice, size_t size)
{
    const uint8_t *bytes = slice;
    for (size_t i = 0; i < size; i++) {
        if (bytes[i] != byte)
            return false;
    }
    return true;
}

/* Lengths that would be accepted if only their lowest 16 bits were read. */
static void check_long_slices(void)
{
    enum { LONG = 65536 + 1, FILL = 5 };
    static int32_t low[LONG], high[LONG];
    static uint8_t marks[LONG];
    struct request r = blank_request();
    memset(low, FILL, sizeof low);
    memset(high, FILL, sizeof high);
    memset(marks, FILL, sizeof marks);
    if (icecoppice_filter(0, 1, 0, 0, 0, 1, 0, 1, low, LONG, high, LONG, marks, LONG).code !=
            ICECOPPICE_FIRST_LENGTH ||
        icecoppice_filter(0, 1, 0, 0, 0, 1, 0, 1, low, 1, high, LONG, marks, 1).code != ICECOPPICE_OTHER_LENGTH ||
        icecoppice_filter(0, 1, 0, 0, 0, 1, 0, 1, low, 1, high, 1, marks, LONG).code != ICECOPPICE_OTHER_LENGTH ||
        icecoppice_judge(0, 1, 0, 0, 0, 1, 0, 1, low, LONG, marks, LONG).code != ICECOPPICE_FIRST_LENGTH ||
        icecoppice_judge(0, 1, 0, 0, 0, 1, 0, 1, low, 1, marks, LONG).code != ICECOPPICE_OTHER_LENGTH ||
        !holds_only(FILL, low, sizeof low) || !holds_only(FILL, high, sizeof high) ||
        !holds_only(FILL, marks, sizeof marks))
        fail("a length of 65537", &r);
}

int main(void)
{
    check_cases();
    check_null();
    check_long_slices();
    check_all_over();
    check_all_runs();
    check_all_strings();
    for (unsigned i = 0; i < SMALL_REQUESTS; i++)
        compare_some_request();
    for (unsigned i = 0; i < JUDGED_PLANS; i++)
        compare_some_plan();
    for (unsigned i = 0; i < DAMAGED_REQUESTS; i++)
        compare_damaged_request();
    for (unsigned i = 0; i < LARGE_REQUESTS; i++)
        check_large_request();
    for (unsigned i = 0; i < SETTLED_REQUESTS; i++)
        check_settled_request();
    check_watch_starts();
    check_watch_counts();
    check_watch_states();
    check_cards();
    check_writing();
    check_paging();
    print_tally();
    print_kind("filter, large: other at settle 0", large_settle_tally);
    printf("%-32s %7d\n", "filter, large: each slot settled", SETTLED_REQUESTS);
    print_watch_tally();
    print_card_tally();
    print_writing_tally();
    print_paging_tally();
    printf("all agree\n");
    return 0;
}
