#include "search.h"

#include <limits.h>
#include <stdlib.h>
#include <string.h>

struct counts {
    unsigned windows, covered;
};

/* Marks that are legal for some loads where windows may touch, whatever the ranges; their counts and least gap. */
struct drawing {
    uint8_t marks[SEARCH_SLOTS];
    struct counts counts;
    unsigned gap;
};

struct drawings {
    struct drawing *list;
    size_t length;
};

bool search_goes_with_over(uint8_t mark)
{
    return mark == ICECOPPICE_FIRST || mark == ICECOPPICE_LATER;
}

static bool continues_window(uint8_t mark)
{
    return mark == ICECOPPICE_LATER || mark == ICECOPPICE_BRIDGE;
}

/* Whether the window that begins at marks[0], with n slots left in the plan, keeps len and h. */
static bool window_fits(const uint8_t *marks, size_t n, unsigned len, unsigned h)
{
    size_t slots = 1;
    unsigned bridges = 0;
    while (slots < n && continues_window(marks[slots])) {
        bridges += marks[slots] == ICECOPPICE_BRIDGE;
        slots++;
    }
    return slots <= len && bridges <= h;
}

/* Whether the marks keep all of the rule that does not speak of loads or of the settle count. */
static bool well_drawn(const uint8_t *marks, size_t n, unsigned len, unsigned h)
{
    for (size_t j = 0; j < n; j++) {
        if (marks[j] > ICECOPPICE_BRIDGE)
            return false;
        if (continues_window(marks[j]) && (j == 0 || marks[j - 1] == ICECOPPICE_UNCOVERED))
            return false;
        if (marks[j] == ICECOPPICE_BRIDGE && (j + 1 == n || !continues_window(marks[j + 1])))
            return false;
        if (marks[j] == ICECOPPICE_FIRST && !window_fits(marks + j, n - j, len, h))
            return false;
    }
    return true;
}

static struct counts counts_of(const uint8_t *marks, size_t n)
{
    struct counts c = {0, 0};
    for (size_t j = 0; j < n; j++) {
        c.windows += marks[j] == ICECOPPICE_FIRST;
        c.covered += marks[j] != ICECOPPICE_UNCOVERED;
    }
    return c;
}

/* The least number of uncovered slots between neighbouring windows; UINT_MAX where there are fewer than two. */
static unsigned least_gap(const uint8_t *marks, size_t n)
{
    unsigned least = UINT_MAX;
    size_t last = n; /* the last covered slot so far, or n */
    for (size_t j = 0; j < n; j++) {
        if (marks[j] == ICECOPPICE_FIRST && last < n && j - last - 1 < least)
            least = j - last - 1;
        if (marks[j] != ICECOPPICE_UNCOVERED)
            last = j;
    }
    return least;
}

static bool within_maximums(const struct settings *s, struct counts c)
{
    return c.windows <= s->windows_most && c.covered <= s->covered_most;
}

/* Whether each range has a load on the side of k that the slot's mark goes with. */
static bool loads_exist(int32_t k, const int32_t *lowest, const int32_t *highest, const uint8_t *marks, size_t n)
{
    for (size_t j = 0; j < n; j++) {
        if (search_goes_with_over(marks[j]) ? highest[j] <= k : lowest[j] > k)
            return false;
    }
    return true;
}

bool search_is_plan(const struct settings *s, const int32_t *lowest, const int32_t *highest, const uint8_t *marks,
                    size_t n)
{
    return well_drawn(marks, n, s->len, s->h) && least_gap(marks, n) >= s->settle &&
           loads_exist(s->k, lowest, highest, marks, n) && within_maximums(s, counts_of(marks, n));
}

/* The first of the refusals 21 and 22 that applies, or 0. The judge has one other slice; its length is given twice. */
static uint16_t length_refusal(size_t n, size_t second_length, size_t third_length)
{
    if (n == 0 || n > ICECOPPICE_SLOTS)
        return ICECOPPICE_FIRST_LENGTH;
    if (second_length != n || third_length != n)
        return ICECOPPICE_OTHER_LENGTH;
    return 0;
}

/* The first of the refusals 23 to 27 that applies, or 0. */
static uint16_t settings_refusal(const struct settings *s, size_t n)
{
    if (s->len == 0 || s->len > n)
        return ICECOPPICE_WINDOW_LENGTH;
    if (s->h > 0 && (uint32_t)s->h + 1 >= s->len)
        return ICECOPPICE_BRIDGES;
    if (s->windows_least > s->windows_most || s->windows_most > n)
        return ICECOPPICE_WINDOW_COUNTS;
    if (s->covered_least > s->covered_most || s->covered_most > n)
        return ICECOPPICE_COVERED_COUNTS;
    if (s->settle > 8)
        return ICECOPPICE_SETTLE;
    return 0;
}

/* The first of the refusals 21 to 27 that applies, or 0. */
static uint16_t refusal(const struct settings *s, size_t n, size_t second_length, size_t third_length)
{
    uint16_t refused = length_refusal(n, second_length, third_length);
    return refused != 0 ? refused : settings_refusal(s, n);
}

/* The first slot whose lowest load is above its highest, or n. */
static size_t first_crossed(const int32_t *lowest, const int32_t *highest, size_t n)
{
    size_t slot = 0;
    while (slot < n && lowest[slot] <= highest[slot])
        slot++;
    return slot;
}

struct icecoppice_answer search_refusal(const struct settings *s, const int32_t *lowest, size_t lowest_length,
                                        const int32_t *highest, size_t highest_length, size_t marks_length)
{
    uint16_t refused = refusal(s, lowest_length, highest_length, marks_length);
    if (refused != 0)
        return (struct icecoppice_answer){.code = refused};
    size_t slot = first_crossed(lowest, highest, lowest_length);
    if (slot < lowest_length)
        return (struct icecoppice_answer){.code = ICECOPPICE_CROSSED, .slot = slot};
    return (struct icecoppice_answer){.code = 0};
}

/* The first of the refusals 21, 22, 34 and 23 to 27 that applies to the paging, or 0. */
static uint16_t early_page_refusal(const struct settings *s, size_t n, size_t highest_length, size_t given_length,
                                   size_t marks_length)
{
    uint16_t refused = length_refusal(n, highest_length, marks_length);
    if (refused != 0)
        return refused;
    if (given_length != 0 && given_length != n)
        return ICECOPPICE_OTHER_LENGTH;
    if (n > 12)
        return ICECOPPICE_PAGED_SLOTS;
    return settings_refusal(s, n);
}

struct icecoppice_page search_page_refusal(const struct settings *s, const int32_t *lowest, size_t lowest_length,
                                           const int32_t *highest, size_t highest_length, const uint8_t *given,
                                           size_t given_length, size_t marks_length)
{
    size_t n = lowest_length;
    uint16_t refused = early_page_refusal(s, n, highest_length, given_length, marks_length);
    if (refused != 0)
        return (struct icecoppice_page){.code = refused};
    size_t slot = first_crossed(lowest, highest, n);
    if (slot < n)
        return (struct icecoppice_page){.code = ICECOPPICE_CROSSED, .slot = slot};
    if (given_length != 0 && !search_is_plan(s, lowest, highest, given, n))
        return (struct icecoppice_page){.code = ICECOPPICE_GIVEN_PLAN};
    return (struct icecoppice_page){.code = 0};
}

struct icecoppice_verdict search_judge(const struct settings *s, const int32_t *loads, size_t loads_length,
                                       const uint8_t *marks, size_t marks_length)
{
    uint16_t refused = refusal(s, loads_length, marks_length, marks_length);
    if (refused != 0)
        return (struct icecoppice_verdict){.code = refused};
    if (!search_is_plan(s, loads, loads, marks, loads_length))
        return (struct icecoppice_verdict){.code = ICECOPPICE_NO};
    struct counts c = counts_of(marks, loads_length);
    return (struct icecoppice_verdict){.code = ICECOPPICE_YES, .windows = c.windows, .covered = c.covered};
}

/* In the order of document 02's T-03: marks are compared slot by slot from slot 0, smaller mark first. */
static struct drawings draw_all(size_t n, unsigned len, unsigned h)
{
    size_t strings = (size_t)1 << (2 * n);
    struct drawings all = {calloc(strings, sizeof *all.list), 0};
    if (all.list == NULL)
        abort();
    for (size_t string = 0; string < strings; string++) {
        struct drawing *d = &all.list[all.length];
        for (size_t j = 0; j < n; j++)
            d->marks[j] = string >> (2 * (n - 1 - j)) & 3;
        d->counts = counts_of(d->marks, n);
        d->gap = least_gap(d->marks, n);
        if (well_drawn(d->marks, n, len, h))
            all.length++;
    }
    return all;
}

/* The drawings are kept from call to call: they depend on nothing but n, len and h. */
static const struct drawings *drawings_of(size_t n, unsigned len, unsigned h)
{
    static struct drawings kept[SEARCH_SLOTS + 1][SEARCH_SLOTS + 1][SEARCH_SLOTS];
    if (n > SEARCH_SLOTS)
        abort();
    struct drawings *all = &kept[n][len][h];
    if (all->list == NULL)
        *all = draw_all(n, len, h);
    return all;
}

static bool is_plan_for(const struct settings *s, const int32_t *lowest, const int32_t *highest,
                        const struct drawing *d, size_t n)
{
    return within_maximums(s, d->counts) && d->gap >= s->settle && loads_exist(s->k, lowest, highest, d->marks, n);
}

/* What occurs in the plans of a request; the thrift is the least covered count of those with the fewest windows. */
struct findings {
    bool planned;
    const uint8_t *first; /* the marks of the first plan */
    struct counts least;
    unsigned thrift;
    bool under[SEARCH_SLOTS], over[SEARCH_SLOTS];
};

static void take_in(struct findings *f, const struct drawing *d, size_t n)
{
    bool fewer = !f->planned || d->counts.windows < f->least.windows;
    if (fewer || (d->counts.windows == f->least.windows && d->counts.covered < f->thrift))
        f->thrift = d->counts.covered;
    if (fewer)
        f->least.windows = d->counts.windows;
    if (!f->planned || d->counts.covered < f->least.covered)
        f->least.covered = d->counts.covered;
    if (!f->planned)
        f->first = d->marks;
    f->planned = true;
    for (size_t j = 0; j < n; j++) {
        if (search_goes_with_over(d->marks[j]))
            f->over[j] = true;
        else
            f->under[j] = true;
    }
}

static struct findings find(const struct settings *s, const int32_t *lowest, const int32_t *highest, size_t n)
{
    struct findings f = {.planned = false};
    const struct drawings *all = drawings_of(n, s->len, s->h);
    for (size_t i = 0; i < all->length; i++) {
        if (is_plan_for(s, lowest, highest, &all->list[i], n))
            take_in(&f, &all->list[i], n);
    }
    return f;
}

static void narrow(const struct findings *f, int32_t k, int32_t *lowest, int32_t *highest, size_t n)
{
    for (size_t j = 0; j < n; j++) {
        if (!f->over[j] && highest[j] > k)
            highest[j] = k;
        if (!f->under[j] && lowest[j] <= k)
            lowest[j] = k + 1; /* the slot is over in some plan, so k is not the highest number */
    }
}

static uint16_t larger(uint16_t given, unsigned least)
{
    return least > given ? (uint16_t)least : given;
}

struct icecoppice_answer search_filter(const struct settings *s, int32_t *lowest, size_t lowest_length,
                                       int32_t *highest, size_t highest_length, uint8_t *marks, size_t marks_length)
{
    size_t n = lowest_length;
    struct icecoppice_answer refused = search_refusal(s, lowest, n, highest, highest_length, marks_length);
    if (refused.code != 0)
        return refused;
    struct findings f = find(s, lowest, highest, n);
    if (!f.planned)
        return (struct icecoppice_answer){.code = ICECOPPICE_NO};
    narrow(&f, s->k, lowest, highest, n);
    memcpy(marks, f.first, n);
    return (struct icecoppice_answer){
        .code = ICECOPPICE_YES,
        .windows_least = larger(s->windows_least, f.least.windows),
        .windows_most = s->windows_most,
        .covered_least = larger(s->covered_least, f.least.covered),
        .covered_most = s->covered_most,
        .thrift = (uint16_t)f.thrift,
    };
}

/* The first plan that stands after the given one, or, where none is given, the first of all; NULL if there is none. */
static const uint8_t *plan_after(const struct settings *s, const int32_t *lowest, const int32_t *highest,
                                 const uint8_t *given, size_t n)
{
    const struct drawings *all = drawings_of(n, s->len, s->h);
    bool passed = given == NULL;
    for (size_t i = 0; i < all->length; i++) {
        const struct drawing *d = &all->list[i];
        if (passed && is_plan_for(s, lowest, highest, d, n))
            return d->marks;
        passed = passed || memcmp(d->marks, given, n) == 0;
    }
    return NULL;
}

struct icecoppice_page search_next_plan(const struct settings *s, const int32_t *lowest, size_t lowest_length,
                                        const int32_t *highest, size_t highest_length, const uint8_t *given,
                                        size_t given_length, uint8_t *marks, size_t marks_length)
{
    size_t n = lowest_length;
    struct icecoppice_page refused =
        search_page_refusal(s, lowest, n, highest, highest_length, given, given_length, marks_length);
    if (refused.code != 0)
        return refused;
    const uint8_t *next = plan_after(s, lowest, highest, given_length > 0 ? given : NULL, n);
    if (next == NULL)
        return (struct icecoppice_page){.code = ICECOPPICE_NO};
    memcpy(marks, next, n);
    return (struct icecoppice_page){.code = ICECOPPICE_YES};
}

/* Bit j of a string chooses between the two marks that go with the load of slot j. */
static void choose_marks(uint32_t string, int32_t k, const int32_t *loads, uint8_t *marks, size_t n)
{
    for (size_t j = 0; j < n; j++) {
        bool second = string >> j & 1;
        if (loads[j] > k)
            marks[j] = second ? ICECOPPICE_LATER : ICECOPPICE_FIRST;
        else
            marks[j] = second ? ICECOPPICE_BRIDGE : ICECOPPICE_UNCOVERED;
    }
}

unsigned search_least_windows(int32_t k, unsigned len, unsigned h, const int32_t *loads, size_t n)
{
    unsigned least = UINT_MAX;
    if (n > SEARCH_LOADS)
        abort();
    for (uint32_t string = 0; string < (uint32_t)1 << n; string++) {
        uint8_t marks[SEARCH_LOADS];
        choose_marks(string, k, loads, marks, n);
        unsigned windows = counts_of(marks, n).windows;
        if (windows < least && well_drawn(marks, n, len, h))
            least = windows;
    }
    return least;
}
