#include "paging.h"
#include "plan_list.h"
#include "random.h"
#include "requests.h"

#include <stdio.h>
#include <string.h>

enum { SMALL_SLOTS = 6, SMALL_QUERIES = 200000, LARGE_QUERIES = 20000, QUERIES_OF_EACH_NUMBER = 20 };

/* A paging goes on for PAGES pages. Where there are more plans, OTHER_PAGES and the end are asked for as well. */
enum { SMALL_PAGINGS = 10000, LARGE_PAGINGS = 200, PAGES = 2000, OTHER_PAGES = 200 };

/* What the paging is asked. The given plan stands in a larger buffer, too. */
struct query {
    struct request asked; /* its marks are lent for the next plan */
    size_t given_length;
    uint8_t given[BUFFER];
};

static struct plan_list list; /* of the request at hand */
static unsigned long tally[ICECOPPICE_GIVEN_PLAN + 1], first_tally, none_tally, large_tally, whole_tally, settle_tally;

static struct icecoppice_page ask(const struct settings *s, const int32_t *lowest, size_t lowest_length,
                                  const int32_t *highest, size_t highest_length, const uint8_t *given,
                                  size_t given_length, uint8_t *marks, size_t marks_length)
{
    return icecoppice_next_plan(s->k, s->len, s->h, s->settle, s->windows_least, s->windows_most, s->covered_least,
                                s->covered_most, lowest, lowest_length, highest, highest_length, given, given_length,
                                marks, marks_length);
}

static void print_marks(const char *what, const uint8_t *marks, size_t length)
{
    printf("%s (%zu):", what, length);
    for (size_t j = 0; j < length; j++)
        printf(" %u", marks[MARGIN + j]);
    printf("\n");
}

_Noreturn static void fail_query(const char *what, const struct query *q)
{
    print_marks("given", q->given, q->given_length);
    fail(what, &q->asked);
}

static bool same_query(const struct query *a, const struct query *b)
{
    return same_buffers(&a->asked, &b->asked) && memcmp(a->given, b->given, sizeof a->given) == 0;
}

static void tally_page(const struct query *q, uint16_t code)
{
    tally[code]++;
    first_tally += code == ICECOPPICE_YES && q->given_length == 0;
    none_tally += code == ICECOPPICE_NO && q->given_length == 0;
    large_tally += code == ICECOPPICE_YES && q->asked.lowest_length > SEARCH_SLOTS;
}

/* Asks the library, which has to answer what is wanted, and to leave that in the slices and beside them. */
static void hold_page(struct query *q, const struct query *want, const struct icecoppice_page *wanted)
{
    struct request *r = &q->asked;
    struct icecoppice_page got =
        ask(&r->settings, r->lowest + MARGIN, r->lowest_length, r->highest + MARGIN, r->highest_length,
            q->given + MARGIN, q->given_length, r->marks + MARGIN, r->marks_length);
    if (got.code != wanted->code || got.slot != wanted->slot || !same_query(q, want)) {
        printf("library: code %u slot %zu\n", got.code, got.slot);
        printf("wanted: code %u slot %zu\n", wanted->code, wanted->slot);
        print_marks("wanted marks", want->asked.marks, want->asked.marks_length);
        fail_query("the paging differs, or wrote something else; left was:", q);
    }
    tally_page(q, got.code);
}

/* The answer with the plan at this place of the list, which the marks become, or with none after the last. */
static struct icecoppice_page listed_page(struct query *want, size_t place)
{
    if (place > list.length)
        fail_query("a plan by the search, and not in the list", want);
    if (place == list.length)
        return (struct icecoppice_page){.code = ICECOPPICE_NO};
    memcpy(want->asked.marks + MARGIN, list.plans[place], want->asked.marks_length);
    return (struct icecoppice_page){.code = ICECOPPICE_YES};
}

static void list_request(const struct request *r)
{
    list_plans(&list, &r->settings, r->lowest + MARGIN, r->highest + MARGIN, r->lowest_length);
}

static struct icecoppice_page searched_page(struct query *want)
{
    struct request *r = &want->asked;
    return search_next_plan(&r->settings, r->lowest + MARGIN, r->lowest_length, r->highest + MARGIN, r->highest_length,
                            want->given + MARGIN, want->given_length, r->marks + MARGIN, r->marks_length);
}

/* The answer by the search's refusals, and by its plans or, where there are too many slots for it, by the list. */
static struct icecoppice_page wanted_page(struct query *want)
{
    const struct request *r = &want->asked;
    if (r->lowest_length <= SEARCH_SLOTS)
        return searched_page(want);
    struct icecoppice_page refused =
        search_page_refusal(&r->settings, r->lowest + MARGIN, r->lowest_length, r->highest + MARGIN, r->highest_length,
                            want->given + MARGIN, want->given_length, r->marks_length);
    if (refused.code != 0)
        return refused;
    list_request(r);
    if (want->given_length == 0)
        return listed_page(want, 0);
    return listed_page(want, place_of_plan(&list, want->given + MARGIN, want->given_length) + 1);
}

/* Tallies whether the search would have another answer with the settle count 0, refusals of the request aside. */
static void tally_settle(struct query touching, const struct query *want, uint16_t wanted)
{
    bool accepted = wanted <= ICECOPPICE_NO || wanted == ICECOPPICE_GIVEN_PLAN;
    if (!accepted || touching.asked.settings.settle == 0 || touching.asked.lowest_length > SEARCH_SLOTS)
        return;
    touching.asked.settings.settle = 0;
    settle_tally += searched_page(&touching).code != wanted || !same_query(&touching, want);
}

/* Gives the code, which is the same by the library and by what it is held to. */
static uint16_t compare_page(struct query *q)
{
    const struct query given = *q;
    struct query want = *q;
    struct icecoppice_page wanted = wanted_page(&want);
    hold_page(q, &want, &wanted);
    tally_settle(given, &want, wanted.code);
    return wanted.code;
}

/* A query about a request, after these marks, or for the first plan. What is lent for the plan is no marks. */
static struct query query_after(const struct request *r, const uint8_t *marks)
{
    size_t n = r->lowest_length;
    struct query q = {.asked = *r, .given_length = marks == NULL ? 0 : n};
    memset(q.given, 0xa5, sizeof q.given);
    if (marks != NULL)
        memcpy(q.given + MARGIN, marks, n);
    memset(q.asked.marks + MARGIN, 0xff, n);
    return q;
}

/* Asks for the plan at this place of the list by the one before it, which was the page before. */
static void check_page(const struct request *r, size_t place)
{
    struct query q = query_after(r, place > 0 ? list.plans[place - 1] : NULL), want = q, searched = q;
    struct icecoppice_page wanted = listed_page(&want, place);
    if (r->lowest_length <= SEARCH_SLOTS &&
        (searched_page(&searched).code != wanted.code || !same_query(&searched, &want)))
        fail_query("the list has another plan than the search; the list's:", &want);
    hold_page(&q, &want, &wanted);
}

/* Whether each of the list is a plan by the search, and comes after the one before it. */
static bool is_list_of_plans(const struct request *r)
{
    size_t n = r->lowest_length;
    for (size_t i = 0; i < list.length; i++) {
        if (!search_is_plan(&r->settings, r->lowest + MARGIN, r->highest + MARGIN, list.plans[i], n))
            return false;
        if (i > 0 && memcmp(list.plans[i - 1], list.plans[i], n) >= 0)
            return false;
    }
    return true;
}

void check_every_page(const struct request *r)
{
    struct query first = query_after(r, NULL);
    if (compare_page(&first) > ICECOPPICE_NO)
        return;
    list_request(r);
    if (!is_list_of_plans(r))
        fail("a list with something else than plans, or out of order", r);
    for (size_t place = 0; place <= list.length && place < PAGES; place++)
        check_page(r, place);
    for (unsigned i = 0; list.length >= PAGES && i < OTHER_PAGES; i++)
        check_page(r, below(list.length));
    check_page(r, list.length);
    whole_tally += list.length < PAGES;
}

/* Every slot is open, and no setting but the settle count keeps a plan out. */
static void check_loosest(size_t n, uint16_t settle, size_t plans)
{
    struct request r = blank_request();
    r.settings = (struct settings){0, n, n < 3 ? 0 : n - 2, settle, 0, n, 0, n};
    r.lowest_length = r.highest_length = r.marks_length = n;
    for (size_t j = MARGIN; j < MARGIN + n; j++) {
        r.lowest[j] = 0;
        r.highest[j] = 1;
    }
    check_every_page(&r);
    if (list.length != plans)
        fail("another number of plans", &r);
}

/*
 * How many plans that is. Slot 0 is uncovered, or it begins a window, in which each slot between the first and the last
 * has mark 2 or 3, and after which the slots owed, as far as there are so many, are uncovered.
 */
static size_t loosest_plans(size_t n, size_t settle)
{
    if (n == 0)
        return 1;
    size_t plans = loosest_plans(n - 1, settle);
    for (size_t slots = 1; slots <= n; slots++) {
        size_t windows = slots < 3 ? 1 : (size_t)1 << (slots - 2), left = n - slots;
        plans += windows * loosest_plans(left > settle ? left - settle : 0, settle);
    }
    return plans;
}

/* With the settle count 0, one slot more makes 3 times as many plans, less 1. */
static void check_all_loosest(void)
{
    size_t touching = 1;
    for (size_t n = 1; n <= ICECOPPICE_PAGED; n++) {
        touching = 3 * touching - 1;
        check_loosest(n, 0, touching);
        for (uint16_t settle = 1; settle <= ICECOPPICE_MAX_SETTLE; settle++)
            check_loosest(n, settle, loosest_plans(n, settle));
    }
}

/* A request of n slots, often made around a plan, which its marks hold, and then with room for more plans. */
static struct request some_paged_request(size_t n)
{
    if (one_in(4))
        return some_request(n);
    struct request r = request_with_plan(n);
    uint32_t share = below(9); /* about this many of every 8 slots become open */
    if (one_in(2))
        r.settings.windows_most = n;
    if (one_in(2))
        r.settings.covered_most = n;
    for (size_t j = MARGIN; j < MARGIN + n; j++) {
        if (below(8) < share) {
            r.lowest[j] = INT32_MIN;
            r.highest[j] = INT32_MAX;
        }
    }
    return r;
}

/* Asks for the first plan, or for the one after the plan that the request was made around, or after other marks. */
static struct query some_query(size_t n)
{
    struct request r = some_paged_request(n);
    uint8_t *marks = r.marks + MARGIN;
    switch (below(8)) {
    case 0: case 1: return query_after(&r, NULL);
    case 2: draw_marks(&r.settings, marks, n); break;
    case 3:
        for (size_t j = 0; j < n; j++)
            marks[j] = below(4);
    }
    return query_after(&r, marks);
}

/* Makes one change that often calls for a refusal. */
static void damage_query(struct query *q)
{
    size_t n = q->asked.lowest_length;
    switch (below(5)) {
    case 0: q->given_length = one_in(2) ? 0 : below(PLACES + 1); break;
    case 1: q->given[MARGIN + below(n > 0 ? n : 1)] = one_in(2) ? below(256) : below(5); break;
    case 2: q->asked.settings.settle++; break;
    default:
        damage(&q->asked);
        if (q->given_length == n && one_in(2))
            q->given_length = q->asked.lowest_length;
    }
}

static void compare_some_query(size_t n)
{
    struct query q = some_query(n);
    while (one_in(2))
        damage_query(&q);
    compare_page(&q);
}

static size_t small_number(void)
{
    return one_in(16) ? 1 + below(SEARCH_SLOTS) : 1 + below(SMALL_SLOTS);
}

static size_t large_number(void)
{
    return SEARCH_SLOTS + 1 + below(ICECOPPICE_PAGED - SEARCH_SLOTS);
}

static void check_some_paging(size_t n)
{
    struct request r = some_paged_request(n);
    check_every_page(&r);
}

/* With accepted settings, 0 slots and more than 64 are refused with 21, 13 to 64 with 34, 1 to 12 with neither. */
static void check_number_of_slots(size_t n)
{
    struct request r = some_paged_request(n > 0 ? n : 1);
    r.lowest_length = r.highest_length = r.marks_length = n;
    struct query q = query_after(&r, one_in(2) ? r.marks + MARGIN : NULL);
    uint16_t code = compare_page(&q);
    if ((code == ICECOPPICE_FIRST_LENGTH) != (n == 0 || n > 64) ||
        (code == ICECOPPICE_PAGED_SLOTS) != (n > 12 && n <= 64))
        fail_query("a number of slots", &q);
}

/* A length of 0 asks nothing of its pointer. The given plan may have it, the lent slice may not. */
static void check_null(void)
{
    const struct settings s = {0, 1, 0, 0, 0, 1, 0, 1};
    const int32_t low = 5, high = 5;
    uint8_t mark = 7;
    if (ask(&s, NULL, 0, NULL, 0, NULL, 0, NULL, 0).code != ICECOPPICE_FIRST_LENGTH ||
        ask(&s, &low, 1, NULL, 0, NULL, 0, &mark, 1).code != ICECOPPICE_OTHER_LENGTH ||
        ask(&s, &low, 1, &high, 1, NULL, 0, NULL, 0).code != ICECOPPICE_OTHER_LENGTH || mark != 7 ||
        ask(&s, &low, 1, &high, 1, NULL, 0, &mark, 1).code != ICECOPPICE_YES || mark != ICECOPPICE_FIRST)
        fail("the paging: NULL with length 0", &(struct request){.settings = s});
}

/* Lengths that would be accepted if only their lowest 16 bits were read. */
static void check_long_slices(void)
{
    enum { LONG = 65536, FILL = 7 };
    static int32_t low[LONG + 1], high[LONG + 1];
    static uint8_t given[LONG + 1], marks[LONG + 1];
    const struct settings s = {0, 1, 0, 0, 0, 1, 0, 1};
    marks[0] = FILL;
    if (ask(&s, low, LONG + 1, high, LONG + 1, given, LONG + 1, marks, LONG + 1).code != ICECOPPICE_FIRST_LENGTH ||
        ask(&s, low, 1, high, LONG + 1, given, 0, marks, 1).code != ICECOPPICE_OTHER_LENGTH ||
        ask(&s, low, 1, high, 1, given, LONG, marks, 1).code != ICECOPPICE_OTHER_LENGTH ||
        ask(&s, low, 1, high, 1, given, LONG + 1, marks, 1).code != ICECOPPICE_OTHER_LENGTH ||
        ask(&s, low, 1, high, 1, given, 0, marks, LONG + 1).code != ICECOPPICE_OTHER_LENGTH || marks[0] != FILL)
        fail("the paging: a length of 65536 and more", &(struct request){.settings = s});
}

void check_paging(void)
{
    check_null();
    check_long_slices();
    for (unsigned i = 0; i < QUERIES_OF_EACH_NUMBER * (PLACES + 1); i++)
        check_number_of_slots(i % (PLACES + 1));
    check_all_loosest();
    for (unsigned i = 0; i < SMALL_QUERIES; i++)
        compare_some_query(small_number());
    for (unsigned i = 0; i < LARGE_QUERIES; i++)
        compare_some_query(one_in(2) ? large_number() : 1 + below(ICECOPPICE_SLOTS));
    for (unsigned i = 0; i < SMALL_PAGINGS; i++)
        check_some_paging(small_number());
    for (unsigned i = 0; i < LARGE_PAGINGS; i++)
        check_some_paging(large_number());
}

void print_paging_tally(void)
{
    print_kind("paging: a plan", tally[ICECOPPICE_YES]);
    print_kind("paging: the first plan", first_tally);
    print_kind("paging: no further plan", tally[ICECOPPICE_NO]);
    print_kind("paging: no plan", none_tally);
    print_refusals("paging", tally, ICECOPPICE_FIRST_LENGTH, ICECOPPICE_CROSSED);
    print_kind("paging: refused 34", tally[ICECOPPICE_PAGED_SLOTS]);
    print_kind("paging: refused 35", tally[ICECOPPICE_GIVEN_PLAN]);
    print_kind("paging, 9 to 12 slots: a plan", large_tally);
    print_kind("paging: from first to end", whole_tally);
    print_kind("paging: another at settle 0", settle_tally);
}
