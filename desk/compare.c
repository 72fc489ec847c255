#include "compare.h"

#include <inttypes.h>
#include <stdio.h>
#include <stdlib.h>
#include <string.h>

/* Large requests have more slots than the search tries. A length that 21 refuses counts as small. */
enum size { SMALL, LARGE, SIZES };

/* How many answers were compared, by size and code, and in how many searched requests an under or over part was cut. */
static unsigned long filter_tally[SIZES][ICECOPPICE_CROSSED + 1], judge_tally[SIZES][ICECOPPICE_CROSSED + 1];
static unsigned long under_cut_tally, over_cut_tally;

/* How many answers would be others with the settle count 0, refusals aside. */
static unsigned long filter_settle_tally, judge_settle_tally;

static enum size size_of(const struct request *r)
{
    return r->lowest_length > SEARCH_SLOTS && r->lowest_length <= ICECOPPICE_SLOTS ? LARGE : SMALL;
}

struct request blank_request(void)
{
    struct request r = {.lowest_length = 0};
    memset(r.lowest, 0x5a, sizeof r.lowest);
    memset(r.highest, 0x5a, sizeof r.highest);
    memset(r.marks, 0x5a, sizeof r.marks);
    return r;
}

static void print_request(const struct request *r)
{
    const struct settings *s = &r->settings;
    printf("  k %" PRId32 " len %u h %u settle %u windows %u..%u covered %u..%u\n", s->k, s->len, s->h, s->settle,
           s->windows_least, s->windows_most, s->covered_least, s->covered_most);
    printf("  lowest or loads (%zu):", r->lowest_length);
    for (size_t j = 0; j < r->lowest_length; j++)
        printf(" %" PRId32, r->lowest[MARGIN + j]);
    printf("\n  highest (%zu):", r->highest_length);
    for (size_t j = 0; j < r->highest_length; j++)
        printf(" %" PRId32, r->highest[MARGIN + j]);
    printf("\n  marks (%zu):", r->marks_length);
    for (size_t j = 0; j < r->marks_length; j++)
        printf(" %u", r->marks[MARGIN + j]);
    printf("\n");
}

void fail(const char *what, const struct request *r)
{
    printf("%s\n", what);
    print_request(r);
    exit(1);
}

static void print_answer(const char *whose, const struct icecoppice_answer *a)
{
    printf("%s: code %u slot %zu windows %u..%u covered %u..%u thrift %u\n", whose, a->code, a->slot,
           a->windows_least, a->windows_most, a->covered_least, a->covered_most, a->thrift);
}

bool same_answer(const struct icecoppice_answer *a, const struct icecoppice_answer *b)
{
    return a->code == b->code && a->slot == b->slot &&
           a->windows_least == b->windows_least && a->windows_most == b->windows_most &&
           a->covered_least == b->covered_least && a->covered_most == b->covered_most && a->thrift == b->thrift;
}

bool same_buffers(const struct request *a, const struct request *b)
{
    return memcmp(a->lowest, b->lowest, sizeof a->lowest) == 0 &&
           memcmp(a->highest, b->highest, sizeof a->highest) == 0 &&
           memcmp(a->marks, b->marks, sizeof a->marks) == 0;
}

/* Puts the slices of one request into the buffers of another, to compare what lies beside the slices. */
static void copy_slices(struct request *to, const struct request *from)
{
    memcpy(to->lowest + MARGIN, from->lowest + MARGIN, from->lowest_length * sizeof *to->lowest);
    memcpy(to->highest + MARGIN, from->highest + MARGIN, from->highest_length * sizeof *to->highest);
    memcpy(to->marks + MARGIN, from->marks + MARGIN, from->marks_length);
}

_Noreturn static void fail_filter(const char *what, const struct request *given, const struct request *left,
                                  const struct icecoppice_answer *a)
{
    print_answer("library", a);
    print_request(left);
    fail(what, given);
}

/* Asks the library. It may write into the slices if it says yes, and nowhere else. */
static struct icecoppice_answer ask_filter(struct request *r)
{
    const struct request given = *r;
    struct request kept = *r;
    const struct settings *s = &r->settings;
    struct icecoppice_answer a = icecoppice_filter(
        s->k, s->len, s->h, s->settle, s->windows_least, s->windows_most, s->covered_least, s->covered_most,
        r->lowest + MARGIN, r->lowest_length, r->highest + MARGIN, r->highest_length,
        r->marks + MARGIN, r->marks_length);
    if (a.code == ICECOPPICE_YES)
        copy_slices(&kept, r);
    if (!same_buffers(&kept, r))
        fail_filter("the filter wrote beside a slice, or without a yes; asked was:", &given, r, &a);
    return a;
}

static struct icecoppice_verdict ask_judge(const struct request *r)
{
    struct request given = *r;
    const struct settings *s = &r->settings;
    struct icecoppice_verdict v = icecoppice_judge(
        s->k, s->len, s->h, s->settle, s->windows_least, s->windows_most, s->covered_least, s->covered_most,
        given.lowest + MARGIN, r->lowest_length, given.marks + MARGIN, r->marks_length);
    if (!same_buffers(&given, r))
        fail("the judge wrote", r);
    return v;
}

static void tally_cuts(const struct request *given, const struct request *narrowed)
{
    under_cut_tally += memcmp(given->lowest, narrowed->lowest, sizeof given->lowest) != 0;
    over_cut_tally += memcmp(given->highest, narrowed->highest, sizeof given->highest) != 0;
}

static struct icecoppice_answer search_request(struct request *r)
{
    return search_filter(&r->settings, r->lowest + MARGIN, r->lowest_length, r->highest + MARGIN, r->highest_length,
                         r->marks + MARGIN, r->marks_length);
}

static void tally_settle(const struct request *given, const struct request *want,
                         const struct icecoppice_answer *wanted)
{
    struct request touching = *given;
    if (given->settings.settle == 0 || wanted->code > ICECOPPICE_NO)
        return;
    touching.settings.settle = 0;
    struct icecoppice_answer a = search_request(&touching);
    filter_settle_tally += !same_answer(&a, wanted) || !same_buffers(&touching, want);
}

static void hold_to_search(const struct request *given, const struct request *left, const struct icecoppice_answer *a)
{
    struct request want = *given;
    struct icecoppice_answer wanted = search_request(&want);
    if (!same_answer(a, &wanted) || !same_buffers(left, &want)) {
        print_answer("search", &wanted);
        print_request(&want);
        fail_filter("the filter differs; asked was:", given, left, a);
    }
    tally_cuts(given, &want);
    tally_settle(given, &want, &wanted);
}

/* Whether each slot lost its under part, its over part or nothing. A slot that lost both could not be in a plan. */
static bool parts_cut(const struct request *given, const struct request *left)
{
    int32_t k = given->settings.k;
    for (size_t j = MARGIN; j < MARGIN + given->lowest_length; j++) {
        bool open = given->lowest[j] <= k && given->highest[j] > k;
        if (left->lowest[j] != given->lowest[j] && !(open && left->lowest[j] == k + 1))
            return false;
        if (left->highest[j] != given->highest[j] && !(open && left->highest[j] == k))
            return false;
    }
    return true;
}

/* Whether an answer is a yes or a no with all that must hold of it, whatever plans there are. */
static bool is_yes_or_no(const struct request *given, const struct request *left, const struct icecoppice_answer *a)
{
    const struct settings *s = &given->settings;
    if (a->code == ICECOPPICE_NO)
        return same_answer(a, &(struct icecoppice_answer){.code = ICECOPPICE_NO});
    return a->code == ICECOPPICE_YES && a->slot == 0 &&
           a->windows_least >= s->windows_least && a->windows_most == s->windows_most &&
           a->covered_least >= s->covered_least && a->covered_most == s->covered_most &&
           a->windows_least <= a->windows_most && a->covered_least <= a->covered_most &&
           a->thrift <= a->covered_most && parts_cut(given, left) &&
           search_is_plan(s, left->lowest + MARGIN, left->highest + MARGIN, left->marks + MARGIN, left->lowest_length);
}

/* Whether the search can work out the whole answer: a refusal, or the plans of a few slots. */
static bool searchable(const struct request *r)
{
    return r->lowest_length <= SEARCH_SLOTS ||
           search_refusal(&r->settings, r->lowest + MARGIN, r->lowest_length, r->highest + MARGIN, r->highest_length,
                          r->marks_length).code != 0;
}

struct icecoppice_answer compare_filter(struct request *r)
{
    const struct request given = *r;
    struct icecoppice_answer a = ask_filter(r);
    if (searchable(&given))
        hold_to_search(&given, r, &a);
    else if (!is_yes_or_no(&given, r, &a))
        fail_filter("neither a yes with a plan nor a no, and nothing to refuse; asked was:", &given, r, &a);
    filter_tally[size_of(&given)][a.code]++;
    return a;
}

static struct icecoppice_verdict search_verdict(const struct request *r, const struct settings *s)
{
    return search_judge(s, r->lowest + MARGIN, r->lowest_length, r->marks + MARGIN, r->marks_length);
}

struct icecoppice_verdict compare_judge(const struct request *r)
{
    struct settings touching = r->settings;
    touching.settle = 0;
    struct icecoppice_verdict got = ask_judge(r), wanted = search_verdict(r, &r->settings);
    if (got.code != wanted.code || got.windows != wanted.windows || got.covered != wanted.covered) {
        printf("library: code %u windows %u covered %u\n", got.code, got.windows, got.covered);
        printf("search: code %u windows %u covered %u\n", wanted.code, wanted.windows, wanted.covered);
        fail("the judge differs; asked was:", r);
    }
    judge_tally[size_of(r)][got.code]++;
    judge_settle_tally += got.code == ICECOPPICE_NO && search_verdict(r, &touching).code == ICECOPPICE_YES;
    return got;
}

void print_kind(const char *kind, unsigned long tally)
{
    printf("%-32s %7lu\n", kind, tally);
    if (tally < 1000) {
        printf("too few of this kind\n");
        exit(1);
    }
}

void print_refusals(const char *whose, const unsigned long *tally, unsigned first, unsigned last)
{
    for (unsigned code = first; code <= last; code++) {
        if (code > ICECOPPICE_SETTLE && code < ICECOPPICE_CROSSED)
            continue;
        char kind[32];
        snprintf(kind, sizeof kind, "%s: refused %u", whose, code);
        print_kind(kind, tally[code]);
    }
}

void print_tally(void)
{
    print_kind("filter: planned", filter_tally[SMALL][ICECOPPICE_YES]);
    print_kind("filter: an under part cut", under_cut_tally);
    print_kind("filter: an over part cut", over_cut_tally);
    print_kind("filter: no plan", filter_tally[SMALL][ICECOPPICE_NO]);
    print_kind("filter: another at settle 0", filter_settle_tally);
    print_refusals("filter", filter_tally[SMALL], ICECOPPICE_FIRST_LENGTH, ICECOPPICE_CROSSED);
    print_kind("filter, large: planned", filter_tally[LARGE][ICECOPPICE_YES]);
    print_kind("filter, large: no plan", filter_tally[LARGE][ICECOPPICE_NO]);
    print_refusals("filter, large", filter_tally[LARGE], ICECOPPICE_OTHER_LENGTH, ICECOPPICE_CROSSED);
    print_kind("judge: yes", judge_tally[SMALL][ICECOPPICE_YES]);
    print_kind("judge: no", judge_tally[SMALL][ICECOPPICE_NO]);
    print_kind("judge: no, but yes at settle 0", judge_settle_tally);
    print_refusals("judge", judge_tally[SMALL], ICECOPPICE_FIRST_LENGTH, ICECOPPICE_SETTLE);
    print_kind("judge, large: yes", judge_tally[LARGE][ICECOPPICE_YES]);
    print_kind("judge, large: no", judge_tally[LARGE][ICECOPPICE_NO]);
    print_refusals("judge, large", judge_tally[LARGE], ICECOPPICE_OTHER_LENGTH, ICECOPPICE_SETTLE);
}
