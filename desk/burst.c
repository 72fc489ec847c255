#include "burst.h"

#include <inttypes.h>
#include <stdio.h>
#include <stdlib.h>
#include <string.h>

enum { SLOTS_A_LINE = 16 };

static void *allocate(size_t n, size_t size)
{
    void *p = calloc(n + 1, size); /* one more, since calloc may give NULL for 0 entries */
    if (p == NULL) {
        perror("slots of a burst");
        exit(2);
    }
    return p;
}

struct burst new_burst(size_t n)
{
    struct burst b = {.n = n};
    b.given_lowest = allocate(n, sizeof *b.given_lowest);
    b.given_highest = allocate(n, sizeof *b.given_highest);
    b.lowest = allocate(n, sizeof *b.lowest);
    b.highest = allocate(n, sizeof *b.highest);
    b.marks = allocate(n, sizeof *b.marks);
    return b;
}

void free_burst(struct burst *b)
{
    free(b->given_lowest);
    free(b->given_highest);
    free(b->lowest);
    free(b->highest);
    free(b->marks);
}

static const char *refusal(uint16_t code)
{
    switch (code) {
    case ICECOPPICE_FILE_SIZE: return "a card has 16 to 4,096 bytes";
    case ICECOPPICE_FILE_END: return "the last two bytes are not those of a card";
    case ICECOPPICE_FILE_FORM: return "the card is not of form 1";
    case ICECOPPICE_FILE_DISTANCE: return "the distance back is not 8 times the number of slots";
    case ICECOPPICE_FILE_RECORDS: return "the card is too short for its number of slots";
    case ICECOPPICE_LENT_LENGTH: return "a lent slice is too short for the card's number of slots";
    case ICECOPPICE_BUFFER_LENGTH: return "the lent buffer is too short for the card";
    case ICECOPPICE_SLOT_NUMBER: return "the card has no slot of this number";
    case ICECOPPICE_FILE_SLOTS:
    case ICECOPPICE_FIRST_LENGTH: return "there have to be 1 to 64 slots";
    case ICECOPPICE_OTHER_LENGTH: return "the slices differ in length";
    case ICECOPPICE_WINDOW_LENGTH: return "the window length is 0 or above the number of slots";
    case ICECOPPICE_BRIDGES: return "more bridges than a window of this length can hold";
    case ICECOPPICE_WINDOW_COUNTS: return "the window counts are crossed or above the number of slots";
    case ICECOPPICE_COVERED_COUNTS: return "the covered counts are crossed or above the number of slots";
    case ICECOPPICE_SETTLE: return "the settle count is above 8";
    case ICECOPPICE_STORED_SETTLE: return "a card holds only the settle count 1";
    case ICECOPPICE_CROSSED: return "the lowest load is above the highest";
    case ICECOPPICE_PAGED_SLOTS: return "there have to be at most 12 slots to page through the plans";
    case ICECOPPICE_GIVEN_PLAN: return "the given marks are no plan of the request";
    default: return "an unknown number";
    }
}

void print_refusal(uint16_t code, size_t slot)
{
    printf("refused %u", code);
    if (code == ICECOPPICE_SLOT_NUMBER || code == ICECOPPICE_CROSSED)
        printf(", slot %zu", slot);
    printf(": %s\n", refusal(code));
}

static bool covered(const struct burst *b, size_t j)
{
    return b->marks[j] != ICECOPPICE_UNCOVERED;
}

static bool over_in_plan(const struct burst *b, size_t j)
{
    return covered(b, j) && b->marks[j] != ICECOPPICE_BRIDGE;
}

static bool joined(const struct burst *b, size_t j)
{
    return j < b->n && covered(b, j) && b->marks[j] != ICECOPPICE_FIRST;
}

static void print_window_cell(const struct burst *b, size_t j)
{
    if (!covered(b, j))
        printf("    ");
    else
        printf("%c%s%c", joined(b, j) ? '=' : '[', over_in_plan(b, j) ? "==" : "~~", joined(b, j + 1) ? '=' : ']');
}

/* One part of a slot's range: whether it was asked for, whether it is left, and whether the plan's load lies in it. */
static void print_part_cell(bool given, bool left, bool in_plan)
{
    const char *cell = "    ";
    if (in_plan)
        cell = " ## ";
    else if (left)
        cell = " .. ";
    else if (given)
        cell = " xx ";
    printf("%s", cell);
}

static void print_picture_line(const struct burst *b, size_t from, size_t to)
{
    printf("\nslot   ");
    for (size_t j = from; j < to; j++)
        printf("%3zu ", j);
    printf("\nwindow ");
    for (size_t j = from; j < to; j++)
        print_window_cell(b, j);
    printf("\nover   ");
    for (size_t j = from; j < to; j++)
        print_part_cell(b->given_highest[j] > b->k, b->highest[j] > b->k, over_in_plan(b, j));
    printf("\nunder  ");
    for (size_t j = from; j < to; j++)
        print_part_cell(b->given_lowest[j] <= b->k, b->lowest[j] <= b->k, !over_in_plan(b, j));
    printf("\n");
}

static void print_picture(const struct burst *b)
{
    for (size_t from = 0; from < b->n; from += SLOTS_A_LINE)
        print_picture_line(b, from, from + SLOTS_A_LINE < b->n ? from + SLOTS_A_LINE : b->n);
    printf("\n[==] window   ~~ bridge   ## the plan's load   .. left as well   xx cut\n");
}

void print_range(int32_t lowest, int32_t highest)
{
    printf("%" PRId32 "..%" PRId32, lowest, highest);
}

static void print_ranges(const struct burst *b)
{
    printf("\nslot   load range\n");
    for (size_t j = 0; j < b->n; j++) {
        printf("%4zu   ", j);
        print_range(b->lowest[j], b->highest[j]);
        if (b->lowest[j] != b->given_lowest[j] || b->highest[j] != b->given_highest[j]) {
            printf("   was ");
            print_range(b->given_lowest[j], b->given_highest[j]);
        }
        printf("\n");
    }
}

static void print_counts(const char *what, uint16_t least, uint16_t most, struct range asked)
{
    printf("%s %u..%u   asked %ld..%ld\n", what, least, most, asked.lowest, asked.highest);
}

static void print_answer(const struct burst *b, const struct icecoppice_answer *a)
{
    printf("threshold %" PRId32 ", window length %u, bridges %u, settle count %u\n", b->k, b->len, b->h, b->settle);
    if (a->code == ICECOPPICE_NO) {
        printf("no plan\n");
    } else if (a->code != ICECOPPICE_YES) {
        print_refusal(a->code, a->slot);
    } else {
        print_counts("windows", a->windows_least, a->windows_most, b->windows);
        print_counts("covered", a->covered_least, a->covered_most, b->covered);
        printf("thrift %u\n", a->thrift);
        print_picture(b);
        print_ranges(b);
    }
}

int plan_burst(struct burst *b)
{
    memcpy(b->lowest, b->given_lowest, b->n * sizeof *b->lowest);
    memcpy(b->highest, b->given_highest, b->n * sizeof *b->highest);
    struct icecoppice_answer a = icecoppice_filter(
        b->k, b->len, b->h, b->settle, b->windows.lowest, b->windows.highest, b->covered.lowest, b->covered.highest,
        b->lowest, b->n, b->highest, b->n, b->marks, b->n);
    print_answer(b, &a);
    return a.code == ICECOPPICE_YES ? 0 : 1;
}

int exit_code(int code)
{
    if (fflush(stdout) != 0 || ferror(stdout)) {
        perror("standard output");
        return 2;
    }
    return code;
}
