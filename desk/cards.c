#include "cards.h"
#include "card_model.h"
#include "compare.h"
#include "random.h"

#include <inttypes.h>
#include <stdio.h>
#include <string.h>

/* Some files are up to EXCESS bytes too long. */
enum { CARDS = 100000, SHORT_NOTE = 40, EXCESS = 40, FILE_PLACES = ICECOPPICE_FILE_BYTES + EXCESS };

/*
 * What the reader and the look-up are asked. The file stands in a larger buffer, too. What is cut off it stays beside
 * it, so that a call that reads too far gives another answer.
 */
struct card {
    size_t start, length;
    uint8_t buffer[MARGIN + FILE_PLACES + MARGIN];
    struct request lent; /* of it, lowest and highest are lent to the reader */
};

static unsigned long read_tally[ICECOPPICE_SLOT_NUMBER + 1], look_up_tally[ICECOPPICE_SLOT_NUMBER + 1];
static unsigned long note_tally, longest_tally, too_long_tally;

static const uint8_t *file_of(const struct card *c)
{
    return c->buffer + c->start;
}

_Noreturn static void fail_card(const char *what, const struct card *c)
{
    printf("file (%zu):", c->length);
    for (size_t i = 0; i < c->length; i++)
        printf(" %02x", file_of(c)[i]);
    printf("\n");
    fail(what, &c->lent);
}

static void print_reading(const char *whose, const struct icecoppice_reading *r)
{
    printf("%s: code %u n %zu k %" PRId32 " len %u h %u settle %u windows %u..%u covered %u..%u\n", whose, r->code,
           r->n, r->k, r->len, r->h, r->settle, r->windows_least, r->windows_most, r->covered_least, r->covered_most);
}

static bool same_reading(const struct icecoppice_reading *a, const struct icecoppice_reading *b)
{
    return a->code == b->code && a->n == b->n && a->k == b->k && a->len == b->len && a->h == b->h &&
           a->settle == b->settle &&
           a->windows_least == b->windows_least && a->windows_most == b->windows_most &&
           a->covered_least == b->covered_least && a->covered_most == b->covered_most;
}

static void tally_reading(const struct card *c, const struct icecoppice_reading *r)
{
    bool taken = r->code == ICECOPPICE_YES;
    read_tally[r->code]++;
    note_tally += taken && c->length > TRAILER_BYTES + RECORD_BYTES * r->n;
    longest_tally += taken && c->length == ICECOPPICE_FILE_BYTES;
    too_long_tally += c->length == ICECOPPICE_FILE_BYTES + 1;
}

/* The library has to answer what the model does, and to leave the same in the slices and beside them. */
static struct icecoppice_reading compare_read(struct card *c)
{
    struct request *lent = &c->lent, want = c->lent;
    struct icecoppice_reading wanted = model_read(file_of(c), c->length, want.lowest + MARGIN, want.lowest_length,
                                                  want.highest + MARGIN, want.highest_length);
    struct icecoppice_reading got = icecoppice_read(file_of(c), c->length, lent->lowest + MARGIN, lent->lowest_length,
                                                    lent->highest + MARGIN, lent->highest_length);
    if (!same_reading(&got, &wanted) || !same_buffers(lent, &want)) {
        print_reading("library", &got);
        print_reading("model", &wanted);
        fail_card("the reader differs, or wrote something else; left was:", c);
    }
    tally_reading(c, &got);
    return got;
}

static void compare_look_up(const struct card *c, size_t slot)
{
    struct icecoppice_found wanted = model_look_up(file_of(c), c->length, slot);
    struct icecoppice_found got = icecoppice_look_up(file_of(c), c->length, slot);
    if (got.code != wanted.code || got.lowest != wanted.lowest || got.highest != wanted.highest) {
        printf("slot %zu\n", slot);
        printf("library: code %u range %" PRId32 "..%" PRId32 "\n", got.code, got.lowest, got.highest);
        printf("model: code %u range %" PRId32 "..%" PRId32 "\n", wanted.code, wanted.lowest, wanted.highest);
        fail_card("the look-up differs", c);
    }
    look_up_tally[got.code]++;
}

/* Asks for the loads and for some slots of a file that was made with n slots. No call may write into the file. */
static struct icecoppice_reading compare_card(struct card *c, size_t n)
{
    const struct card given = *c;
    const size_t slots[] = {0, below(n), n - 1, n, n + 1, 63, 64, 256, 65536, (size_t)1 << 32, SIZE_MAX};
    struct icecoppice_reading got = compare_read(c);
    for (unsigned i = 0; i < sizeof slots / sizeof *slots; i++)
        compare_look_up(c, slots[i]);
    if (memcmp(given.buffer, c->buffer, sizeof given.buffer) != 0)
        fail_card("the file was written into, or a byte beside it", c);
    return got;
}

static struct card card_of(const struct request *made, size_t note_length)
{
    struct card c = {.start = MARGIN};
    uint8_t note[FILE_PLACES];
    for (size_t i = 0; i < note_length; i++)
        note[i] = below(256);
    c.length = model_file(c.buffer + c.start, note, note_length, &made->settings, made->lowest + MARGIN,
                          made->highest + MARGIN, made->lowest_length);
    return c;
}

static void lend(struct card *c, size_t lowest_length, size_t highest_length)
{
    c->lent = blank_request();
    c->lent.lowest_length = lowest_length;
    c->lent.highest_length = highest_length;
}

/* A file as it was made gives back what it was made of, if it is not too long. */
static void check_whole_card(struct card *c, const struct request *made)
{
    size_t n = made->lowest_length;
    lend(c, n + below(2), n + below(2));
    struct icecoppice_reading got = compare_card(c, n), wanted = model_taken(&made->settings, n);
    if (c->length <= ICECOPPICE_FILE_BYTES && (!same_reading(&got, &wanted) || !same_buffers(&c->lent, made))) {
        print_reading("made of", &wanted);
        print_reading("library", &got);
        fail_card("not what the file was made of; left was:", c);
    }
}

void check_read_back(const uint8_t *file, size_t file_length, const struct request *stored)
{
    size_t n = stored->lowest_length;
    struct card c = {.start = MARGIN, .length = file_length};
    struct request made = blank_request();
    made.settings = stored->settings;
    made.lowest_length = made.highest_length = n;
    memcpy(made.lowest + MARGIN, stored->lowest + MARGIN, n * sizeof *made.lowest);
    memcpy(made.highest + MARGIN, stored->highest + MARGIN, n * sizeof *made.highest);
    memcpy(c.buffer + c.start, file, file_length);
    check_whole_card(&c, &made);
}

/* The reader checks neither the settings nor the ranges, so they are any, but for the settle count. */
static struct request some_contents(size_t n)
{
    struct request r = blank_request();
    int32_t any = INT32_MIN + (int64_t)below(UINT32_MAX);
    r.settings = (struct settings){one_in(2) ? any : some_load(0), below(256), below(256), 1, below(256), below(256),
                                   below(256), below(256)};
    r.lowest_length = r.highest_length = n;
    for (size_t j = MARGIN; j < MARGIN + n; j++) {
        r.lowest[j] = some_load(r.settings.k);
        r.highest[j] = some_load(r.settings.k);
    }
    return r;
}

static size_t some_note_length(size_t n)
{
    size_t longest = ICECOPPICE_FILE_BYTES - TRAILER_BYTES - RECORD_BYTES * n;
    switch (below(16)) {
    case 0: return longest;
    case 1: return longest + 1;
    case 2: return longest + 1 + below(EXCESS);
    case 3: case 4: case 5: return 0;
    default: return below(SHORT_NOTE);
    }
}

static size_t some_lent_length(size_t n)
{
    const size_t lengths[] = {0, n - 1, n, n, n + 1, n + 1, PLACES, PLACES, below(PLACES + 1)};
    return lengths[below(sizeof lengths / sizeof *lengths)];
}

static uint8_t some_slots(size_t n)
{
    const uint8_t points[] = {0, n - 1, n + 1, 63, 64, 65, 128, 255};
    return points[below(sizeof points)];
}

static uint16_t some_distance(size_t n)
{
    const uint16_t right = RECORD_BYTES * n;
    const uint16_t points[] = {0, n, right - 8, right - 1, right + 1, right + 8, right + 256, 65535};
    return points[below(sizeof points / sizeof *points)];
}

/* Cuts the file to so many bytes, at the front or at the back. */
static void cut(struct card *c, size_t left)
{
    if (left > c->length)
        return;
    if (one_in(2))
        c->start += c->length - left;
    c->length = left;
}

/* Makes one change that often calls for a refusal. Several changes to one file test the order of the refusals. */
static void damage_card(struct card *c)
{
    if (c->length < TRAILER_BYTES)
        return;
    uint8_t *trailer = c->buffer + c->start + c->length - TRAILER_BYTES, n = trailer[SLOTS_PLACE];
    switch (below(8)) {
    case 0: trailer[below(TRAILER_BYTES)] = below(256); break;
    case 1: trailer[END_PLACE + below(2)] ^= 1 << below(8); break;
    case 2: trailer[FORM_PLACE] = below(3); break;
    case 3: trailer[SLOTS_PLACE] = some_slots(n); break;
    case 4: put_distance(trailer, some_distance(n)); break;
    case 5: cut(c, c->length - below(TRAILER_BYTES + 1)); break;
    case 6: cut(c, below(TRAILER_BYTES + 2)); break;
    default: /* another number of slots, with its distance */
        n = some_slots(n);
        trailer[SLOTS_PLACE] = n;
        put_distance(trailer, RECORD_BYTES * n);
    }
}

static void check_some_card(void)
{
    size_t n = one_in(8) ? ICECOPPICE_SLOTS : 1 + below(ICECOPPICE_SLOTS);
    struct request made = some_contents(n);
    struct card c = card_of(&made, some_note_length(n));
    check_whole_card(&c, &made);
    lend(&c, some_lent_length(n), some_lent_length(n));
    while (!one_in(3))
        damage_card(&c);
    compare_card(&c, n);
}

/* Case A of document 01, and its file byte by byte. */
static void check_case_a(void)
{
    static const uint8_t bytes[] = {
        1, 0, 0, 0, 3, 0, 0, 0, 0xfe, 0xff, 0xff, 0xff, 4, 0, 0, 0,
        5, 0, 0, 0, 5, 0, 0, 0, 0, 0, 0, 0, 0, 0, 0, 0,
        32, 0, 4, 3, 0, 0, 1, 0, 4, 0, 0, 0, 0, 1, 0x54, 0x43,
    };
    struct request made = blank_request();
    made.settings = (struct settings){0, 3, 0, 1, 0, 1, 0, 4};
    made.lowest_length = made.highest_length = 4;
    memcpy(made.lowest + MARGIN, (int32_t[]){1, -2, 5, 0}, 4 * sizeof *made.lowest);
    memcpy(made.highest + MARGIN, (int32_t[]){3, 4, 5, 0}, 4 * sizeof *made.highest);
    struct card c = card_of(&made, 0);
    check_whole_card(&c, &made);
    if (c.length != sizeof bytes || memcmp(file_of(&c), bytes, sizeof bytes) != 0)
        fail_card("case A, not as its file has to be", &c);
}

/* A length of 0 asks nothing of its pointer. */
static void check_null(void)
{
    struct request made = some_contents(1);
    struct card c = card_of(&made, 0);
    if (icecoppice_read(NULL, 0, NULL, 0, NULL, 0).code != ICECOPPICE_FILE_SIZE ||
        icecoppice_read(file_of(&c), c.length, NULL, 0, NULL, 0).code != ICECOPPICE_LENT_LENGTH ||
        icecoppice_look_up(NULL, 0, 0).code != ICECOPPICE_FILE_SIZE)
        fail_card("NULL with length 0", &c);
}

/* By the lowest 16 bits of the lengths alone, the file would be short enough, and the slices would be too short. */
static void check_long_slices(void)
{
    enum { LONG = 65536, FILE_BYTES = RECORD_BYTES + TRAILER_BYTES };
    static uint8_t file[LONG + FILE_BYTES];
    static int32_t low[LONG], high[LONG];
    struct request made = some_contents(1);
    struct card c = card_of(&made, 0);
    memcpy(file + LONG, file_of(&c), FILE_BYTES);
    if (icecoppice_read(file, LONG + FILE_BYTES, low, LONG, high, LONG).code != ICECOPPICE_FILE_SIZE ||
        icecoppice_look_up(file, LONG + FILE_BYTES, 0).code != ICECOPPICE_FILE_SIZE ||
        icecoppice_read(file + LONG, FILE_BYTES, low, LONG, high, LONG).code != ICECOPPICE_YES)
        fail_card("a length of 65536 and more", &c);
}

void check_cards(void)
{
    check_case_a();
    check_null();
    check_long_slices();
    for (unsigned i = 0; i < CARDS; i++)
        check_some_card();
}

void print_card_tally(void)
{
    print_kind("reader: taken", read_tally[ICECOPPICE_YES]);
    print_kind("reader: taken with a note", note_tally);
    print_kind("reader: taken, 4096 bytes", longest_tally);
    print_kind("reader: refused, 4097 bytes", too_long_tally);
    print_refusals("reader", read_tally, ICECOPPICE_FILE_SIZE, ICECOPPICE_LENT_LENGTH);
    print_kind("look-up: found", look_up_tally[ICECOPPICE_YES]);
    print_refusals("look-up", look_up_tally, ICECOPPICE_FILE_SIZE, ICECOPPICE_FILE_RECORDS);
    print_kind("look-up: refused 19", look_up_tally[ICECOPPICE_SLOT_NUMBER]);
}
