#include "writing.h"
#include "card_model.h"
#include "cards.h"
#include "compare.h"
#include "random.h"
#include "requests.h"

#include <stdio.h>
#include <string.h>

/* There is room for the file of more slots than a request may have. */
enum { ORDERS = 100000, NOTE_BYTES = 40, ROOM = ICECOPPICE_FILE_LENGTH(PLACES) + 8 };

/* What the writer is asked. The buffer stands in a larger one, between bytes that no call may alter. */
struct order {
    struct request asked; /* of it, the settings, lowest and highest */
    size_t length;
    uint8_t buffer[MARGIN + ROOM + MARGIN];
};

static unsigned long tally[ICECOPPICE_CROSSED + 1];

/* With the settle count that form 1 holds. */
static struct order some_order(size_t n)
{
    struct order o = {.asked = some_request(n)};
    o.asked.settings.settle = 1;
    for (size_t i = 0; i < sizeof o.buffer; i++)
        o.buffer[i] = below(256);
    return o;
}

static struct icecoppice_writing write_request(const struct settings *s, const int32_t *lowest, size_t lowest_length,
                                               const int32_t *highest, size_t highest_length, uint8_t *buffer,
                                               size_t buffer_length)
{
    return icecoppice_write(s->k, s->len, s->h, s->settle, s->windows_least, s->windows_most, s->covered_least,
                            s->covered_most, lowest, lowest_length, highest, highest_length, buffer, buffer_length);
}

static void print_writing(const char *whose, const struct icecoppice_writing *w)
{
    printf("%s: code %u slot %zu length %zu\n", whose, w->code, w->slot, w->length);
}

/* The library has to answer what the model does, and to leave the same in the buffer and beside it. */
static struct icecoppice_writing compare_write(struct order *o)
{
    const struct request *r = &o->asked;
    struct order want = *o;
    struct icecoppice_writing wanted =
        model_write(&r->settings, r->lowest + MARGIN, r->lowest_length, r->highest + MARGIN, r->highest_length,
                    want.buffer + MARGIN, want.length);
    struct icecoppice_writing got =
        write_request(&r->settings, r->lowest + MARGIN, r->lowest_length, r->highest + MARGIN, r->highest_length,
                      o->buffer + MARGIN, o->length);
    if (got.code != wanted.code || got.slot != wanted.slot || got.length != wanted.length ||
        memcmp(o->buffer, want.buffer, sizeof want.buffer) != 0 || !same_buffers(r, &want.asked)) {
        printf("buffer of %zu bytes\n", o->length);
        print_writing("library", &got);
        print_writing("model", &wanted);
        fail("the writer differs, or wrote something else", r);
    }
    tally[got.code]++;
    return got;
}

/* What is read from a file, with a note before it or without, has to be written as that file without the note. */
static void check_rewritten(const uint8_t *file, size_t length, const struct request *made)
{
    uint8_t noted[NOTE_BYTES + ICECOPPICE_WRITTEN_BYTES], again[ICECOPPICE_WRITTEN_BYTES];
    int32_t lowest[ICECOPPICE_SLOTS], highest[ICECOPPICE_SLOTS];
    size_t note_length = one_in(2) ? 0 : below(NOTE_BYTES + 1);
    for (size_t i = 0; i < note_length; i++)
        noted[i] = below(256);
    memcpy(noted + note_length, file, length);
    struct icecoppice_reading r =
        icecoppice_read(noted, note_length + length, lowest, ICECOPPICE_SLOTS, highest, ICECOPPICE_SLOTS);
    struct settings s = {r.k, r.len, r.h, r.settle, r.windows_least, r.windows_most, r.covered_least, r.covered_most};
    struct icecoppice_writing w = write_request(&s, lowest, r.n, highest, r.n, again, sizeof again);
    if (w.code != ICECOPPICE_YES || w.length != length || memcmp(again, file, length) != 0)
        fail("what was read is not written as it stood", made);
}

static void check_order(struct order *o)
{
    struct icecoppice_writing w = compare_write(o);
    if (w.code != ICECOPPICE_YES)
        return;
    if (w.length != ICECOPPICE_FILE_LENGTH(o->asked.lowest_length))
        fail("a file of another length than the header says", &o->asked);
    check_read_back(o->buffer + MARGIN, w.length, &o->asked);
    check_rewritten(o->buffer + MARGIN, w.length, &o->asked);
}

static size_t some_room(size_t n)
{
    const size_t length = ICECOPPICE_FILE_LENGTH(n);
    const size_t lengths[] = {0, TRAILER_BYTES, length - 1, length, length, length + 1, ROOM, below(ROOM + 1)};
    return lengths[below(sizeof lengths / sizeof *lengths)];
}

static void check_some_order(void)
{
    struct order o = some_order(one_in(8) ? ICECOPPICE_SLOTS : 1 + below(ICECOPPICE_SLOTS));
    if (one_in(4))
        o.asked.settings.settle = below(ICECOPPICE_MAX_SETTLE + 1);
    damage_often(&o.asked);
    o.length = some_room(o.asked.lowest_length);
    check_order(&o);
}

/* One request of each number of slots, with buffers of every length up to 2 bytes more than its file has. */
static void check_each_length(void)
{
    for (size_t n = 1; n <= ICECOPPICE_SLOTS; n++) {
        struct order o = some_order(n);
        for (o.length = 0; o.length <= ICECOPPICE_FILE_LENGTH(n) + 2; o.length++)
            check_order(&o);
    }
}

/* A length of 0 asks nothing of its pointer, and the lengths are not cut to their lowest 16 bits. */
static void check_lengths(void)
{
    enum { LONG = 65536 };
    static int32_t loads[LONG + 1];
    static uint8_t buffer[LONG];
    const struct settings s = {0, 1, 0, 1, 0, 1, 0, 1};
    if (write_request(&s, NULL, 0, NULL, 0, NULL, 0).code != ICECOPPICE_FIRST_LENGTH ||
        write_request(&s, loads, 1, loads, 1, NULL, 0).code != ICECOPPICE_BUFFER_LENGTH ||
        write_request(&s, loads, LONG + 1, loads, LONG + 1, buffer, LONG).code != ICECOPPICE_FIRST_LENGTH ||
        write_request(&s, loads, 1, loads, LONG + 1, buffer, LONG).code != ICECOPPICE_OTHER_LENGTH ||
        write_request(&s, loads, 1, loads, 1, buffer, LONG).code != ICECOPPICE_YES)
        fail("the writer: NULL with length 0, or a length of 65536 and more", &(struct request){.settings = s});
}

void check_writing(void)
{
    check_lengths();
    check_each_length();
    for (unsigned i = 0; i < ORDERS; i++)
        check_some_order();
}

void print_writing_tally(void)
{
    print_kind("writer: stored", tally[ICECOPPICE_YES]);
    print_refusals("writer", tally, ICECOPPICE_FIRST_LENGTH, ICECOPPICE_CROSSED);
    print_kind("writer: refused 28", tally[ICECOPPICE_STORED_SETTLE]);
    print_kind("writer: refused 18", tally[ICECOPPICE_BUFFER_LENGTH]);
}
