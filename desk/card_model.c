#include "card_model.h"

#include <string.h>

enum { DISTANCE_BYTES = 2, LOAD_BYTES = 4, FORM = 1, SETTLE = 1 };

static const uint8_t end_bytes[] = {0x54, 0x43};

/* The lowest byte comes first. */
static void put_number(uint8_t *bytes, unsigned size, uint32_t number)
{
    for (unsigned i = 0; i < size; i++)
        bytes[i] = number >> 8 * i & 0xff;
}

static uint32_t number_at(const uint8_t *bytes, unsigned size)
{
    uint32_t number = 0;
    for (unsigned i = size; i > 0; i--)
        number = 256 * number + bytes[i - 1];
    return number;
}

/* A load or a threshold, in two's complement. */
static int32_t load_at(const uint8_t *bytes)
{
    int64_t number = number_at(bytes, LOAD_BYTES);
    return number <= INT32_MAX ? number : number - UINT32_MAX - 1;
}

void put_distance(uint8_t *trailer, uint16_t distance)
{
    put_number(trailer + DISTANCE_PLACE, DISTANCE_BYTES, distance);
}

static void put_trailer(uint8_t *trailer, const struct settings *s, size_t n)
{
    put_distance(trailer, RECORD_BYTES * n);
    trailer[SLOTS_PLACE] = n;
    trailer[LEN_PLACE] = s->len;
    trailer[H_PLACE] = s->h;
    trailer[WINDOWS_PLACE] = s->windows_least;
    trailer[WINDOWS_PLACE + 1] = s->windows_most;
    trailer[COVERED_PLACE] = s->covered_least;
    trailer[COVERED_PLACE + 1] = s->covered_most;
    put_number(trailer + K_PLACE, LOAD_BYTES, s->k);
    trailer[FORM_PLACE] = FORM;
    memcpy(trailer + END_PLACE, end_bytes, sizeof end_bytes);
}

size_t model_file(uint8_t *file, const uint8_t *note, size_t note_length, const struct settings *s,
                  const int32_t *lowest, const int32_t *highest, size_t n)
{
    uint8_t *next = file + note_length;
    memcpy(file, note, note_length);
    for (size_t j = 0; j < n; j++) {
        put_number(next, LOAD_BYTES, lowest[j]);
        put_number(next + LOAD_BYTES, LOAD_BYTES, highest[j]);
        next += RECORD_BYTES;
    }
    put_trailer(next, s, n);
    return next + TRAILER_BYTES - file;
}

static struct settings settings_of(const uint8_t *trailer)
{
    return (struct settings){
        .k = load_at(trailer + K_PLACE),
        .len = trailer[LEN_PLACE],
        .h = trailer[H_PLACE],
        .settle = SETTLE,
        .windows_least = trailer[WINDOWS_PLACE],
        .windows_most = trailer[WINDOWS_PLACE + 1],
        .covered_least = trailer[COVERED_PLACE],
        .covered_most = trailer[COVERED_PLACE + 1],
    };
}

/* The record of the last slot ends where the trailer begins. */
static struct icecoppice_found range_of(const uint8_t *trailer, size_t slot)
{
    const uint8_t *record = trailer - RECORD_BYTES * (trailer[SLOTS_PLACE] - slot);
    return (struct icecoppice_found){.lowest = load_at(record), .highest = load_at(record + LOAD_BYTES)};
}

/* The first of the refusals 11 to 16 that applies, or 0. */
static uint16_t file_refusal(const uint8_t *file, size_t file_length)
{
    if (file_length < TRAILER_BYTES || file_length > ICECOPPICE_FILE_BYTES)
        return ICECOPPICE_FILE_SIZE;
    const uint8_t *trailer = file + file_length - TRAILER_BYTES;
    size_t n = trailer[SLOTS_PLACE];
    if (memcmp(trailer + END_PLACE, end_bytes, sizeof end_bytes) != 0)
        return ICECOPPICE_FILE_END;
    if (trailer[FORM_PLACE] != FORM)
        return ICECOPPICE_FILE_FORM;
    if (n == 0 || n > ICECOPPICE_SLOTS)
        return ICECOPPICE_FILE_SLOTS;
    if (number_at(trailer + DISTANCE_PLACE, DISTANCE_BYTES) != RECORD_BYTES * n)
        return ICECOPPICE_FILE_DISTANCE;
    if (file_length < TRAILER_BYTES + RECORD_BYTES * n)
        return ICECOPPICE_FILE_RECORDS;
    return 0;
}

struct icecoppice_reading model_taken(const struct settings *s, size_t n)
{
    return (struct icecoppice_reading){
        .code = ICECOPPICE_YES,
        .n = n,
        .k = s->k,
        .len = s->len,
        .h = s->h,
        .settle = s->settle,
        .windows_least = s->windows_least,
        .windows_most = s->windows_most,
        .covered_least = s->covered_least,
        .covered_most = s->covered_most,
    };
}

struct icecoppice_reading model_read(const uint8_t *file, size_t file_length, int32_t *lowest, size_t lowest_length,
                                     int32_t *highest, size_t highest_length)
{
    uint16_t refused = file_refusal(file, file_length);
    if (refused != 0)
        return (struct icecoppice_reading){.code = refused};
    const uint8_t *trailer = file + file_length - TRAILER_BYTES;
    size_t n = trailer[SLOTS_PLACE];
    if (lowest_length < n || highest_length < n)
        return (struct icecoppice_reading){.code = ICECOPPICE_LENT_LENGTH};
    for (size_t j = 0; j < n; j++) {
        struct icecoppice_found range = range_of(trailer, j);
        lowest[j] = range.lowest;
        highest[j] = range.highest;
    }
    struct settings s = settings_of(trailer);
    return model_taken(&s, n);
}

struct icecoppice_found model_look_up(const uint8_t *file, size_t file_length, size_t slot)
{
    uint16_t refused = file_refusal(file, file_length);
    if (refused != 0)
        return (struct icecoppice_found){.code = refused};
    const uint8_t *trailer = file + file_length - TRAILER_BYTES;
    if (slot >= trailer[SLOTS_PLACE])
        return (struct icecoppice_found){.code = ICECOPPICE_SLOT_NUMBER};
    return range_of(trailer, slot);
}

struct icecoppice_writing model_write(const struct settings *s, const int32_t *lowest, size_t lowest_length,
                                      const int32_t *highest, size_t highest_length, uint8_t *buffer,
                                      size_t buffer_length)
{
    /* There are no marks whose length could differ. */
    struct icecoppice_answer refused = search_refusal(s, lowest, lowest_length, highest, highest_length, lowest_length);
    if (refused.code != 0)
        return (struct icecoppice_writing){.code = refused.code, .slot = refused.slot};
    if (s->settle != SETTLE)
        return (struct icecoppice_writing){.code = ICECOPPICE_STORED_SETTLE};
    if (buffer_length < RECORD_BYTES * lowest_length + TRAILER_BYTES)
        return (struct icecoppice_writing){.code = ICECOPPICE_BUFFER_LENGTH};
    size_t length = model_file(buffer, (const uint8_t[]){0}, 0, s, lowest, highest, lowest_length);
    return (struct icecoppice_writing){.code = ICECOPPICE_YES, .length = length};
}
