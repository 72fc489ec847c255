/*
 * A second opinion on form 1, the file on the card: the bytes of a file; what the reader and a look-up have to answer
 * for any bytes, by rows 11 to 17 and 19 of document 01's table; and what the writer has to answer for any request, by
 * the search's refusals and rows 28 and 18. It shares no code with the library.
 */
#ifndef CARD_MODEL_H
#define CARD_MODEL_H

#include "search.h"

/* A file has a free note, a record of the lowest and the highest load for each slot, and the trailer. */
enum { RECORD_BYTES = 8, TRAILER_BYTES = 16 };

/* Where each field begins in the trailer. It has one byte where nothing else is said. */
enum {
    DISTANCE_PLACE = 0, /* 2 bytes: how many bytes before the trailer the records begin */
    SLOTS_PLACE = 2,
    LEN_PLACE = 3,
    H_PLACE = 4,
    WINDOWS_PLACE = 5, /* the least, then the most */
    COVERED_PLACE = 7, /* the least, then the most */
    K_PLACE = 9,       /* 4 bytes */
    FORM_PLACE = 13,
    END_PLACE = 14, /* 2 bytes */
};

/* Writes the distance into a trailer. */
void put_distance(uint8_t *trailer, uint16_t distance);

/*
 * Writes the file with this note and n slots, and gives its length. Each setting but k has to fit into a byte. The
 * settle count goes into none: every file is read with 1.
 */
size_t model_file(uint8_t *file, const uint8_t *note, size_t note_length, const struct settings *s,
                  const int32_t *lowest, const int32_t *highest, size_t n);

/* What the reader has to answer to a file with these settings and n slots that it takes. */
struct icecoppice_reading model_taken(const struct settings *s, size_t n);

/* What the reader has to answer; if the file is taken, its loads are put into the first places of the slices. */
struct icecoppice_reading model_read(const uint8_t *file, size_t file_length, int32_t *lowest, size_t lowest_length,
                                     int32_t *highest, size_t highest_length);

/* What a look-up has to answer. */
struct icecoppice_found model_look_up(const uint8_t *file, size_t file_length, size_t slot);

/* What the writer has to answer; if the file is stored, it is put into the first bytes of the buffer. */
struct icecoppice_writing model_write(const struct settings *s, const int32_t *lowest, size_t lowest_length,
                                      const int32_t *highest, size_t highest_length, uint8_t *buffer,
                                      size_t buffer_length);

#endif
