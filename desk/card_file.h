/* Cards as files, and what they ask for as a burst. */
#ifndef CARD_FILE_H
#define CARD_FILE_H

#include "../include/icecoppice.h"
#include "burst.h"

/* There is place for one byte more than a card may have, so that a longer file is refused and not cut. */
struct card {
    uint8_t bytes[ICECOPPICE_FILE_BYTES + 1];
    size_t length;
};

/* Exits with 2, with a word on why, if the file cannot be read. */
struct card load_card(const char *name);

/* Puts what a card asks for into a burst with place for the most slots; prints the refusal if it is refused. */
bool read_card(const struct card *c, struct burst *b);

/* Writes what a burst asks for; prints the refusal, and makes no card, if it is refused. Exits as load_card. */
bool write_card(const char *name, const struct burst *b);

#endif
