/* Holds the library's reader and look-up to the model of form 1, on random files, whole and damaged. */
#ifndef CARDS_H
#define CARDS_H

#include "compare.h"

void check_cards(void);

/* The reader has to give what a file was stored for: the settings, and as many loads as the request has slots. */
void check_read_back(const uint8_t *file, size_t file_length, const struct request *stored);

/* Prints how often each kind of answer came; fails if one is rare. */
void print_card_tally(void);

#endif
