#include "card_file.h"

#include <stdio.h>
#include <stdlib.h>

struct card load_card(const char *name)
{
    struct card c = {.length = 0};
    FILE *file = fopen(name, "rb");
    if (file != NULL)
        c.length = fread(c.bytes, 1, sizeof c.bytes, file);
    if (file == NULL || ferror(file)) {
        perror(name);
        exit(2);
    }
    fclose(file);
    return c;
}

bool read_card(const struct card *c, struct burst *b)
{
    struct icecoppice_reading r = icecoppice_read(c->bytes, c->length, b->given_lowest, ICECOPPICE_SLOTS,
                                                  b->given_highest, ICECOPPICE_SLOTS);
    if (r.code != ICECOPPICE_YES) {
        print_refusal(r.code, 0);
        return false;
    }
    b->k = r.k;
    b->len = r.len;
    b->h = r.h;
    b->settle = r.settle;
    b->windows = (struct range){r.windows_least, r.windows_most};
    b->covered = (struct range){r.covered_least, r.covered_most};
    b->n = r.n;
    return true;
}

static void save_card(const char *name, const uint8_t *bytes, size_t length)
{
    FILE *file = fopen(name, "wb");
    if (file == NULL || fwrite(bytes, 1, length, file) != length || fclose(file) != 0) {
        perror(name);
        exit(2);
    }
    printf("%s: %zu bytes\n", name, length);
}

bool write_card(const char *name, const struct burst *b)
{
    uint8_t bytes[ICECOPPICE_WRITTEN_BYTES];
    struct icecoppice_writing w = icecoppice_write(
        b->k, b->len, b->h, b->settle, b->windows.lowest, b->windows.highest, b->covered.lowest, b->covered.highest,
        b->given_lowest, b->n, b->given_highest, b->n, bytes, sizeof bytes);
    if (w.code != ICECOPPICE_YES) {
        print_refusal(w.code, w.slot);
        return false;
    }
    save_card(name, bytes, w.length);
    return true;
}
