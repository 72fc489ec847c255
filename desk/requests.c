#include "requests.h"
#include "random.h"

static struct settings some_settings(size_t n)
{
    struct settings s;
    s.k = some_load(0);
    s.len = 1 + below(n);
    s.h = s.len < 3 || one_in(2) ? 0 : below(s.len - 1);
    s.settle = one_in(8) ? below(ICECOPPICE_MAX_SETTLE + 1) : below(4);
    s.windows_most = below(n + 1);
    s.windows_least = below(s.windows_most + 1);
    s.covered_most = below(n + 1);
    s.covered_least = below(s.covered_most + 1);
    return s;
}

struct request some_request(size_t n)
{
    struct request r = blank_request();
    r.settings = some_settings(n);
    r.lowest_length = r.highest_length = r.marks_length = n;
    for (size_t j = MARGIN; j < MARGIN + n; j++) {
        int32_t a = some_load(r.settings.k), b = some_load(r.settings.k);
        r.lowest[j] = a < b ? a : b;
        r.highest[j] = a < b ? b : a;
        r.marks[j] = below(256);
    }
    return r;
}

int32_t load_for_mark(int32_t k, uint8_t mark)
{
    return load_on_side(k, search_goes_with_over(mark));
}

void draw_marks(const struct settings *s, uint8_t *marks, size_t n)
{
    size_t j = 0;
    while (j < n) {
        if (one_in(2)) {
            marks[j++] = ICECOPPICE_UNCOVERED;
            continue;
        }
        size_t end = j + 1 + below(n - j < s->len ? n - j : s->len);
        unsigned bridges = s->h;
        for (marks[j++] = ICECOPPICE_FIRST; j < end; j++) {
            bool bridge = bridges > 0 && j + 1 < end && one_in(2);
            bridges -= bridge;
            marks[j] = bridge ? ICECOPPICE_BRIDGE : ICECOPPICE_LATER;
        }
        for (unsigned owed = s->settle; owed > 0 && j < n; owed--)
            marks[j++] = ICECOPPICE_UNCOVERED;
    }
}

void allow_marks(struct settings *s, const uint8_t *marks, size_t n, uint32_t slack)
{
    unsigned windows = below(slack + 1), covered = below(slack + 1);
    for (size_t j = 0; j < n; j++) {
        windows += marks[j] == ICECOPPICE_FIRST;
        covered += marks[j] != ICECOPPICE_UNCOVERED;
    }
    s->windows_most = windows < n ? windows : n;
    s->covered_most = covered < n ? covered : n;
    s->windows_least = below(s->windows_most + 1);
    s->covered_least = below(s->covered_most + 1);
}

struct request request_with_plan(size_t n)
{
    struct request r = some_request(n);
    if (r.settings.k == INT32_MAX)
        r.settings.k--; /* so that loads can be over */
    draw_marks(&r.settings, r.marks + MARGIN, n);
    allow_marks(&r.settings, r.marks + MARGIN, n, one_in(4));
    for (size_t j = MARGIN; j < MARGIN + n; j++) {
        int32_t load = load_for_mark(r.settings.k, r.marks[j]);
        r.lowest[j] = one_in(3) ? INT32_MIN : load;
        r.highest[j] = one_in(3) ? INT32_MAX : load;
    }
    return r;
}

static size_t some_length(void)
{
    return below(PLACES + 1);
}

static uint16_t some_setting(size_t n)
{
    const uint16_t points[] = {0, 1, 2, n - 1, n, n + 1, 64, 65, 256, 32768, 65534, 65535};
    return points[below(sizeof points / sizeof *points)];
}

void damage(struct request *r)
{
    size_t n = r->lowest_length, slot = MARGIN + below(n > 0 ? n : 1);
    struct settings *s = &r->settings;
    switch (below(13)) {
    case 0: r->lowest_length = some_length(); break;
    case 1: r->highest_length = some_length(); break;
    case 2: r->marks_length = some_length(); break;
    case 3: r->lowest_length = r->highest_length = r->marks_length = some_length(); break;
    case 4: s->len = some_setting(n); break;
    case 5: s->h = one_in(2) ? some_setting(n) : s->len - 1; break;
    case 6: s->windows_most = some_setting(n); break;
    case 7: s->windows_least = one_in(2) ? some_setting(n) : s->windows_most + 1; break;
    case 8: s->covered_most = some_setting(n); break;
    case 9: s->covered_least = one_in(2) ? some_setting(n) : s->covered_most + 1; break;
    case 10: s->settle = one_in(2) ? some_setting(n) : ICECOPPICE_MAX_SETTLE + below(3); break;
    default:
        r->lowest[slot] = some_load(s->k);
        r->highest[slot] = some_load(s->k);
    }
}

void damage_often(struct request *r)
{
    if (one_in(2))
        return;
    do
        damage(r);
    while (one_in(2));
}
