/*
 * The boost-window planner for C11 and C++17: a filter that cuts load ranges and draws the first plan, a paging through
 * all plans of a short burst, a judge of finished plans, a reader and a writer of form 1 files, the camera's cards, and
 * a watch, which counts windows slot by slot.
 *
 * Link with libicecoppice.a (x86-64 Linux); `make install` puts it where pkg-config finds it. The functions are proved
 * for all values of their arguments. Only the test in desk/ checks these declarations against their source,
 * crates/icecoppice_c/src, over crates/icecoppice/src.
 *
 * What a caller owes: each pointer is aligned and points to as many entries as its length says (a length of 0 asks
 * nothing of the pointer), and no slice lent to the filter, the paging, the reader or the writer overlaps another. The
 * watch takes numbers only, and a caller owes it nothing.
 *
 * No function keeps state from one call to the next, so that any thread may call any of them on slices of its own.
 */
#ifndef ICECOPPICE_H
#define ICECOPPICE_H

#include <stdbool.h>
#include <stddef.h>
#include <stdint.h>

#ifdef __cplusplus
extern "C" {
#endif

/* The most slots of a request. */
#define ICECOPPICE_SLOTS 64

/* The most slots of a request whose plans are paged through. */
#define ICECOPPICE_PAGED 12

/* The most that the settle count can be. */
#define ICECOPPICE_MAX_SETTLE 8

/* The most bytes of a form 1 file, and the settle count of every request in one, for which it has no field. */
#define ICECOPPICE_FILE_BYTES    4096
#define ICECOPPICE_FORM_1_SETTLE 1

/* The length of the file that the writer makes of a request with n slots, and the most that it can be. */
#define ICECOPPICE_FILE_LENGTH(n) (16 + 8 * (n))
#define ICECOPPICE_WRITTEN_BYTES  ICECOPPICE_FILE_LENGTH(ICECOPPICE_SLOTS)

/* The most slots that a watch takes. */
#define ICECOPPICE_WATCH_SLOTS 1000000

/*
 * A load greater than the threshold is over, any other is under. A window is a run of slots that begins and ends with
 * an over slot; every over slot lies in one, and windows share no slot. An under slot in a window is a bridge. A plan
 * says which slots the windows cover, by marks, one byte per slot; they are legal for loads if all this holds, each
 * window keeps the settings len and h, and between one window and the next lie at least as many uncovered slots as the
 * settle count says. With the settle count 0 windows may touch.
 */
#define ICECOPPICE_UNCOVERED 0
#define ICECOPPICE_FIRST     1 /* the first slot of a window */
#define ICECOPPICE_LATER     2 /* a later slot of a window, with its load over the threshold */
#define ICECOPPICE_BRIDGE    3 /* a later slot of a window, with its load at most the threshold */

/* Codes. Numbers from 11 on are refusals; the first that applies is given. */
#define ICECOPPICE_YES             0  /* planned; next plan; yes; file taken, stored; slot found; started; load taken */
#define ICECOPPICE_NO              1  /* the filter: no plan; the paging: no further plan; the judge: no */
#define ICECOPPICE_FILE_SIZE       11 /* the file has fewer than 16 or more than 4,096 bytes */
#define ICECOPPICE_FILE_END        12 /* its last two bytes are not 54 43 (hexadecimal) */
#define ICECOPPICE_FILE_FORM       13 /* its form byte is not 1 */
#define ICECOPPICE_FILE_SLOTS      14 /* it has 0 slots or more than 64 */
#define ICECOPPICE_FILE_DISTANCE   15 /* its distance back is not 8 times the number of slots n */
#define ICECOPPICE_FILE_RECORDS    16 /* it has fewer than 16 + 8 times n bytes */
#define ICECOPPICE_LENT_LENGTH     17 /* the reader: a lent load slice is shorter than n */
#define ICECOPPICE_BUFFER_LENGTH   18 /* the writer: the lent buffer is shorter than the file */
#define ICECOPPICE_SLOT_NUMBER     19 /* the look-up: the slot number is not below n */
#define ICECOPPICE_FIRST_LENGTH    21 /* the first slice has 0 entries or more than 64 */
#define ICECOPPICE_OTHER_LENGTH    22 /* another slice has a different length; the paging's given plan may be empty */
#define ICECOPPICE_WINDOW_LENGTH   23 /* len is 0 or above the number of slots n; the watch: len is 0 or above 64 */
#define ICECOPPICE_BRIDGES         24 /* h > 0 and h + 1 >= len */
#define ICECOPPICE_WINDOW_COUNTS   25 /* the least windows above the most, or the most above n */
#define ICECOPPICE_COVERED_COUNTS  26 /* the least covered above the most, or the most above n */
#define ICECOPPICE_SETTLE          27 /* the settle count is above 8 */
#define ICECOPPICE_STORED_SETTLE   28 /* the writer: the settle count is not 1, the only one that form 1 holds */
#define ICECOPPICE_CROSSED         31 /* the filter, the paging, the writer: a slot's lowest load above its highest */
#define ICECOPPICE_UNREACHED       32 /* the watch: a state that no accepted start and steps lead to */
#define ICECOPPICE_FULL            33 /* the watch: 1,000,000 slots already taken */
#define ICECOPPICE_PAGED_SLOTS     34 /* the paging: more than 12 slots */
#define ICECOPPICE_GIVEN_PLAN      35 /* the paging: the given marks are not legal for the ranges, or above a maximum */

/*
 * What the filter answers. All fields but the code are 0 where their comment does not apply. Each least number is over
 * all plans within both maximums, by itself: one plan need not have both. The thrift is what the thriftiest of the
 * plans with the fewest windows covers; no given minimum raises it.
 */
struct icecoppice_answer {
    uint16_t code;          /* planned, no plan, or a refusal */
    size_t slot;            /* with code 31: the first slot whose lowest load is above its highest */
    uint16_t windows_least; /* planned: the least number of windows, or the given minimum if that is larger */
    uint16_t windows_most;  /* planned: the given maximum */
    uint16_t covered_least; /* planned: the least number of covered slots, or the given minimum if that is larger */
    uint16_t covered_most;  /* planned: the given maximum */
    uint16_t thrift;        /* planned: the least number of covered slots among the plans with the fewest windows */
};

/* What the paging answers. The slot is 0 where its comment does not apply. */
struct icecoppice_page {
    uint16_t code; /* 0: the next plan; 1: there is no further one; or a refusal: 21, 22, 34, 23 to 27, 31, then 35 */
    size_t slot;   /* with code 31: the first slot whose lowest load is above its highest */
};

/* What the judge answers. Both counts are 0 unless the code is yes. */
struct icecoppice_verdict {
    uint16_t code;    /* yes, no, or a refusal */
    uint16_t windows; /* yes: how many windows the plan has */
    uint16_t covered; /* yes: how many slots it covers */
};

/* What the reader answers. All fields but the code are 0 on a refusal. */
struct icecoppice_reading {
    uint16_t code; /* 0, or a refusal from 11 to 17 */
    size_t n;      /* the number of slots */
    int32_t k;     /* from here on the settings, as the filter takes them; the reader does not check them */
    uint16_t len, h;
    uint16_t settle; /* ICECOPPICE_FORM_1_SETTLE */
    uint16_t windows_least, windows_most;
    uint16_t covered_least, covered_most;
};

/* What a look-up answers. Both loads are 0 on a refusal. */
struct icecoppice_found {
    uint16_t code;           /* 0, or a refusal from 11 to 16, or 19 */
    int32_t lowest, highest; /* the load range of the slot */
};

/* What the writer answers. All fields but the code are 0 where their comment does not apply. */
struct icecoppice_writing {
    uint16_t code; /* 0, or a refusal: 21 to 27, 31, 28, then 18 */
    size_t slot;   /* with code 31: the first slot whose lowest load is above its highest */
    size_t length; /* code 0: how many bytes the file has */
};

/*
 * The state of a watch: its settings, its counts, and what is left to the active window, the one that the next slot may
 * still lie in. The caller keeps it; after each step the state that comes back replaces the one that went in.
 */
struct icecoppice_watch {
    int32_t k;        /* threshold; a load above it is over */
    uint16_t len;     /* the most slots of a window */
    uint16_t h;       /* the most bridges of a window */
    uint32_t taken;   /* how many slots were taken */
    uint32_t windows; /* the least number of windows that covers their loads; they may touch */
    uint16_t room;    /* how many slots are left to the active window; 0 if none is active */
    uint16_t spare;   /* how many bridges are left to it; 0 if none is active */
};

/* What a start gives. */
struct icecoppice_started {
    uint16_t code;                 /* 0, or the refusal 23 or 24 */
    struct icecoppice_watch watch; /* code 0: no slot is taken yet; refused: every field is 0 */
};

/* What a step gives. */
struct icecoppice_stepped {
    uint16_t code;                 /* 0, or the refusal 32 or 33 */
    bool opened;                   /* code 0: whether the load opened a window; refused: false */
    struct icecoppice_watch watch; /* code 0: the state with one slot more; refused: the state that went in */
};

/*
 * The settings, in the filter, the paging, the judge and the writer:
 *   k                threshold; a load above it is over
 *   len              the most slots of a window
 *   h                the most bridges of a window
 *   settle           the settle count: the least number of uncovered slots from one window to the next
 *   windows_least..  the range of the number of windows
 *   covered_least..  the range of the number of covered slots
 * No plan is held to the two minimums: they only raise windows_least and covered_least of the filter's answer.
 */

/*
 * Plans a burst. lowest and highest hold each slot's load range, marks receives the plan; all three have one length.
 *
 * On "planned" the ranges are narrowed to the loads that occur in some plan, and marks holds the first of all plans
 * within both maximums: marks are compared slot by slot from slot 0, smaller mark first. On "no plan" and on a refusal
 * all three slices hold what they held before.
 */
struct icecoppice_answer icecoppice_filter(int32_t k, uint16_t len, uint16_t h, uint16_t settle,
                                           uint16_t windows_least, uint16_t windows_most,
                                           uint16_t covered_least, uint16_t covered_most,
                                           int32_t *lowest, size_t lowest_length,
                                           int32_t *highest, size_t highest_length,
                                           uint8_t *marks, size_t marks_length);

/*
 * Pages through all plans of a burst of at most ICECOPPICE_PAGED slots. lowest and highest hold each slot's load range,
 * given a plan, or nothing to ask for the first; marks receives the next plan. All four have one length, but given may
 * be empty.
 *
 * The next plan is the first that comes after the given one, of all plans within both maximums and in the order in
 * which the filter draws the first. Called with nothing, and then with each plan that it gave, it gives every plan once
 * and no other marks. The ranges are not narrowed. On "no further one" and on a refusal marks holds what it held
 * before.
 */
struct icecoppice_page icecoppice_next_plan(int32_t k, uint16_t len, uint16_t h, uint16_t settle,
                                            uint16_t windows_least, uint16_t windows_most,
                                            uint16_t covered_least, uint16_t covered_most,
                                            const int32_t *lowest, size_t lowest_length,
                                            const int32_t *highest, size_t highest_length,
                                            const uint8_t *given, size_t given_length,
                                            uint8_t *marks, size_t marks_length);

/* Judges a finished plan: yes exactly when the marks are legal for the loads and both counts keep their maximums. */
struct icecoppice_verdict icecoppice_judge(int32_t k, uint16_t len, uint16_t h, uint16_t settle,
                                           uint16_t windows_least, uint16_t windows_most,
                                           uint16_t covered_least, uint16_t covered_most,
                                           const int32_t *loads, size_t loads_length,
                                           const uint8_t *marks, size_t marks_length);

/*
 * Reads a form 1 file: the settings, and each slot's load range into the first n places of lowest and highest, whose
 * later places hold what they held before. On a refusal both slices do. n is at most ICECOPPICE_SLOTS.
 */
struct icecoppice_reading icecoppice_read(const uint8_t *file, size_t file_length,
                                          int32_t *lowest, size_t lowest_length,
                                          int32_t *highest, size_t highest_length);

/* Gives the load range of one slot of a form 1 file; slots are numbered from 0. */
struct icecoppice_found icecoppice_look_up(const uint8_t *file, size_t file_length, size_t slot);

/*
 * Writes a request as a form 1 file without a note, into the first bytes of the buffer, whose later bytes hold what
 * they held before. It is stored as given, whether it has a plan or not; on a refusal the whole buffer holds what it
 * held before. What the filter would refuse is refused, so lowest and highest have one length, and so is a settle count
 * other than ICECOPPICE_FORM_1_SETTLE.
 */
struct icecoppice_writing icecoppice_write(int32_t k, uint16_t len, uint16_t h, uint16_t settle,
                                           uint16_t windows_least, uint16_t windows_most,
                                           uint16_t covered_least, uint16_t covered_most,
                                           const int32_t *lowest, size_t lowest_length,
                                           const int32_t *highest, size_t highest_length,
                                           uint8_t *buffer, size_t buffer_length);

/* Starts a watch. */
struct icecoppice_started icecoppice_watch_start(int32_t k, uint16_t len, uint16_t h);

/* Takes one load more, with no maximum of the window count. */
struct icecoppice_stepped icecoppice_watch_step(struct icecoppice_watch watch, int32_t load);

#ifdef __cplusplus
}
#endif

#endif
