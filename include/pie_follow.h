/* Follows a flight recorder (pie_flight.h): one thread reads events while another thread keeps them, or writes the whole history, so that the
 * data path never touches a file. No call blocks. A reader that is too slow receives the number of events that it missed. Requires C11, or
 * C++11 and later; link with libpie_c.a.
 *
 *     (under the lock)                                                  (the thread that writes)
 *     uint32_t verdict = pie_arrive_event(&pie, .., event);             pie_flight_follow_open(&follower, memory, bytes);    (once)
 *     pie_flight_keep(&flight, &pie, event);                            pie_flight_follow_text(&follower, scratch, write, user);
 */
#ifndef PIE_FOLLOW_H
#define PIE_FOLLOW_H

#include "pie_flight.h"

#ifdef __cplusplus
extern "C" {
#endif

#define PIE_FOLLOWED 32 /* the most events of one copy */

/* A reader of a recorder: one thread, in any process that maps the memory. */
struct pie_flight_follower {
    PIE_WORD *words;                 /* the memory of the recorder */
    struct pie_flight_layout layout;
    uint64_t next;                   /* the number of the next event, counted from 0 */
    uint64_t missed;                 /* events that were overwritten before they were read */
    uint64_t untold;                 /* of these, the events that the text has not reported yet */
    int is_begun;                    /* 1 if the text has its first record */
    size_t at, count;                /* the index of the next copied event, and the number of copied events */
    uint64_t copied[PIE_FOLLOWED][PIE_FLIGHT_EVENT];
};

/* Starts to follow a recorder at its first event.
 * Returns 1, or 0 if the memory contains no recorder. */
static inline int pie_flight_follow_open(struct pie_flight_follower *follower, const void *memory, size_t bytes) {
    memset(follower, 0, sizeof *follower);
    follower->words = (PIE_WORD *)(uintptr_t)memory;
    return pie_flight_layout_in(&follower->layout, follower->words, bytes);
}

/* Copies events that were kept since the last call.
 * Returns 0, or the number of events that were overwritten before they were read. The follower then continues half of the memory behind the
 * writer, so that it does not lose events again at once. */
static inline uint64_t pie_flight_copy_next(struct pie_flight_follower *follower) {
    const struct pie_flight_layout *layout = &follower->layout;
    uint64_t number = follower->next, kept = PIE_LOAD(follower->words[PIE_FLIGHT_KEPT]), missed;
    follower->at = follower->count = 0;
    if (kept > PIE_FLIGHT_MOST_KEPT) /* (the word is damaged) */
        return 0;
    for (; number < kept && follower->count < PIE_FOLLOWED; number++)
        pie_flight_load_event(follower->copied[follower->count++], follower->words, layout, number);
    kept = PIE_LOAD(follower->words[PIE_FLIGHT_KEPT]);
    if (kept <= follower->next || kept > PIE_FLIGHT_MOST_KEPT || kept - follower->next + layout->burst <= layout->events)
        return 0;
    missed = kept - layout->events / 2 - follower->next;
    follower->count = 0;
    follower->next += missed;
    follower->missed += missed;
    return missed;
}

/* Reads the next event, and the parameters of an event of kind PIE_EVENT_PARAMS. If events were overwritten before they were read, the event
 * has the kind PIE_EVENT_LOST and its tag is their number.
 * Returns 1, or 0 if there is no new event. */
static inline int pie_flight_follow(struct pie_flight_follower *follower, struct pie_event *event, struct pie_params *params) {
    if (follower->at == follower->count) {
        uint64_t missed = pie_flight_copy_next(follower);
        if (missed != 0) {
            memset(event, 0, sizeof *event);
            event->kind = PIE_EVENT_LOST;
            event->tag = missed;
            return 1;
        }
        if (follower->count == 0)
            return 0;
    }
    pie_flight_read(event, params, follower->copied[follower->at++]);
    follower->next++;
    return 1;
}

/* Writes the number of missing events and starts a new text with the preamble of a later snapshot. */
static inline void pie_flight_follow_anew(struct pie_flight_follower *follower, struct pie_flight_text *text, void *scratch) {
    uint64_t begun = pie_flight_copy((PIE_WORD *)scratch, follower->words, &follower->layout, NULL, NULL), count;
    PIE_WORD *snapshot = pie_flight_oldest((PIE_WORD *)scratch, &follower->layout, begun, follower->next);
    if (snapshot == NULL) {
        text->answer = PIE_FLIGHT_GONE;
        return;
    }
    count = PIE_LOAD(snapshot[PIE_FLIGHT_COUNT]);
    pie_flight_written(text, pie_write_lost(follower->untold + count - follower->next, pie_flight_next(text), PIE_RESUME_ROOM));
    pie_flight_text_begin(text, (PIE_WORD *)scratch, &follower->layout, snapshot);
    follower->missed += count - follower->next;
    follower->next = count;
    follower->untold = 0;
    follower->at = follower->count = 0;
}

/* Writes the first records of a history: the opening, and the wall-clock time if it is known. */
static inline void pie_flight_follow_begin(struct pie_flight_follower *follower, struct pie_flight_text *text) {
    struct pie_opening opening;
    uint64_t unix_time = PIE_LOAD(follower->words[PIE_FLIGHT_CLOCK]);
    unsigned char *out = pie_flight_next(text);
    pie_flight_load(&opening, follower->words + PIE_FLIGHT_OPENING, sizeof opening / 8);
    pie_flight_written(text, pie_write_opening(&opening, out, PIE_RECORD_ROOM));
    if (unix_time != 0 && memcmp(out, "open3,", 6) == 0)
        pie_flight_written(text, pie_write_clock(0, unix_time, pie_flight_next(text), PIE_RESUME_ROOM));
    follower->is_begun = 1;
}

/* Writes the history of a recorder while events are kept. The recorder uses pie_flight_keep and was opened right after pie_open. Each call writes the
 * text of the events since the last call, the first call from the opening on. If events were overwritten, the line `lost,<count>` has their number.
 * An audit ends at that line. The text after it is an excerpt, which can be audited alone (`sed 1,/^lost,/d`). `scratch` is memory for a copy as in
 * pie_flight_dump.
 * Returns PIE_FLIGHT_DONE or PIE_FLIGHT_STOPPED; PIE_FLIGHT_BROKEN as pie_flight_dump; PIE_FLIGHT_GONE if the excerpt cannot start yet: call
 * again later. */
static inline int pie_flight_follow_text(struct pie_flight_follower *follower, void *scratch, pie_flight_write write, void *user) {
    struct pie_flight_text text;
    struct pie_event event;
    struct pie_params params;
    pie_flight_text_to(&text, write, user);
    if (!follower->is_begun)
        pie_flight_follow_begin(follower, &text);
    if (follower->untold != 0)
        pie_flight_follow_anew(follower, &text, scratch);
    while (text.answer != PIE_FLIGHT_STOPPED && text.answer != PIE_FLIGHT_GONE && pie_flight_follow(follower, &event, &params)) {
        if (event.kind != PIE_EVENT_LOST) {
            pie_flight_text_event(&text, &event, &params);
        } else {
            follower->untold += event.tag;
            pie_flight_follow_anew(follower, &text, scratch);
        }
    }
    pie_flight_flush(&text);
    return text.answer;
}

#ifdef __cplusplus
}
#endif

#endif
