/* Tests the stage without a port: marks in frames of every shape, the clock, the random words, a full queue, out of
 * memory, a clock that goes back, packets without IP and oversized ones; many threads at once. No mbuf may be lost.
 * `now` is simulated, so nothing depends on the machine's speed. Prints a line for each group; exits with status 1
 * at the first fault.
 * usage: stage_test [EAL options] -- FOLDER [threads]     FOLDER: for the histories; threads: the threads alone, for a sanitizer
 */
#include "stage_test.h"

#include "fwd_queues.h"
#include "stage_packet.h"
#include "stage_words.h"

#include <inttypes.h>
#include <rte_cycles.h>
#include <rte_eal.h>
#include <rte_errno.h>
#include <rte_ip.h>
#include <string.h>

struct rte_mempool *pool;
const char *folder;

/* The key stream is ChaCha's: the block of RFC 8439, section 2.3.2. */
static void test_words(void) {
    static const uint32_t wanted[16] = {0xe4e7f110, 0x15593bd1, 0x1fdd0f50, 0xc47120a3, 0xc7f4d1c7, 0x0368c033, 0x9aaa2204, 0x4e6cd4c3,
                                        0x466482d2, 0x09aa9f07, 0x05d7c214, 0xa2028bd9, 0xd19c12b5, 0xb94e16de, 0xe883d0cb, 0x4e3c50a2};
    uint32_t key[8];
    stage_lanes out[16], next[16];
    for (uint32_t i = 0; i < 8; i++)
        key[i] = 0x03020100 + i * 0x04040404;
    stage_blocks(out, key, UINT64_C(0x0900000000000001), 0x4a000000, 20);
    stage_blocks(next, key, UINT64_C(0x0900000000000002), 0x4a000000, 20);
    for (int i = 0; i < 16; i++)
        EXPECT(out[i][0] == wanted[i] && next[i][0] == out[i][1] && next[i][1] == out[i][2] && next[i][2] == out[i][3]); // one block after another
    struct stage_words one, two;
    EXPECT(stage_words_seed(&one) && stage_words_seed(&two));
    EXPECT(memcmp(one.key, two.key, sizeof one.key) != 0);
    int set[64] = {0};
    for (int i = 0; i < 40000; i++) {
        uint64_t word = stage_word(&one);
        for (int bit = 0; bit < 64; bit++)
            set[bit] += word >> bit & 1;
    }
    for (int bit = 0; bit < 64; bit++)
        EXPECT(set[bit] > 19000 && set[bit] < 21000); // ten standard deviations
    printf("stage_test: random words\n");
}

static void test_clock(void) {
    struct pie_stage_params params;
    unrecorded(&params);
    struct pie_stage *stage = stage_of(&params);
    uint64_t hz = rte_get_tsc_hz(), before = 0;
    EXPECT(pie_stage_nanoseconds(stage, 0) == 0);
    for (uint64_t seconds = 1; seconds <= UINT64_C(31622400); seconds *= 2) { // a year
        uint64_t found = pie_stage_nanoseconds(stage, seconds * hz), wanted = seconds * 1000000000;
        EXPECT(found <= wanted && wanted - found <= 1 + wanted / UINT64_C(10000000000000));
    }
    for (uint64_t cycles = 0; cycles < UINT64_MAX / 3; cycles += cycles / 64 + 1) {
        EXPECT(pie_stage_nanoseconds(stage, cycles) >= before);
        before = pie_stage_nanoseconds(stage, cycles);
    }
    EXPECT(pie_stage_nanoseconds(stage, UINT64_MAX) <= PIE_MAX_MOMENT);
    // a clock that jumps back: the latest moment counts, no wait is negative, and the call is counted
    struct rte_mbuf *mbufs[2] = {plain(100, PIE_NOT_ECT), plain(100, PIE_NOT_ECT)}, *out[4];
    uint64_t now = rte_rdtsc() + hz;
    struct pie_stage_stats stats;
    EXPECT(pie_stage_enqueue(stage, mbufs, 1, now) == 1 && pie_stage_enqueue(stage, mbufs + 1, 1, now - hz) == 1);
    EXPECT(pie_stage_dequeue(stage, out, 1, 0) == 1 && out[0] == mbufs[0]);
    EXPECT(pie_stage_dequeue(stage, out, 4, now + hz) == 1 && out[0] == mbufs[1]);
    EXPECT(!pie_stage_update(stage, 0));
    pie_stage_read(stage, &stats);
    EXPECT(stats.earlier == 2 && stats.longest <= 1000000001 && stats.longest >= 999999999 && stats.waited == stats.longest);
    rte_pktmbuf_free_bulk(mbufs, 2);
    pie_stage_free(stage);
    expect_all_back();
    printf("stage_test: the clock\n");
}

static void test_create(void) {
    struct pie_stage_params params, bad;
    unrecorded(&params);
    struct pie_stage *stage = stage_of(&params);
    EXPECT(pie_stage_create("test", &params, SOCKET_ID_ANY) == NULL && rte_errno == EEXIST);
    bad = params, bad.opening.packets = 0;
    EXPECT(pie_stage_create("other", &bad, SOCKET_ID_ANY) == NULL && rte_errno == EINVAL);
    bad = params, bad.opening.packets = (1 << 20) + 1;
    EXPECT(pie_stage_create("other", &bad, SOCKET_ID_ANY) == NULL && rte_errno == EINVAL);
    bad = params, bad.opening.profile = 3;
    EXPECT(pie_stage_create("other", &bad, SOCKET_ID_ANY) == NULL && rte_errno == EINVAL);
    bad = params, bad.opening.params.target = 1;
    EXPECT(pie_stage_create("other", &bad, SOCKET_ID_ANY) == NULL && rte_errno == EINVAL);
    bad = params, bad.opening.choices = 32;
    EXPECT(pie_stage_create("other", &bad, SOCKET_ID_ANY) == NULL && rte_errno == EINVAL);
    char name[256];
    memset(name, 'x', sizeof name - 1);
    name[sizeof name - 1] = '\0';
    EXPECT(pie_stage_create(name, &params, SOCKET_ID_ANY) == NULL && rte_errno == ENAMETOOLONG);
    // those of a history
    bad = params, bad.events = PIE_STAGE_MAX_EVENTS + 1;
    EXPECT(pie_stage_create("other", &bad, SOCKET_ID_ANY) == NULL && rte_errno == EINVAL);
    bad = params, bad.events = PIE_STAGE_MAX_EVENTS; // most of a gigabyte
    EXPECT(pie_stage_create("other", &bad, SOCKET_ID_ANY) == NULL && rte_errno == ENOMEM);
    // .. and of a flight recorder
    bad = params, bad.flight = PIE_STAGE_MAX_EVENTS + 1;
    EXPECT(pie_stage_create("other", &bad, SOCKET_ID_ANY) == NULL && rte_errno == EINVAL);
    bad = params, bad.flight = PIE_STAGE_MAX_EVENTS;
    EXPECT(pie_stage_create("other", &bad, SOCKET_ID_ANY) == NULL && rte_errno == ENOMEM);
    unsigned char text[PIE_RECORD_ROOM];
    EXPECT(pie_stage_history(stage, text, sizeof text) == 0); // nothing is recorded
    EXPECT(!pie_stage_history_cut(stage) && !pie_stage_flight_is_asked(stage) && pie_stage_flight(stage, write_to, stdout) == PIE_FLIGHT_NONE);
    pie_stage_free(stage);
    pie_stage_free(NULL);
    stage = stage_of(&params); // the name is free again
    pie_stage_free(stage);
    printf("stage_test: making a stage, and want of memory\n");
}

/* Tests a queue of four packets, and one of 1000 bytes: dropped packets are returned or freed. */
static void test_full(void) {
    for (int hands_back = 0; hands_back <= 1; hands_back++) {
        struct pie_stage_params params;
        struct pie_stage_stats stats;
        struct rte_mbuf *mbufs[6], *kept[6], *out[8];
        unrecorded(&params);
        params.opening.packets = 4;
        params.hands_back = hands_back == 1;
        params.events = hands_back == 1 ? 16 : 0;
        struct pie_stage *stage = stage_of(&params);
        for (int i = 0; i < 6; i++)
            kept[i] = mbufs[i] = plain(i == 1 ? 20 : 100, PIE_ECT0);
        EXPECT(pie_stage_enqueue(stage, mbufs, 6, rte_rdtsc()) == 4);
        EXPECT(rte_mempool_avail_count(pool) == MBUFS - (hands_back ? 6 : 4));
        EXPECT(memcmp(mbufs, kept, sizeof kept) == 0);
        if (hands_back)
            rte_pktmbuf_free_bulk(mbufs + 4, 2);
        EXPECT(pie_stage_dequeue_bytes(stage, out, 8, 101, rte_rdtsc()) == 2 && out[0] == kept[0] && out[1] == kept[1]);
        rte_pktmbuf_free_bulk(out, 2);
        pie_stage_read(stage, &stats);
        EXPECT(stats.queued == 4 && stats.full == 2 && stats.most == 4 && stats.waiting == 2 && stats.waiting_bytes == 200);
        EXPECT(stats.no_ip == (hands_back ? 1 : 0)); // (without picks, headers are read only for a recorder)
        EXPECT(stats.departed == 2 && stats.departed_bytes == 120);
        pie_stage_free(stage); // frees the two that wait
        expect_all_back();
    }
    struct pie_stage_params params;
    struct pie_stage_stats stats;
    unrecorded(&params);
    params.opening.params.limit_bytes = 1000;
    params.hands_back = true;
    struct pie_stage *stage = stage_of(&params);
    struct rte_mbuf *mbufs[5] = {plain(600, 0), plain(600, 0), plain(300, 0), alloc(), NULL}, *kept[5];
    for (int i = 0; i < 64; i++) { // a packet of 65536 bytes
        struct rte_mbuf *segment = alloc();
        EXPECT(rte_pktmbuf_append(segment, 1024) != NULL);
        if (i == 0)
            mbufs[4] = segment;
        else
            EXPECT(rte_pktmbuf_chain(mbufs[4], segment) == 0);
    }
    memcpy(kept, mbufs, sizeof kept);
    EXPECT(pie_stage_enqueue(stage, mbufs, 5, rte_rdtsc()) == 2);
    EXPECT(mbufs[0] == kept[0] && mbufs[1] == kept[2] && mbufs[2] == kept[1] && mbufs[3] == kept[3] && mbufs[4] == kept[4]);
    rte_pktmbuf_free_bulk(mbufs + 2, 3);
    pie_stage_read(stage, &stats);
    EXPECT(stats.queued == 2 && stats.bytes == 1 && stats.oversized == 2 && stats.refused == 0);
    pie_stage_free(stage);
    expect_all_back();
    printf("stage_test: a full queue, oversized packets, and returned mbufs\n");
}

/* A link of 100 Mbit/s with twice its load, for a simulated second with marks up to the probability 1: packets are marked, and those that
 * cannot be are dropped. Every third packet cannot carry a mark, of these half since their header is shared. */
static void test_decisions(uint32_t events, uint32_t flight) {
    struct pie_stage_params params;
    struct pie_stage_stats stats;
    unrecorded(&params);
    params.opening.params.mark_ecnth = PIE_ONE;
    params.opening.params.max_burst = 0;
    params.opening.params.target = 1000000;
    params.opening.params.t_update = 1000000;
    params.events = events;
    params.flight = flight;
    struct pie_stage *stage = stage_of(&params);
    struct content content = {0};
    char name[64];
    FILE *file = events != 0 ? open_history(flight != 0 ? "decisions-both" : "decisions") : NULL;
    uint64_t hz = rte_get_tsc_hz(), start = rte_rdtsc(), marked = 0, in = 0, out = 0, shared = 0;
    for (uint64_t i = 0; i < 12500; i++) { // a packet of 1000 bytes takes the link 80 us
        uint64_t now = start + i * hz / 12500;
        struct rte_mbuf *pair[2], *left, *clone = NULL;
        for (int k = 0; k < 2; k++, in++) {
            pair[k] = plain(1000, in % 3 == 0 ? PIE_NOT_ECT : in % 3 == 1 ? PIE_ECT1 : PIE_ECT0);
            if (in % 6 == 1) {
                clone = rte_pktmbuf_clone(pair[k], pool);
                shared++;
            }
        }
        pie_stage_enqueue(stage, pair, 2, now);
        rte_pktmbuf_free(clone);
        if (pie_stage_dequeue(stage, &left, 1, now) == 1) {
            struct stage_packet packet = stage_packet_look(left);
            const struct rte_ipv4_hdr *header = rte_pktmbuf_mtod_offset(left, struct rte_ipv4_hdr *, 14);
            uint32_t sum = rte_raw_cksum(header, 24);
            EXPECT(packet.version == 4 && (sum == 0xffff || sum == 0));
            marked += packet.ecn == PIE_CE;
            rte_pktmbuf_free(left);
            out++;
        }
        if (flight != 0 && i % 500 == 0) {
            snprintf(name, sizeof name, "decisions-%" PRIu32 "-%" PRIu32 "-%" PRIu64, events, flight, i);
            expect_flight(stage, name, RTE_MAX(flight, events));
        }
    }
    pie_stage_read(stage, &stats);
    EXPECT(stats.queued + stats.early + stats.bytes + stats.full == in && stats.departed == out);
    EXPECT(events != 0 || flight != 0 ? stats.shared == shared : stats.shared <= shared && stats.shared > shared / 2);
    EXPECT(stats.marked > 500 && stats.early > 500 && stats.updates > 900 && stats.updates <= 1000);
    EXPECT(stats.prob > 0 && stats.no_ip == 0 && stats.refused == 0);
    EXPECT(stats.marked >= marked && stats.marked - marked <= stats.waiting && stats.waiting == stats.queued - out);
    if (events != 0) {
        take_history(stage, file, &content);
        EXPECT(fclose(file) == 0 && content.gaps == 0);
        expect_history(stage, &content);
    }
    pie_stage_free(stage);
    expect_all_back();
    printf("stage_test: decisions%s%s (%" PRIu64 " marked, %" PRIu64 " dropped early)\n", events != 0 ? ", recorded" : "",
           flight != 0 ? ", with a flight recorder" : "", stats.marked, stats.early);
}

/* Tests a burst that makes the update that raises the probability above 0, and has packets that are then picked: the
 * packets must be marked, and not dropped because no header was read. */
static void test_first_marks(void) {
    struct pie_stage_params params;
    struct pie_stage_stats stats;
    struct rte_mbuf *mbufs[32];
    unrecorded(&params);
    params.opening.choices = PIE_DELAY_STAMP | PIE_PICK_RANDOM | PIE_STEP_UNCAPPED;
    params.opening.params.mark_ecnth = PIE_ONE;
    params.opening.params.max_burst = 0;
    params.opening.params.alpha = 0;
    params.opening.params.beta = 1000000;
    struct pie_stage *stage = stage_of(&params);
    uint64_t hz = rte_get_tsc_hz(), now = rte_rdtsc();
    for (int i = 0; i < 32; i++)
        mbufs[i] = plain(200, PIE_ECT0);
    EXPECT(pie_stage_enqueue(stage, mbufs, 32, now) == 32 && pie_stage_dequeue(stage, mbufs, 1, now + hz) == 1);
    rte_pktmbuf_free(mbufs[0]);
    pie_stage_read(stage, &stats);
    EXPECT(stats.prob == 0 && stats.no_ip == 0);
    for (int i = 0; i < 32; i++)
        mbufs[i] = plain(i == 0 ? 20 : 200, PIE_ECT0);
    EXPECT(pie_stage_enqueue(stage, mbufs, 32, now + hz + hz / 10) >= 31); // a probability of 0.49
    pie_stage_read(stage, &stats);
    EXPECT(stats.prob > PIE_ONE / 3 && stats.marked > 0 && stats.early <= 1 && stats.no_ip == 1);
    pie_stage_free(stage);
    expect_all_back();
    printf("stage_test: the first marks\n");
}

/* Unusual events, recorded: packets without IP, oversized ones, a full queue, a clock that jumps
 * back; then a history that nobody writes, so that events are overwritten: the gap must be
 * reported, also one at the end. */
static void test_record(void) {
    struct pie_stage_params params;
    struct pie_stage_stats stats;
    struct content content = {0};
    unrecorded(&params);
    params.opening.packets = 4;
    params.events = 16;
    struct pie_stage *stage = stage_of(&params);
    uint64_t hz = rte_get_tsc_hz(), now = rte_rdtsc() + hz;
    struct rte_mbuf *mbufs[7], *out[8];
    FILE *file = open_history("odd");
    for (int i = 0; i < 7; i++)
        mbufs[i] = i == 6 ? alloc() : plain(i == 1 ? 20 : 100, PIE_ECT0); // the last has no bytes and is not decided
    EXPECT(pie_stage_enqueue(stage, mbufs, 7, now) == 4 && pie_stage_dequeue(stage, out, 2, now - hz) == 2);
    rte_pktmbuf_free_bulk(out, 2);
    EXPECT(pie_stage_update(stage, now + hz));
    take_history(stage, file, &content);
    pie_stage_read(stage, &stats);
    EXPECT(fclose(file) == 0 && content.lines == 11 && stats.oversized == 1 && stats.earlier == 1 && stats.full == 2);
    expect_history(stage, &content);
    pie_stage_free(stage);
    stage = stage_of(&params);
    content = (struct content){0};
    file = open_history("gap");
    for (int round = 0; round < 20; round++) {
        for (int i = 0; i < 7; i++)
            mbufs[i] = plain(100, PIE_NOT_ECT);
        uint32_t queued = pie_stage_enqueue(stage, mbufs, 7, now + hz);
        EXPECT(queued <= 4 && pie_stage_dequeue(stage, out, 8, now + hz) == queued);
        rte_pktmbuf_free_bulk(out, queued);
    }
    pie_stage_read(stage, &stats);
    EXPECT(stats.lost > 0);
    take_history(stage, file, &content);
    EXPECT(content.gaps == 1 && content.lost >= stats.lost);
    EXPECT(pie_stage_update(stage, now + 2 * hz));
    take_history(stage, file, &content);
    EXPECT(content.gaps == 1);
    for (int i = 0; i < 200; i++)
        EXPECT(pie_stage_update(stage, now + (uint64_t)(3 + i) * hz));
    take_history(stage, file, &content);
    EXPECT(fclose(file) == 0 && content.gaps == 2);
    expect_history(stage, &content);
    pie_stage_free(stage);
    expect_all_back();
    printf("stage_test: the record, and events that are missed\n");
}

/* The flight recorder with unusual events: packets without IP, oversized ones, a full queue, a
 * clock that jumps back, bursts of more than 32 packets, and fewer events than a burst has. A
 * packet that waits too long requests the text. */
static void test_flight(uint32_t flight) {
    struct pie_stage_params params;
    struct pie_stage_stats stats;
    struct rte_mbuf *mbufs[100], *out[100];
    char name[64];
    unrecorded(&params);
    params.opening.packets = 90;
    params.flight = flight;
    params.flight_wait = 20000000;
    struct pie_stage *stage = stage_of(&params);
    uint64_t hz = rte_get_tsc_hz(), now = rte_rdtsc() + hz;
    snprintf(name, sizeof name, "flight-%" PRIu32 "-0", flight);
    expect_flight(stage, name, flight);
    for (int round = 1; round <= 12; round++, now += hz / 100) {
        for (int i = 0; i < 100; i++)
            mbufs[i] = i == 7 ? alloc() : plain(i == 3 ? 20 : (uint16_t)(100 + i), i % 3 == 0 ? PIE_ECT0 : PIE_NOT_ECT);
        uint32_t queued = pie_stage_enqueue(stage, mbufs, 100, now);
        EXPECT(queued > 0 && queued <= 90);
        uint32_t taken = pie_stage_dequeue(stage, out, round % 3 == 0 ? 100 : 70, round % 2 == 0 ? now : now - hz);
        rte_pktmbuf_free_bulk(out, taken);
        snprintf(name, sizeof name, "flight-%" PRIu32 "-%d", flight, round);
        expect_flight(stage, name, flight);
    }
    EXPECT(!pie_stage_flight_is_asked(stage));
    uint32_t taken = pie_stage_dequeue_bytes(stage, out, 100, 1, now + hz); // (one waited since the last round)
    if (taken == 0) {
        mbufs[0] = plain(100, 0);
        EXPECT(pie_stage_enqueue(stage, mbufs, 1, now + hz) == 1 && pie_stage_dequeue(stage, out, 1, now + 2 * hz) == 1);
    }
    rte_pktmbuf_free(out[0]);
    EXPECT(pie_stage_flight_is_asked(stage) && !pie_stage_flight_is_asked(stage));
    pie_stage_read(stage, &stats);
    EXPECT(stats.oversized == 12 && stats.no_ip == 24 && stats.full > 0 && stats.earlier > 0 && stats.lost == 0);
    FILE *full = fopen("/dev/full", "w");
    EXPECT(full != NULL && setvbuf(full, NULL, _IONBF, 0) == 0 && pie_stage_flight(stage, write_to, full) == PIE_FLIGHT_STOPPED);
    fclose(full);
    pie_stage_free(stage);
    expect_all_back();
    printf("stage_test: the flight recorder of %" PRIu32 " events\n", flight);
}

/* A history that is cut: each text can be audited alone, none lacks an event, and a gap stays in
 * the text before the cut. */
static void test_cut(void) {
    struct pie_stage_params params;
    struct rte_mbuf *mbufs[8], *out[8];
    char name[64];
    uint64_t last = 0;
    unrecorded(&params);
    params.opening.params.target = 1000000;
    params.opening.params.t_update = 1000000;
    params.opening.params.max_burst = 0;
    params.opening.packets = 100;
    params.events = 1024;
    struct pie_stage *stage = stage_of(&params);
    struct content content = {0};
    uint64_t hz = rte_get_tsc_hz(), now = rte_rdtsc(), lost = 0;
    EXPECT(!pie_stage_history_cut(stage)); // (nothing was written yet)
    FILE *file = open_history("cut-0");
    for (int round = 0; round < 400; round++, now += hz / 2500) {
        for (int i = 0; i < 8; i++)
            mbufs[i] = plain(1000, i % 2 == 0 ? PIE_ECT0 : PIE_NOT_ECT);
        pie_stage_enqueue(stage, mbufs, 8, now);
        rte_pktmbuf_free_bulk(out, pie_stage_dequeue(stage, out, 5, now));
        params.opening.params.target = 1000000 + (uint64_t)round;
        EXPECT(round % 7 != 0 || pie_stage_set_params(stage, &params.opening.params, now) == PIE_DONE);
        if (round == 250) { // more than may be pending
            for (int i = 0; i < 2000; i++)
                EXPECT(pie_stage_update(stage, now += hz / 500));
            lost = content.lost;
        }
        if (round % 50 != 0)
            continue;
        take_history(stage, file, &content);
        EXPECT(pie_stage_history_cut(stage) && !pie_stage_history_cut(stage));
        take_history(stage, file, &content);
        EXPECT(fclose(file) == 0);
        if (round > 0) {
            struct resumed resumed = read_resumed(name);
            EXPECT(resumed.before == last);
            struct pie_stage_stats stats;
            pie_stage_read(stage, &stats);
            last = events_of(&stats);
            EXPECT(content.gaps != 0 || resumed.before + resumed.events == last);
        } else {
            last = content.lines - 1;
        }
        EXPECT((content.gaps != 0) == (round == 250) && content.lost >= lost && content.clocks == 1);
        content = (struct content){0};
        snprintf(name, sizeof name, "cut-%d", round + 1);
        file = open_history(name);
    }
    take_history(stage, file, &content);
    EXPECT(fclose(file) == 0 && content.gaps == 0 && read_resumed(name).before == last);
    pie_stage_free(stage);
    expect_all_back();
    printf("stage_test: a history that is cut\n");
}

/* Tests the pace of pie-fwd: the average rate is right, and it makes up for 10 ms of a pause of a second. */
static void test_pace(void) {
    uint64_t now = 1000, bytes = 0;
    struct fwd_pace pace = fwd_pace_of(8e6, 1e9, now); // a byte a microsecond
    for (int i = 0; i < 100000; i++, now += 7000) {
        uint64_t most = fwd_pace_bytes(&pace, now), moved = most == 0 ? 0 : most + (uint64_t)i % 100; // the last packet exceeds it
        fwd_pace_move(&pace, moved);
        bytes += moved;
    }
    EXPECT(bytes >= 699800 && bytes <= 700200);
    now += 1000000000;
    uint64_t most = fwd_pace_bytes(&pace, now);
    EXPECT(most >= 9999 && most <= 10001);
    fwd_pace_move(&pace, most);
    EXPECT(fwd_pace_bytes(&pace, now) == 0);
    fwd_pace_rest(&pace, now + 500000);
    EXPECT(fwd_pace_bytes(&pace, now + 500000) == 1);
    printf("stage_test: the pace of pie-fwd\n");
}

/* Tests that each wait is counted once, in the first bucket with a bound of at least the wait. */
static void test_waits(void) {
    struct pie_stage_params params;
    struct pie_stage_stats before = {0}, after;
    unrecorded(&params);
    params.opening.params.target = UINT64_C(10000000000);
    struct pie_stage *stage = stage_of(&params);
    uint64_t hz = rte_get_tsc_hz(), now = rte_rdtsc(), found = 0;
    for (int i = 0; i < 3000; i++) {
        uint64_t near = (uint64_t)((double)pie_wait_bound((uint32_t)i % PIE_WAIT_SORTS) / 1e9 * (double)hz);
        struct rte_mbuf *mbuf = plain(100, 0);
        EXPECT(pie_stage_enqueue(stage, &mbuf, 1, now) == 1);
        now += i < 13 ? 0 : near + (uint64_t)(i % 7) * 2 - 6;
        EXPECT(pie_stage_dequeue(stage, &mbuf, 1, now) == 1);
        rte_pktmbuf_free(mbuf);
        pie_stage_read(stage, &after);
        uint64_t wait = after.waited - before.waited;
        uint32_t sort = 0;
        while (sort + 1 < PIE_WAIT_SORTS && wait > pie_wait_bound(sort))
            sort++;
        before.waits[sort]++;
        EXPECT(memcmp(before.waits, after.waits, sizeof after.waits) == 0);
        before.waited = after.waited;
    }
    for (uint32_t sort = 0; sort < PIE_WAIT_SORTS; sort++)
        found += before.waits[sort] != 0;
    EXPECT(found == PIE_WAIT_SORTS);
    pie_stage_free(stage);
    expect_all_back();
    printf("stage_test: waits by their sorts\n");
}

/* Tests new parameters while packets are queued: they are in force from then on, history and flight
 * recorder contain them, and a refused call changes nothing. */
static void test_params(uint32_t events, uint32_t flight) {
    struct pie_stage_params params;
    struct pie_params wanted, found;
    struct pie_stage_stats stats;
    struct content content = {0};
    struct rte_mbuf *mbufs[8], *out[8];
    char name[64];
    unrecorded(&params);
    params.events = events;
    params.flight = flight;
    struct pie_stage *stage = stage_of(&params);
    snprintf(name, sizeof name, "params-%" PRIu32 "-%" PRIu32, events, flight);
    FILE *file = events != 0 ? open_history(name) : NULL;
    uint64_t hz = rte_get_tsc_hz(), now = rte_rdtsc();
    wanted = params.opening.params;
    for (int round = 0; round < 200; round++, now += hz / 1000) {
        for (int i = 0; i < 8; i++)
            mbufs[i] = plain(1000, i % 2 == 0 ? PIE_ECT0 : PIE_NOT_ECT);
        pie_stage_enqueue(stage, mbufs, 8, now);
        rte_pktmbuf_free_bulk(out, pie_stage_dequeue(stage, out, 7, now));
        if (round % 40 != 20)
            continue;
        wanted.target = 1000000 + (uint64_t)round * 1000;
        wanted.t_update = 2000000 - (uint64_t)round;
        wanted.max_burst = 0;
        wanted.limit_bytes = 100000 + (uint64_t)round;
        wanted.dq_threshold = round == 100 ? 1024 : 65536;
        EXPECT(pie_stage_set_params(stage, &wanted, now) == PIE_DONE);
        struct pie_params bad = wanted;
        bad.target = 1;
        EXPECT(pie_stage_set_params(stage, &bad, now) == PIE_BAD_PARAMS);
        pie_stage_read_params(stage, &found);
        pie_stage_read(stage, &stats);
        EXPECT(memcmp(&found, &wanted, sizeof found) == 0 && stats.target == wanted.target && stats.changes == 1 + (uint64_t)round / 40);
        uint64_t updates = stats.updates;
        EXPECT(pie_stage_update(stage, now + wanted.t_update * hz / 500000000)); // (two of the new t_update later)
        now += wanted.t_update * hz / 500000000;
        pie_stage_read(stage, &stats);
        EXPECT(stats.updates == updates + 1);
    }
    EXPECT(stats.changes == 5 && stats.bytes > 0); // (the new limit drops)
    if (file != NULL) {
        take_history(stage, file, &content);
        EXPECT(fclose(file) == 0);
        expect_history(stage, &content);
    }
    if (flight != 0)
        expect_flight(stage, strcat(name, "-flight"), flight);
    pie_stage_free(stage);
    expect_all_back();
    printf("stage_test: new parameters%s%s\n", events != 0 ? ", recorded" : "", flight != 0 ? ", with a flight recorder" : "");
}

/* Tests that each update is counted in the first bucket with a bound of at least its probability. */
static void test_sorts(void) {
    struct pie_stage_params params;
    struct pie_stage_stats stats;
    struct rte_mbuf *mbufs[32], *out[32];
    EXPECT(pie_prob_bound(0) == 100000000 && pie_prob_bound(4) == 2000000000 && pie_prob_bound(11) == PIE_ONE / 2);
    unrecorded(&params);
    params.opening.params.max_burst = 0;
    struct pie_stage *stage = stage_of(&params);
    uint64_t hz = rte_get_tsc_hz(), now = rte_rdtsc(), sum = 0, sorts[PIE_PROB_SORTS] = {0}, bytes = 0;
    for (int round = 0; round < 3000; round++, now += hz / 500) {
        for (int i = 0; i < 32; i++, bytes += 1000)
            mbufs[i] = plain(1000, PIE_NOT_ECT);
        pie_stage_enqueue(stage, mbufs, 32, now);
        rte_pktmbuf_free_bulk(out, pie_stage_dequeue(stage, out, round < 2000 ? 25 : 32, now));
        pie_stage_read(stage, &stats);
        uint64_t before = 0;
        for (uint32_t sort = 0; sort < PIE_PROB_SORTS; sort++)
            before += sorts[sort];
        if (stats.updates == before)
            continue;
        EXPECT(stats.updates == before + 1);
        uint32_t sort = 0;
        while (sort + 1 < PIE_PROB_SORTS && stats.prob > pie_prob_bound(sort))
            sort++;
        sorts[sort]++;
        sum += stats.prob;
        EXPECT(memcmp(sorts, stats.probs, sizeof sorts) == 0 && stats.probs_sum == sum && stats.probs_high == 0);
    }
    EXPECT(stats.early > 0 && stats.departed_bytes + stats.waiting_bytes + stats.dropped_bytes == bytes);
    pie_stage_free(stage);
    expect_all_back();
    printf("stage_test: probabilities by their sorts\n");
}

/* Tests that updates are made when due, by enqueuing, dequeuing, or a timer. */
static void test_updates(void) {
    struct pie_stage_params params;
    struct pie_stage_stats stats;
    unrecorded(&params);
    struct pie_stage *stage = stage_of(&params);
    uint64_t hz = rte_get_tsc_hz(), start = rte_rdtsc();
    EXPECT(!pie_stage_update(stage, start));
    EXPECT(pie_stage_update(stage, start + hz / 60) && !pie_stage_update(stage, start + hz / 60));
    struct rte_mbuf *mbuf = plain(100, 0);
    EXPECT(pie_stage_enqueue(stage, &mbuf, 1, start + hz) == 1 && pie_stage_dequeue(stage, &mbuf, 1, start + 2 * hz) == 1);
    pie_stage_read(stage, &stats);
    EXPECT(stats.updates == 3 && stats.late == 2);
    rte_pktmbuf_free(mbuf);
    pie_stage_free(stage);
    expect_all_back();
    printf("stage_test: updates\n");
}

int main(int count, char **words) {
    int read = rte_eal_init(count, words);
    if (read < 0) {
        fprintf(stderr, "stage_test: EAL: %s\n", rte_strerror(rte_errno));
        return 1;
    }
    setvbuf(stdout, NULL, _IOLBF, 0);
    pool = rte_pktmbuf_pool_create("pool", MBUFS, 0, 0, RTE_MBUF_DEFAULT_BUF_SIZE, SOCKET_ID_ANY);
    EXPECT(pool != NULL);
    EXPECT(count - read >= 2);
    folder = words[read + 1];
    if (count - read == 2) {
        test_words();
        test_create();
        test_clock();
        test_marks();
        test_no_ip();
        test_shared();
        test_full();
        test_decisions(0, 0);
        test_decisions(1 << 16, 0);
        test_decisions(0, 3000);
        test_decisions(1 << 16, 100);
        test_first_marks();
        test_updates();
        test_params(0, 0);
        test_params(1 << 14, 0);
        test_params(0, 100);
        test_params(1 << 14, 5000);
        test_waits();
        test_sorts();
        test_record();
        test_flight(1);
        test_flight(50);
        test_flight(1000);
        test_cut();
        test_pace();
        test_queues();
        test_records();
        test_flows(1 << 14, 0);
        test_flows(0, 50);
        test_threads(800, 0, 0, 0);
        test_threads(800, 0, 2000, 0);
    }
    test_cut_beside(10);
    test_threads(300, 1 << 14, 0, 0);
    test_threads(300, 0, 4000, 0);
    test_threads(300, 0, 0, 500000);
    test_threads(300, 1 << 14, 4000, 1000000);
    rte_mempool_free(pool);
    rte_eal_cleanup();
    return 0;
}
