#include "stage_test.h"

#include <inttypes.h>
#include <rte_cycles.h>
#include <string.h>

#define FLOW_FACTOR UINT32_C(2654435761) /* a packet's flow is its size times this factor */

/* Returns the position of a field in the header row. */
static int place_of(const char *header, const char *field) {
    char row[PIE_RESUME_ROOM], *rest = row;
    int place = 0;
    strcpy(row, header);
    for (const char *it; (it = strsep(&rest, ",\n")) != NULL; place++)
        if (strcmp(it, field) == 0)
            return place;
    EXPECT(false);
    return 0;
}

static uint64_t field_of(const char *row, int place) {
    for (; place > 0; place--)
        row = strchr(row, ',') + 1;
    return strtoull(row, NULL, 10);
}

void take_records(struct pie_stage *stage, bool is_over, FILE *file, struct summed *summed) {
    static const char *const fields[] = {"arrivals", "left", "updates", "turned_off"};
    char row[PIE_RESUME_ROOM + 1];
    size_t size;
    while ((size = pie_stage_record(stage, is_over, (unsigned char *)row, PIE_RESUME_ROOM)) != 0) {
        EXPECT(row[size - 1] == '\n' && fwrite(row, 1, size, file) == size);
        row[size] = '\0';
        if (memcmp(row, "lost,", 5) == 0) {
            summed->gaps++;
            summed->lost += field_of(row, 1);
        } else if (summed->places[0] == 0) {
            for (int i = 0; i < 4; i++)
                summed->places[i] = place_of(row, fields[i]);
        } else {
            summed->records++;
            summed->arrivals += field_of(row, summed->places[0]);
            summed->left += field_of(row, summed->places[1]);
            summed->updates += field_of(row, summed->places[2]);
            summed->turned_off += field_of(row, summed->places[3]);
        }
    }
}

void expect_summed(struct pie_stage *stage, const struct summed *summed) {
    struct pie_stage_stats stats;
    pie_stage_read(stage, &stats);
    uint64_t arrivals = stats.queued + stats.early + stats.bytes + stats.full;
    EXPECT(summed->records > 0 && summed->lost == stats.lost_periods && (summed->lost == 0) == (summed->gaps == 0));
    EXPECT(summed->lost != 0 || (summed->arrivals == arrivals && summed->left == stats.departed && summed->updates == stats.updates));
    EXPECT(summed->arrivals <= arrivals && summed->left <= stats.departed && summed->updates <= stats.updates);
}

/* Cuts the history, and opens the file of the next text. */
static FILE *next_part(struct pie_stage *stage, FILE *history, struct content *content, const char *name, int part) {
    char next[96];
    take_history(stage, history, content);
    EXPECT(pie_stage_history_cut(stage));
    take_history(stage, history, content);
    EXPECT(fclose(history) == 0);
    snprintf(next, sizeof next, "%s-%d", name, part);
    return open_history(next);
}

/* Fills and drains a queue whose events are summed in intervals of `every` ns, while parameters change, the clock
 * stops, goes back and jumps, and the history, if there is one, is cut. For `silent` rounds no thread writes the
 * records. Writes files with this name, and the history in parts. */
static void sum_up(const char *kind, uint64_t every, uint64_t profile, uint32_t events, int silent) {
    struct pie_stage_params params;
    struct content content = {0};
    struct summed summed = {0};
    struct rte_mbuf *mbufs[8], *out[16];
    char name[64];
    int part = 0;
    snprintf(name, sizeof name, "records-%" PRIu64 "-%s", every, kind);
    unrecorded(&params);
    params.opening.profile = profile;
    params.opening.choices = PIE_USUAL; // (by the departure rate the delay is 0 soon enough for the controller to turn off)
    params.opening.packets = 200;
    params.opening.params.limit_bytes = 100000;
    params.opening.params.target = params.opening.params.t_update = 2000000;
    params.opening.params.max_burst = 5000000;
    params.events = events;
    params.every = every;
    struct pie_stage *stage = stage_of(&params);
    FILE *records = open_text(name, "records"), *history = events != 0 ? open_history(name) : NULL;
    uint64_t hz = rte_get_tsc_hz(), now = rte_rdtsc();
    for (int round = 0; round < 1200; round++, now += round == 500 ? hz : round % 11 == 0 ? 0 : hz / 2000) {
        int count = round % 400 < 250 ? 8 : 1;
        for (int i = 0; i < count; i++)
            mbufs[i] = round % 90 == 0 && i == 0 ? plain(20, 0) : plain((uint16_t)(400 + 20 * i), i % 2 == 0 ? PIE_ECT0 : PIE_NOT_ECT);
        pie_stage_enqueue(stage, mbufs, (uint32_t)count, now);
        rte_pktmbuf_free_bulk(out, pie_stage_dequeue(stage, out, round % 400 < 250 ? 5 : 16, round % 3 == 0 ? now - hz / 1000 : now));
        if (round % 150 == 100) {
            params.opening.params.target += 100000;
            params.opening.params.limit_bytes += 1000;
            EXPECT(pie_stage_set_params(stage, &params.opening.params, now) == PIE_DONE);
        }
        if (history != NULL && round % 300 == 299)
            history = next_part(stage, history, &content, name, ++part);
        if (round % 40 == 0 && (round < 600 || round >= 600 + silent))
            take_records(stage, false, records, &summed);
    }
    take_records(stage, true, records, &summed);
    EXPECT(fclose(records) == 0 && pie_stage_record(stage, true, (unsigned char[PIE_RESUME_ROOM]){0}, PIE_RESUME_ROOM) == 0);
    if (history != NULL) {
        take_history(stage, history, &content);
        EXPECT(fclose(history) == 0 && content.gaps == 0);
    }
    expect_summed(stage, &summed);
    EXPECT((summed.lost != 0) == (silent != 0) && summed.records >= 40 && (summed.turned_off != 0) == (profile == PIE_ON_AND_OFF));
    pie_stage_free(stage);
    expect_all_back();
}

/* Tests events less than a nanosecond apart: those at the very end of an interval belong to the next one. */
static void sum_up_closely(void) {
    struct pie_stage_params params;
    struct content content = {0};
    struct summed summed = {0};
    unrecorded(&params);
    params.events = 1 << 16;
    params.every = 1000;
    struct pie_stage *stage = stage_of(&params);
    FILE *records = open_text("records-1000-close", "records"), *history = open_history("records-1000-close");
    uint64_t start = rte_rdtsc();
    for (uint64_t now = start; now < start + rte_get_tsc_hz() / 100000; now++) {
        struct rte_mbuf *mbuf = plain(100, PIE_NOT_ECT);
        EXPECT(pie_stage_enqueue(stage, &mbuf, 1, now) == 1 && pie_stage_dequeue(stage, &mbuf, 1, now) == 1);
        rte_pktmbuf_free(mbuf);
        take_records(stage, false, records, &summed);
    }
    take_records(stage, true, records, &summed);
    take_history(stage, history, &content);
    EXPECT(fclose(records) == 0 && fclose(history) == 0 && content.gaps == 0 && summed.lost == 0 && summed.records >= 10);
    expect_summed(stage, &summed);
    pie_stage_free(stage);
    expect_all_back();
}

void test_records(void) {
    unsigned char text[PIE_RESUME_ROOM];
    struct pie_stage_params params, bad;
    unrecorded(&params);
    struct pie_stage *stage = stage_of(&params);
    EXPECT(pie_stage_record(stage, true, text, sizeof text) == 0); // (no records were requested)
    pie_stage_free(stage);
    bad = params, bad.every = PIE_MAX_MOMENT + 1;
    EXPECT(pie_stage_create("other", &bad, SOCKET_ID_ANY) == NULL);
    params.every = PIE_MAX_MOMENT;
    stage = stage_of(&params);
    EXPECT(pie_stage_record(stage, true, text, sizeof text - 1) == 0 && pie_stage_record(stage, true, text, sizeof text) != 0);
    EXPECT(pie_stage_record(stage, true, text, sizeof text) == 0); // (no event, no record)
    pie_stage_free(stage);
    sum_up("always", 7000000, PIE_ALWAYS_ON, 1 << 14, 0);
    sum_up("off", 5000000, PIE_ON_AND_OFF, 1 << 14, 0);
    sum_up("silent", 3000000, PIE_ALWAYS_ON, 1 << 14, 200);
    sum_up("alone", 7000000, PIE_ALWAYS_ON, 0, 0);
    sum_up_closely();
    printf("stage_test: records of periods\n");
}

static int asked;

static uint32_t flow_of(void *user, const struct rte_mbuf *mbuf) {
    EXPECT(user == &asked);
    asked++;
    return rte_pktmbuf_pkt_len(mbuf) * FLOW_FACTOR;
}

/* Checks that the tag of each packet of a text has its flow in the high bits and its number in the low ones. Returns
 * the number of lines with packets. */
static uint64_t expect_flows(const char *name) {
    char path[4096], line[2048];
    uint64_t tag, size, lines = 0, last = 0;
    snprintf(path, sizeof path, "%s/%s.history", folder, name);
    FILE *file = fopen(path, "r");
    EXPECT(file != NULL);
    while (fgets(line, sizeof line, file) != NULL) {
        bool arrives = sscanf(line, "arrive,%*u,%*u,%" SCNu64 ",%" SCNu64, &tag, &size) == 2;
        if (!arrives && sscanf(line, "depart,%*u,%*u,left,%" SCNu64 ",%" SCNu64, &tag, &size) != 2 &&
            sscanf(line, "queued,%" SCNu64 ",%" SCNu64, &tag, &size) != 2)
            continue;
        EXPECT(tag >> 32 == (uint32_t)((uint32_t)size * FLOW_FACTOR));
        EXPECT(!arrives || last == 0 || (uint32_t)tag == last + 1);
        last = arrives ? (uint32_t)tag : last;
        lines++;
    }
    fclose(file);
    return lines;
}

/* Tests the flows in the tags of a history with cuts (`events` above 0) and of the flight recorder's texts. The queue
 * is full at times. */
void test_flows(uint32_t events, uint32_t flight) {
    struct pie_stage_params params;
    struct content content = {0};
    struct rte_mbuf *mbufs[40], *out[32];
    char name[64];
    uint64_t now = rte_rdtsc();
    asked = 0;
    unrecorded(&params);
    params.opening.packets = 90;
    params.flow = flow_of;
    params.flow_user = &asked;
    struct pie_stage *stage = stage_of(&params);
    mbufs[0] = plain(100, 0);
    EXPECT(pie_stage_enqueue(stage, mbufs, 1, now) == 1 && asked == 0); // (a stage that keeps no events requests no flow)
    pie_stage_free(stage);
    params.events = events;
    params.flight = flight;
    stage = stage_of(&params);
    FILE *file = events != 0 ? open_history("flows-0") : NULL;
    for (int round = 1; round <= 300; round++, now += rte_get_tsc_hz() / 5000) {
        for (int i = 0; i < 40; i++)
            mbufs[i] = i == 5 ? alloc() : plain((uint16_t)(100 + round % 7 * 100 + i), i % 3 == 0 ? PIE_ECT0 : PIE_NOT_ECT); // (one has no bytes)
        pie_stage_enqueue(stage, mbufs, 40, now);
        rte_pktmbuf_free_bulk(out, pie_stage_dequeue(stage, out, (uint32_t)(10 + round % 23), now));
        if (flight != 0 && round % 50 == 0) {
            snprintf(name, sizeof name, "flows-flight-%d", round);
            EXPECT(expect_flight(stage, name, flight).queued > 10 && expect_flows(name) >= flight);
        }
        if (events != 0 && round % 100 == 0)
            file = next_part(stage, file, &content, "flows", round);
    }
    EXPECT(asked == 300 * 40);
    if (events != 0) {
        take_history(stage, file, &content);
        EXPECT(fclose(file) == 0 && content.gaps == 0);
        EXPECT(expect_flows("flows-0") > 3000 && expect_flows("flows-100") > 3000 && expect_flows("flows-200") > 3000);
    }
    pie_stage_free(stage);
    expect_all_back();
    printf("stage_test: flows%s\n", flight != 0 ? ", with a flight recorder" : "");
}
