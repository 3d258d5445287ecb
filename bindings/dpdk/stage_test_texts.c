#include "stage_test.h"

#include <string.h>
#include <time.h>

void unrecorded(struct pie_stage_params *params) {
    pie_stage_default_params(params, 100000000);
    EXPECT(params->flight == PIE_STAGE_FLIGHT);
    params->flight = 0;
}

struct pie_stage *stage_of(struct pie_stage_params *params) {
    struct pie_stage *stage = pie_stage_create("test", params, SOCKET_ID_ANY);
    EXPECT(stage != NULL);
    return stage;
}

void take_history(struct pie_stage *stage, FILE *file, struct content *content) {
    unsigned char text[4096];
    size_t size;
    while ((size = pie_stage_history(stage, text, sizeof text)) != 0) {
        EXPECT(size <= sizeof text && text[size - 1] == '\n' && fwrite(text, 1, size, file) == size);
        for (unsigned char *line = text; line < text + size; line = (unsigned char *)memchr(line, '\n', size) + 1) {
            bool is_clock = memcmp(line, "clock,", 6) == 0;
            content->lines += !is_clock;
            content->clocks += is_clock;
            if (memcmp(line, "lost,", 5) == 0) {
                content->gaps++;
                content->lost += strtoull((const char *)line + 5, NULL, 10);
            }
        }
    }
}

FILE *open_text(const char *name, const char *ending) {
    char path[4096];
    snprintf(path, sizeof path, "%s/%s.%s", folder, name, ending);
    FILE *file = fopen(path, "w");
    EXPECT(file != NULL);
    return file;
}

FILE *open_history(const char *name) {
    return open_text(name, "history");
}

uint64_t events_of(const struct pie_stage_stats *stats) {
    return stats->queued + stats->early + stats->bytes + stats->full + stats->departed + stats->updates + stats->changes;
}

int write_to(void *user, const unsigned char *bytes, size_t count) {
    return fwrite(bytes, 1, count, user) == count ? 0 : 1;
}

/* Returns true if a line `clock,<moment>,<unix>` was written in the last minutes. */
static bool is_now(const char *line) {
    const char *time_of_day = strchr(strchr(line, ',') + 1, ',') + 1;
    uint64_t seconds = strtoull(time_of_day, NULL, 10) / 1000000000u, now = (uint64_t)time(NULL);
    return seconds <= now + 1 && now < seconds + 300; // (`time` may be some milliseconds late)
}

struct resumed read_resumed(const char *name) {
    struct resumed resumed = {0};
    char path[4096], line[2048];
    snprintf(path, sizeof path, "%s/%s.history", folder, name);
    FILE *file = fopen(path, "r");
    EXPECT(file != NULL && fgets(line, sizeof line, file) != NULL && strncmp(line, "resume,", 7) == 0);
    char *at = line;
    for (int field = 0; field < 29; field++)
        at = strchr(at, ',') + 1;
    resumed.before = strtoull(at, NULL, 10);
    while (fgets(line, sizeof line, file) != NULL) {
        bool is_queued = strncmp(line, "queued,", 7) == 0, is_clock = strncmp(line, "clock,", 6) == 0;
        EXPECT(!is_queued || resumed.clocks == 0);
        EXPECT(is_clock == (!is_queued && resumed.clocks == 0)); // (once, after the queued packets)
        EXPECT(!is_clock || is_now(line));
        resumed.queued += is_queued;
        resumed.clocks += is_clock;
        resumed.events += !is_queued && !is_clock;
    }
    EXPECT(resumed.clocks == 1);
    fclose(file);
    return resumed;
}

struct resumed expect_flight(struct pie_stage *stage, const char *name, uint64_t least) {
    struct pie_stage_stats stats;
    FILE *file = open_history(name);
    EXPECT(pie_stage_flight(stage, write_to, file) == PIE_FLIGHT_DONE && fclose(file) == 0);
    struct resumed resumed = read_resumed(name);
    pie_stage_read(stage, &stats);
    EXPECT(resumed.before + resumed.events == events_of(&stats) && (resumed.before == 0 || resumed.events >= least));
    EXPECT(resumed.events <= least + 2 * (least / 8 + 32));
    return resumed;
}

void expect_history(struct pie_stage *stage, const struct content *content) {
    struct pie_stage_stats stats;
    pie_stage_read(stage, &stats);
    uint64_t events = events_of(&stats);
    EXPECT(stats.refused == 0 && content->lost == stats.lost && (content->lost == 0) == (content->gaps == 0));
    EXPECT(content->lines == 1 + events - content->lost + content->gaps && content->clocks == 1);
}
