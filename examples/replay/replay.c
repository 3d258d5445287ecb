/* The packets of a capture, sent through a link of a given rate whose queue PIE manages, at the times of the capture. The clock is the
 * capture's: a departure, an update and an arrival come in the order of their moments, and at the same moment in this order. */
#include "capture.h"
#include "flow.h"
#include "options.h"
#include "output.h"
#include "pie_text.h"

#include <errno.h>
#include <inttypes.h>
#include <stdlib.h>
#include <string.h>

#define SECOND UINT64_C(1000000000)
#define LONGEST_GAP (86400 * SECOND) /* between two frames: a day; more is a time stamp that is broken */
#define USUAL_MTU 1500               /* bytes; the program reports larger packets */

struct waiting {
    uint64_t tag, arrived; /* the frame's number, and above it the flow's; the controller's moment right after the arrival */
    uint32_t size, ecn;
};

struct counts {
    struct pie_stats stats;                       /* statistics of the events */
    uint64_t frames, refused;
    uint64_t passed_over, others, cut, wrong; /* excluded by the filter, of other protocols, cut, of a wrong length */
    uint64_t large, backwards;                /* packets above USUAL_MTU; frames earlier than one before them */
};

/* The history of a run, in the format of docs/FORMATS.md: the library writes the text of each event. */
struct history {
    struct output output;
    struct pie_history text;
};

struct replay {
    struct options options;
    struct pie_state pie;
    struct history history;
    struct flows flows;
    struct output listed;           /* the file of the flows */
    struct waiting queue[MOST_PACKETS];
    uint64_t first, packets, bytes; /* index of the oldest queued packet; numbers of queued packets and bytes */
    uint64_t now;                   /* the greatest moment of an arrival */
    uint64_t free_at, rest;         /* moment at which the link becomes free; fraction of a ns of its last
                                       transmission, times the rate */
    uint64_t word;                  /* state of the random generator */
    struct counts counts;
};

/* The capture that is read, and the one that is written. */
struct capture {
    pcap_t *file;
    struct bpf_program filter;
    int link;
    uint64_t start, last; /* times of the first and of the previous frame, in ns since 1970 */
    struct output commented;
};

/* Opens the file ("-": standard output), and writes the opening. Returns false if that fails. */
static bool open_history(struct history *history, const char *name, bool is_forced, const struct pie_opening *opening) {
    unsigned char line[PIE_RECORD_ROOM];
    if (!open_output(&history->output, name, OUTPUT_WHOLE, is_forced))
        return false;
    history->text = (struct pie_history){0};
    size_t count = pie_text_opening(&history->text, opening, line, sizeof line);
    return count != 0 && fwrite(line, 1, count, history->output.file) == count;
}

/* Writes that the wall-clock time at this moment is `unix_time` (nanoseconds since 1970). Returns
 * false if that fails. */
static bool write_time(struct history *history, uint64_t moment, uint64_t unix_time) {
    unsigned char line[PIE_RECORD_ROOM];
    size_t count = pie_text_clock(&history->text, moment, unix_time, line, sizeof line);
    return count != 0 && fwrite(line, 1, count, history->output.file) == count;
}

/* Writes the record of an event, after its call. */
static void write_event(struct history *history, const struct pie_event *event) {
    unsigned char line[PIE_RECORD_ROOM];
    fwrite(line, 1, pie_text_event(&history->text, event, NULL, line, sizeof line), history->output.file);
}

/* Closes the file, which then has its name. Returns false with errno if anything could not be written. */
static bool close_history(struct history *history) {
    return close_output(&history->output);
}

static void die(const char *name, const char *why) {
    fprintf(stderr, "replay: %s: %s\n", name, why);
    exit(1);
}

/* Ends the program after a file was not written, or not named. */
static void die_unwritten(const struct output *output) {
    const char *left = output->partial;
    const char *name = strcmp(output->name, "-") == 0 ? "standard output" : output->name;
    fprintf(stderr, "replay: %s: %s%s%s\n", name, strerror(errno), *left != '\0' ? "; the incomplete output is in " : "", left);
    exit(1);
}

static void die_refused(const char *call, uint64_t code) {
    fprintf(stderr, "replay: %s: %s (%" PRIu64 ")\n", call, pie_text(code), code);
    exit(1);
}

/* Returns the next random word by splitmix64, so that a seed gives the same words on each machine. */
static uint64_t random_word(uint64_t *state) {
    uint64_t word = *state += UINT64_C(0x9e3779b97f4a7c15);
    word = (word ^ word >> 30) * UINT64_C(0xbf58476d1ce4e5b9);
    word = (word ^ word >> 27) * UINT64_C(0x94d049bb133111eb);
    return word ^ word >> 31;
}

/* Sends the oldest packet. The link is busy until the end of its transmission. */
static void depart(struct replay *replay) {
    const struct waiting *packet = &replay->queue[replay->first];
    struct pie_event event = {.moment = replay->free_at, .tag = packet->tag, .size = packet->size, .caller = LINK, .ecn = (uint8_t)packet->ecn};
    replay->first = (replay->first + 1) % MOST_PACKETS;
    replay->packets--;
    replay->bytes -= packet->size;
    uint32_t code = pie_depart_event(&replay->pie, replay->bytes, packet->arrived, &event);
    if (code != PIE_DONE)
        die_refused("a departure", code);
    uint64_t parts = packet->size * 8 * SECOND + replay->rest;
    replay->free_at += parts / replay->options.control.rate;
    replay->rest = parts % replay->options.control.rate;
    pie_count_event(&replay->counts.stats, &event, replay->bytes, replay->pie.moment - packet->arrived);
    write_event(&replay->history, &event);
}

static void update(struct replay *replay) {
    struct pie_event event = {.moment = pie_due(&replay->pie), .caller = TIMER};
    uint32_t code = pie_update_event(&replay->pie, replay->bytes, &event);
    if (code != PIE_DONE)
        die_refused("an update", code);
    pie_count_event(&replay->counts.stats, &event, replay->bytes, 0);
    write_event(&replay->history, &event);
}

/* Processes the events before an arrival at this moment. */
static void go_on(struct replay *replay, uint64_t until) {
    for (;;) {
        uint64_t due = pie_due(&replay->pie);
        if (replay->packets != 0 && replay->free_at <= until && replay->free_at <= due)
            depart(replay);
        else if (due <= until)
            update(replay);
        else
            return;
    }
}

/* Makes an arrival. Returns the verdict, or the code of a refusal. */
static uint32_t arrive(struct replay *replay, const struct ip_packet *packet, uint32_t size, uint64_t tag) {
    struct pie_event event = {.moment = replay->now, .tag = tag, .size = size, .caller = SENDER, .ecn = (uint8_t)packet->ecn};
    event.word = random_word(&replay->word);
    uint32_t room = (uint32_t)(replay->options.control.opening.packets - replay->packets);
    uint32_t verdict = pie_arrive_event(&replay->pie, replay->bytes, room, &event);
    write_event(&replay->history, &event);
    if (verdict > PIE_PACKETS) {
        replay->counts.refused++;
        return verdict;
    }
    if (verdict == PIE_ENQUEUE || verdict == PIE_MARK) {
        if (replay->packets == 0 && replay->free_at < replay->now) {
            replay->free_at = replay->now;
            replay->rest = 0;
        }
        struct waiting *place = &replay->queue[(replay->first + replay->packets) % MOST_PACKETS];
        *place = (struct waiting){tag, replay->pie.moment, size, verdict == PIE_MARK ? PIE_CE : packet->ecn};
        replay->packets++;
        replay->bytes += size;
    }
    pie_count_event(&replay->counts.stats, &event, replay->bytes, 0);
    return verdict;
}

/* Returns the comment on a packet, or on the packets into which it was split, if one was dropped or
 * marked: the verdict and its cause. */
static void tell(char *comment, const uint32_t *answers, uint32_t parts, const struct pie_state *before) {
    int count = 0;
    for (uint32_t verdict = PIE_MARK; verdict <= PIE_PACKETS; verdict++) {
        if (answers[verdict] == 0)
            continue;
        count += snprintf(comment + count, LONGEST_COMMENT - (size_t)count, "%s", count == 0 ? "PIE: " : "; ");
        if (parts > 1)
            count += snprintf(comment + count, LONGEST_COMMENT - (size_t)count, "%" PRIu32 " of %" PRIu32 " segments: ", answers[verdict], parts);
        count += snprintf(comment + count, LONGEST_COMMENT - (size_t)count, "%s", pie_text(verdict));
    }
    if (count != 0)
        snprintf(comment + count, LONGEST_COMMENT - (size_t)count, " (probability %.4f %%, delay %.3f ms)", (double)before->prob / 1e10,
                 (double)before->old_delay / 1e6);
}

/* Sends a frame's packet, split if it is a super-packet, and stores the comment on it. */
static void send_packet(struct replay *replay, const struct ip_packet *packet, char *comment) {
    const uint64_t mtu = replay->options.split;
    const struct pie_state before = replay->pie;
    struct flow_top ended; /* not used here */
    const uint64_t tag = note_flow(&replay->flows, packet->bytes, packet->caught, packet->size, replay->now, replay->counts.frames, &ended);
    uint32_t answers[PIE_PACKETS + 1] = {0}, parts = 1, left = packet->size, most = packet->size, again = 0;
    if (mtu != 0 && packet->size > mtu && packet->headers < mtu) {
        again = packet->headers;
        most = (uint32_t)mtu;
        parts = (packet->size - again + (most - again) - 1) / (most - again);
    }
    replay->counts.large += most > USUAL_MTU;
    for (uint32_t i = 0; i < parts; i++) {
        uint32_t size = left < most ? left : most;
        uint32_t answer = arrive(replay, packet, size, tag);
        left -= size - (i + 1 < parts ? again : 0);
        if (answer <= PIE_PACKETS)
            answers[answer]++;
    }
    tell(comment, answers, parts, &before);
}

/* Adds a frame of the capture. Returns false if its time stamp is invalid. */
static bool take(struct replay *replay, struct capture *capture, const struct pcap_pkthdr *header, const uint8_t *bytes) {
    char comment[LONGEST_COMMENT] = "";
    struct ip_packet packet;
    uint64_t stamp = (uint64_t)header->ts.tv_sec * SECOND + (uint64_t)header->ts.tv_usec;
    if (++replay->counts.frames == 1)
        capture->start = capture->last = stamp;
    if (header->ts.tv_sec < 0 || stamp > capture->last + LONGEST_GAP)
        return false;
    if (replay->counts.frames == 1 && !write_time(&replay->history, 0, stamp))
        die_unwritten(&replay->history.output);
    replay->counts.backwards += stamp < capture->last;
    capture->last = stamp > capture->last ? stamp : capture->last;
    int kind = read_frame(capture->link, bytes, header->caplen, header->len, &packet);
    if (pcap_offline_filter(&capture->filter, header, bytes) == 0) {
        replay->counts.passed_over++;
    } else if (kind == FRAME_IP) {
        replay->now = capture->last - capture->start;
        go_on(replay, replay->now);
        send_packet(replay, &packet, comment);
    } else {
        replay->counts.others += kind == FRAME_OTHER;
        replay->counts.cut += kind == FRAME_CUT;
        replay->counts.wrong += kind == FRAME_WRONG;
    }
    if (capture->commented.file != NULL && !write_frame(capture->commented.file, header, stamp, bytes, comment))
        die_unwritten(&capture->commented);
    return true;
}

static void open_capture(struct capture *capture, const struct options *options) {
    char fault[PCAP_ERRBUF_SIZE];
    capture->file = pcap_open_offline_with_tstamp_precision(options->capture, PCAP_TSTAMP_PRECISION_NANO, fault);
    if (capture->file == NULL)
        die(options->capture, fault);
    capture->link = pcap_datalink(capture->file);
    if (!is_known_link(capture->link)) {
        const char *name = pcap_datalink_val_to_name(capture->link);
        fprintf(stderr, "replay: %s: frames of link type %s (%d), which this program doesn't read\n", options->capture,
                name != NULL ? name : "unknown", capture->link);
        exit(1);
    }
    if (pcap_compile(capture->file, &capture->filter, options->filter, 1, PCAP_NETMASK_UNKNOWN) != 0)
        die(options->filter, pcap_geterr(capture->file));
    if (!open_output(&capture->commented, options->commented, OUTPUT_WHOLE, options->is_forced))
        die(options->commented, strerror(errno));
    if (capture->commented.file != NULL && !write_interface(capture->commented.file, capture->link, (uint32_t)pcap_snapshot(capture->file)))
        die_unwritten(&capture->commented);
}

/* Processes all frames. Returns false if the capture is broken, after an error message. */
static bool read_capture(struct replay *replay, struct capture *capture) {
    struct pcap_pkthdr *header;
    const uint8_t *bytes;
    int answer;
    while ((answer = pcap_next_ex(capture->file, &header, &bytes)) == 1) {
        if (!take(replay, capture, header, bytes)) {
            fprintf(stderr, "replay: %s: frame %" PRIu64 ": a time stamp more than a day after those before it\n", replay->options.capture,
                    replay->counts.frames);
            return false;
        }
    }
    if (answer != PCAP_ERROR_BREAK)
        fprintf(stderr, "replay: %s: after frame %" PRIu64 ": %s\n", replay->options.capture, replay->counts.frames,
                pcap_geterr(capture->file));
    return answer == PCAP_ERROR_BREAK;
}

/* Prints a number unless it is 0. */
static void say(uint64_t count, const char *what) {
    if (count != 0)
        fprintf(stderr, "replay: %" PRIu64 " %s\n", count, what);
}

static void summarize(const struct replay *replay) {
    const struct counts *counts = &replay->counts;
    const struct pie_stats *stats = &counts->stats;
    fprintf(stderr, "replay: %" PRIu64 " frames; of the packets %" PRIu64 " waited, %" PRIu64 " were marked, %" PRIu64 " dropped early, %" PRIu64
            " for want of bytes, %" PRIu64 " of room; %" PRIu64 " left; %" PRIu64 " updates\n",
            counts->frames, stats->enqueued, stats->marked, stats->early, stats->over_bytes, stats->over_packets, stats->left, stats->updates);
    say(counts->passed_over, "frames that the filter passed over");
    say(counts->others, "frames without an IP packet, passed over");
    say(counts->cut, "frames that were captured too short to tell their packet's length, passed over");
    say(counts->wrong, "frames with lengths that can't be, passed over");
    say(counts->backwards, "frames earlier than one before them, sent at that one's time");
    say(counts->large, "frames with packets above 1500 bytes, as offloading joins them: --split splits them");
    say(replay->flows.missing, "packets of more flows than the file can tell");
    say(counts->refused, "packets that were refused, as those above 65535 bytes are");
}

int main(int count, char **words) {
    static struct replay replay;
    static struct capture capture;
    int answer = read_options(count, words, &replay.options);
    if (answer != OPTIONS_READ)
        return answer == OPTIONS_HELP ? 0 : 2;
    const struct options *options = &replay.options;
    const struct pie_opening *opening = &options->control.opening;
    const struct file_name files[] = {{options->capture, FILE_READ}, {options->history, FILE_WRITTEN}, {options->commented, FILE_WRITTEN},
                                      {options->flows, FILE_WRITTEN}};
    if (!check_files("replay", files, sizeof files / sizeof files[0], options->is_forced))
        return 1;
    open_capture(&capture, options);
    uint32_t code = pie_open(&replay.pie, opening);
    if (code != PIE_DONE)
        die_refused("the opening", code);
    if (!open_history(&replay.history, options->history, options->is_forced, opening))
        die(options->history, strerror(errno));
    if (!open_output(&replay.listed, options->flows, OUTPUT_WHOLE, options->is_forced) || !open_flows(&replay.flows, replay.listed.file))
        die(options->flows, strerror(errno));
    replay.word = options->seed;
    bool is_whole = read_capture(&replay, &capture);
    while (is_whole && replay.packets != 0)
        go_on(&replay, replay.free_at);
    if (!close_history(&replay.history))
        die_unwritten(&replay.history.output);
    close_flows(&replay.flows);
    if (!close_output(&replay.listed))
        die_unwritten(&replay.listed);
    if (!close_output(&capture.commented))
        die_unwritten(&capture.commented);
    pcap_freecode(&capture.filter);
    pcap_close(capture.file);
    free(replay.options.filter);
    summarize(&replay);
    return is_whole ? 0 : 1;
}
