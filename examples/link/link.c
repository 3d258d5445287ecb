/* A bottleneck in user space: two TUN devices, joined by a link of a given rate with a PIE queue. The main thread waits
 * in ppoll for packets, for the end of a transmission, for the delay on the way back, and for the next update. Another
 * thread follows the flight recorder and writes the history, so that no packet waits for a file.
 *
 * Nothing here touches another device: a packet from one TUN device goes out by the other. */
#define _GNU_SOURCE
#include "flight_file.h"
#include "flow.h"
#include "metrics.h"
#include "options.h"
#include "output.h"
#include "packet.h"
#include "pie.h"
#include "pie_follow.h"
#include "records.h"

#include <errno.h>
#include <fcntl.h>
#include <inttypes.h>
#include <linux/if.h>
#include <linux/if_tun.h>
#include <poll.h>
#include <pthread.h>
#include <signal.h>
#include <stdatomic.h>
#include <stdlib.h>
#include <string.h>
#include <sys/ioctl.h>
#include <sys/prctl.h>
#include <sys/random.h>
#include <time.h>
#include <unistd.h>

#define LARGEST 65535      /* the most bytes of a packet */
#define AT_ONCE 64         /* the most packets read from a device before the link is served again */
#define BACK_PACKETS 65536 /* the most packets on the way back */
#define WORDS 128          /* random words that are requested at once */
#define LOOK_TIME 10000000 /* ns for which the history's thread sleeps */

struct bottleneck {
    const struct options *options;
    int from, to;          /* the devices */
    bool from_has, to_has; /* true if the device has a packet to read */
    struct pie_state pie;  /* the controller of the queue */
    struct packets queue;  /* packets queued for the link */
    struct packets there;  /* packets on the link, until the end of their transmission */
    struct packets back;   /* packets on the way back, until the delay has passed */
    uint64_t start;        /* start of the run, by CLOCK_MONOTONIC */
    uint64_t free_at;      /* moment at which the link becomes free; with grants the moment of the next grant */
    uint64_t granted;      /* bits by which the last packet exceeded its grant */
    size_t step;           /* index of the rate in force */
    uint64_t next_update;  /* first moment at which an update is not too soon */
    struct flight_file flight;
    struct pie_flight_follower follower;
    struct output history, recorded, listed; /* the files of the history, of the records and of the flows */
    _Atomic uint64_t missed; /* number of missing events */
    struct records records;
    struct flows flows;
    struct flow_top top;   /* the last complete interval with packets, until it is reported; protected by `telling` */
    pthread_mutex_t telling;
    pthread_t writer;      /* the thread that writes history, flows, metrics and the flight recorder's text */
    atomic_bool is_closed; /* true if the writer must end */
    struct metrics counted;
    struct metrics_file metrics;
    uint64_t lost;         /* packets that a device did not accept */
};

static volatile sig_atomic_t is_stopped;
static atomic_bool is_asked; /* true if the flight recorder's text was requested */

static void stop(int number) {
    if (number == SIGUSR1)
        atomic_store(&is_asked, true);
    else
        is_stopped = 1;
}

static void die(const char *what) {
    const char *hint = errno == EPERM || errno == EACCES ? " (it has to be root, or to have CAP_NET_ADMIN)" : "";
    fprintf(stderr, "link: %s: %s%s\n", what, strerror(errno), hint);
    exit(1);
}

/* Ends the program after a file was not written, or not named. */
static void die_unwritten(const struct output *output) {
    const char *left = output->partial;
    fprintf(stderr, "link: %s: %s%s%s\n", output->name, strerror(errno), *left != '\0' ? "; the incomplete output is in " : "", left);
    exit(1);
}

/* Checks the names of all files, with those that the flight recorder derives from its own. */
static bool are_files_usable(const struct options *options) {
    char before[PATH_MAX] = "", text[PATH_MAX] = "";
    if (options->flight != NULL && (snprintf(before, sizeof before, "%s.before", options->flight) >= (int)sizeof before ||
                                    snprintf(text, sizeof text, "%s.history", options->flight) >= (int)sizeof text)) {
        errno = ENAMETOOLONG;
        die(options->flight);
    }
    const struct file_name files[] = {{options->history, FILE_WRITTEN}, {options->records, FILE_WRITTEN},
                                      {options->flows, FILE_WRITTEN},   {options->metrics, FILE_WRITTEN},
                                      {options->flight, FILE_KEPT},     {options->flight != NULL ? before : NULL, FILE_KEPT},
                                      {options->flight != NULL ? text : NULL, FILE_KEPT}};
    return check_files("link", files, sizeof files / sizeof files[0], options->is_forced);
}

/* Ends the program after a refusal that no input of it can cause. */
static void die_refused(const char *call, uint64_t code) {
    fprintf(stderr, "link: %s: %s (%" PRIu64 ")\n", call, pie_text(code), code);
    exit(1);
}

static uint64_t clock_now(clockid_t clock) {
    struct timespec now;
    if (clock_gettime(clock, &now) != 0)
        die("clock_gettime");
    return (uint64_t)now.tv_sec * 1000000000u + (uint64_t)now.tv_nsec;
}

/* Returns the nanoseconds since the start of the run. */
static uint64_t moment_of(const struct bottleneck *link) {
    return clock_now(CLOCK_MONOTONIC) - link->start;
}

static uint64_t random_word(void) {
    static uint64_t words[WORDS];
    static size_t left;
    if (left == 0) {
        if (getrandom(words, sizeof words, 0) != sizeof words)
            die("getrandom");
        left = WORDS;
    }
    return words[--left];
}

static int open_device(const char *name) {
    struct ifreq request = {.ifr_flags = IFF_TUN | IFF_NO_PI};
    int device = open("/dev/net/tun", O_RDWR | O_NONBLOCK | O_CLOEXEC);
    if (device < 0)
        die("/dev/net/tun");
    if (strlen(name) >= IFNAMSIZ) {
        errno = ENAMETOOLONG;
        die(name);
    }
    strcpy(request.ifr_name, name);
    if (ioctl(device, TUNSETIFF, &request) < 0)
        die(name);
    return device;
}

/* Writes a packet to a device. If the device is down or full, the packet is lost, as on a wire. */
static void send_packet(struct bottleneck *link, int device, struct packet *packet) {
    if (write(device, packet->bytes, packet->length) != (ssize_t)packet->length)
        link->lost++;
    free(packet);
}

/* Writes the packets whose moment has been reached. */
static void release(struct bottleneck *link, struct packets *packets, int device, uint64_t now) {
    while (packets->first != NULL && packets->first->moment <= now)
        send_packet(link, device, pop(packets));
}

/* Returns the packet's tag: its number in the order of arrivals. With --flows, the upper 32 bits are its flow's number.
 * If the packet ends an interval, passes the interval to the writer. */
static uint64_t tag_of(struct bottleneck *link, const struct packet *packet, uint64_t now) {
    struct flow_top ended;
    uint64_t tag = note_flow(&link->flows, packet->bytes, packet->length, packet->size, now, link->counted.arrived + 1, &ended);
    if (ended.total != 0) {
        pthread_mutex_lock(&link->telling);
        link->top = ended;
        pthread_mutex_unlock(&link->telling);
    }
    return tag;
}

/* Decides an arrival: the library queues, marks or drops the packet. */
static void arrive(struct bottleneck *link, struct packet *packet, uint64_t now) {
    struct pie_event event = {.moment = now, .word = random_word(), .caller = SENDER};
    uint32_t room = (uint32_t)link->options->control.opening.packets - link->queue.count;
    packet->size = size_on_link(&link->options->layer, packet->length);
    packet->tag = tag_of(link, packet, now);
    packet->moment = now;
    packet->ecn = ecn_of(packet->bytes, packet->length);
    event.tag = packet->tag;
    event.size = packet->size;
    event.ecn = (uint8_t)packet->ecn;
    uint32_t verdict = decide_arrival(&link->records, &link->pie, link->queue.bytes, room, &event);
    if (verdict > PIE_PACKETS)
        die_refused("an arrival", verdict);
    keep_event(&link->flight, &link->pie, &event);
    count_event(&link->counted, &event, 0);
    packet->arrived = link->pie.moment;
    if (verdict == PIE_MARK) {
        set_ce(packet->bytes, packet->length);
        packet->ecn = PIE_CE;
    }
    if (verdict == PIE_ENQUEUE || verdict == PIE_MARK)
        push(&link->queue, packet);
    else
        free(packet);
}

/* Delays the packets from the other side. */
static void turn_back(struct bottleneck *link, struct packet *packet, uint64_t now) {
    packet->moment = now + link->options->rtt;
    if (link->options->rtt == 0) {
        send_packet(link, link->from, packet);
    } else if (link->back.count < BACK_PACKETS) {
        push(&link->back, packet);
    } else {
        link->lost++;
        free(packet);
    }
}

/* Reads pending packets of a device, at most AT_ONCE. */
static void receive(struct bottleneck *link, int device, void (*take)(struct bottleneck *, struct packet *, uint64_t)) {
    static uint8_t bytes[LARGEST];
    for (int i = 0; i < AT_ONCE; i++) {
        ssize_t size = read(device, bytes, sizeof bytes);
        if (size <= 0) {
            if (size < 0 && errno != EAGAIN && errno != EINTR && errno != EIO)
                die("read");
            return;
        }
        struct packet *packet = packet_of(bytes, (uint32_t)size);
        if (packet == NULL)
            die("memory");
        take(link, packet, moment_of(link));
    }
}

/* Returns the rate in bits per second at this moment. The moments of successive calls must not decrease. */
static uint64_t rate_at(struct bottleneck *link, uint64_t moment) {
    const struct options *options = link->options;
    while (link->step + 1 < options->steps && options->rates[link->step + 1].moment <= moment)
        link->step++;
    return options->rates[link->step].rate;
}

/* Removes the oldest packet from the queue, and puts it on the link until the moment `until`. */
static void depart(struct bottleneck *link, uint64_t now, uint64_t until) {
    struct packet *packet = pop(&link->queue);
    struct pie_event event = {.moment = now, .tag = packet->tag, .size = packet->size, .caller = LINK, .ecn = (uint8_t)packet->ecn};
    uint32_t code = take_departure(&link->records, &link->pie, link->queue.bytes, packet->arrived, &event);
    if (code != PIE_DONE)
        die_refused("a departure", code);
    keep_event(&link->flight, &link->pie, &event);
    count_event(&link->counted, &event, link->pie.moment - packet->arrived);
    packet->moment = until;
    push(&link->there, packet);
}

/* Processes the grants that are due. At each grant queued packets leave at once, up to the bytes that the rate allows
 * between two grants. If the last packet exceeds the grant, the next grant is reduced by the excess. An unused rest is
 * lost. */
static void serve_grants(struct bottleneck *link, uint64_t now) {
    const uint64_t period = link->options->grant;
    for (; link->free_at <= now; link->free_at += period) {
        uint64_t bits = (uint64_t)((double)rate_at(link, link->free_at) * (double)period / 1e9), used = link->granted;
        while (used < bits && link->queue.first != NULL && link->queue.first->moment <= link->free_at) {
            used += (uint64_t)link->queue.first->size * 8;
            depart(link, now, link->free_at);
        }
        link->granted = used > bits ? used - bits : 0;
    }
}

/* Sends each packet that is due. A transmission begins when the one before it ended, or when the packet arrived if that
 * is later, so the link catches up if this program was late. */
static void serve(struct bottleneck *link, uint64_t now) {
    if (link->options->grant != 0) {
        serve_grants(link, now);
        return;
    }
    while (link->queue.first != NULL && link->free_at <= now) {
        const struct packet *packet = link->queue.first;
        uint64_t start = packet->moment > link->free_at ? packet->moment : link->free_at;
        link->free_at = start + (uint64_t)packet->size * 8 * 1000000000u / rate_at(link, start);
        depart(link, now, link->options->at_start ? start : link->free_at);
    }
}

static void update(struct bottleneck *link, uint64_t now) {
    if (now < link->next_update)
        return;
    struct pie_event event = {.moment = now, .caller = TIMER};
    uint32_t code = make_update(&link->records, &link->pie, link->queue.bytes, &event);
    keep_event(&link->flight, &link->pie, &event);
    count_event(&link->counted, &event, 0);
    if (code == PIE_DONE)
        link->counted.late += now - link->next_update > link->pie.params.t_update;
    else if (code != PIE_TOO_SOON)
        die_refused("an update", code);
    link->next_update = pie_due(&link->pie);
}

static uint64_t earlier(uint64_t moment, const struct packets *packets) {
    return packets->first != NULL && packets->first->moment < moment ? packets->first->moment : moment;
}

/* Waits for a packet, or for the next moment at which work is due. */
static void wait_for_work(struct bottleneck *link, const sigset_t *signals) {
    struct pollfd devices[2] = {{.fd = link->from, .events = POLLIN}, {.fd = link->to, .events = POLLIN}};
    uint64_t next = link->next_update < link->options->lasts ? link->next_update : link->options->lasts;
    next = earlier(earlier(next, &link->there), &link->back);
    if (link->queue.first != NULL && link->free_at < next)
        next = link->free_at;
    uint64_t now = moment_of(link);
    uint64_t time = next > now ? next - now : 0;
    struct timespec timeout = {.tv_sec = (time_t)(time / 1000000000u), .tv_nsec = (long)(time % 1000000000u)};
    int ready = ppoll(devices, 2, &timeout, signals);
    if (ready < 0 && errno != EINTR)
        die("ppoll");
    link->from_has = ready > 0 && devices[0].revents != 0;
    link->to_has = ready > 0 && devices[1].revents != 0;
}

/* Passes the counts to the writing thread, once a second. */
static void tell(struct bottleneck *link, uint64_t now) {
    struct metrics *counted = &link->counted;
    if (!is_metrics_due(&link->metrics, now))
        return;
    counted->lost = atomic_load(&link->missed);
    counted->prob = link->pie.prob;
    counted->delay = link->pie.old_delay;
    counted->target = link->pie.params.target;
    counted->burst = link->pie.burst;
    counted->packets = link->queue.count;
    counted->bytes = link->queue.bytes;
    pass_metrics(&link->metrics, counted, now);
}

/* Moves all packets that are due. */
static void step(struct bottleneck *link) {
    uint64_t now = moment_of(link);
    serve(link, now);
    release(link, &link->there, link->to, now);
    release(link, &link->back, link->from, now);
    update(link, now);
    if (link->from_has) {
        receive(link, link->from, arrive);
        serve(link, moment_of(link));
    }
    if (link->to_has)
        receive(link, link->to, turn_back);
    tell(link, now);
}

/* Writes the text of the flight recorder, if it was requested. */
static void write_if_asked(const struct bottleneck *link) {
    const struct flight_file *flight = &link->flight;
    if (!atomic_exchange(&is_asked, false) || flight->name == NULL)
        return;
    tell_flight(flight, moment_of(link), clock_now(CLOCK_REALTIME));
    int answer = write_flight(flight);
    fprintf(stderr, "link: %s.history: %s\n", flight->name, flight_text(answer));
}

/* Writes the new flows, and reports the flow with the most bytes of the last complete interval. */
static void tell_flows(struct bottleneck *link) {
    char words[LONGEST_FLOW];
    write_flows(&link->flows);
    pthread_mutex_lock(&link->telling);
    const struct flow_top top = link->top;
    link->top.total = 0;
    pthread_mutex_unlock(&link->telling);
    if (top.total == 0)
        return;
    const struct flow_row *row = &link->flows.rows[top.place];
    flow_words(&row->flow, words);
    printf("link: at %.1f s most came of flow 0x%08" PRIx32 ", %s: %.1f %% of %" PRIu64 " bytes\n",
           (double)(top.period + 1) * FLOW_PERIOD / 1e9, row->number, words, 100.0 * (double)top.bytes / (double)top.total, top.total);
    fflush(stdout);
}

static int write_to(void *user, const unsigned char *bytes, size_t count) {
    return fwrite(bytes, 1, count, (FILE *)user) == count ? 0 : 1;
}

/* Writes the events since the last call. */
static void follow(struct bottleneck *link) {
    if (link->history.file == NULL)
        return;
    int answer = pie_flight_follow_text(&link->follower, link->flight.scratch, write_to, link->history.file);
    if (answer == PIE_FLIGHT_STOPPED)
        die_unwritten(&link->history);
    atomic_store(&link->missed, link->follower.missed);
}

/* Runs the thread that writes history, flows, metrics and the flight recorder's text. */
static void *write_history(void *argument) {
    struct bottleneck *link = argument;
    const struct timespec pause = {.tv_nsec = LOOK_TIME};
    while (!atomic_load(&link->is_closed)) {
        write_if_asked(link);
        tell_flows(link);
        write_pending_metrics(&link->metrics, "link");
        follow(link);
        nanosleep(&pause, NULL);
    }
    write_if_asked(link);
    follow(link);
    return NULL;
}

/* Blocks signals except while the program waits. */
static void hold_signals(sigset_t *before) {
    struct sigaction action = {.sa_handler = stop};
    sigset_t held;
    sigemptyset(&action.sa_mask);
    sigemptyset(&held);
    const int numbers[] = {SIGINT, SIGTERM, SIGHUP, SIGUSR1};
    for (size_t i = 0; i < sizeof numbers / sizeof numbers[0]; i++)
        if (sigaddset(&held, numbers[i]) != 0 || sigaction(numbers[i], &action, NULL) != 0)
            die("signals");
    if (sigprocmask(SIG_BLOCK, &held, before) != 0)
        die("signals");
}

static void open_link(struct bottleneck *link, const struct options *options) {
    link->options = options;
    link->from = open_device(options->from);
    link->to = open_device(options->to);
    link->start = clock_now(CLOCK_MONOTONIC);
    const struct pie_opening *opening = &options->control.opening;
    uint32_t code = pie_open(&link->pie, opening);
    if (code != PIE_DONE)
        die_refused("pie_open", code);
    link->next_update = pie_due(&link->pie);
    uint64_t moment = moment_of(link), unix_time = clock_now(CLOCK_REALTIME);
    if (options->flight != NULL || options->history != NULL) {
        if (!open_flight(&link->flight, options->flight, opening, &link->pie))
            die(options->flight != NULL ? options->flight : "memory");
        tell_flight(&link->flight, moment, unix_time);
    }
    if (options->history != NULL) {
        if (!open_output(&link->history, options->history, OUTPUT_WHOLE, options->is_forced))
            die(options->history);
        pie_flight_follow_open(&link->follower, link->flight.memory, link->flight.bytes);
    }
    if (!open_output(&link->recorded, options->records, OUTPUT_FOLLOWED, options->is_forced) ||
        !open_records(&link->records, link->recorded.file, options->every, moment, &unix_time))
        die(options->records);
    if (!open_output(&link->listed, options->flows, OUTPUT_FOLLOWED, options->is_forced) || !open_flows(&link->flows, link->listed.file))
        die(options->flows);
    open_metrics(&link->metrics, options->metrics, options->to);
    if (pthread_mutex_init(&link->telling, NULL) != 0 || pthread_create(&link->writer, NULL, write_history, link) != 0)
        die("a thread for the history");
}

static void close_link(struct bottleneck *link) {
    const struct metrics *counted = &link->counted;
    free_all(&link->queue);
    free_all(&link->there);
    free_all(&link->back);
    atomic_store(&link->is_closed, true);
    pthread_join(link->writer, NULL);
    if (!remove_metrics())
        die(link->options->metrics);
    if (!close_output(&link->history))
        die_unwritten(&link->history);
    close_records(&link->records);
    if (!close_output(&link->recorded))
        die_unwritten(&link->recorded);
    close_flows(&link->flows);
    if (!close_output(&link->listed))
        die_unwritten(&link->listed);
    if (link->flows.missing != 0)
        fprintf(stderr, "link: flows of %" PRIu64 " packets are missing in the file: there were too many\n", link->flows.missing);
    if (link->follower.missed != 0)
        fprintf(stderr, "link: %" PRIu64 " events are missing in the history\n", link->follower.missed);
    printf("link: %" PRIu64 " packets arrived: %" PRIu64 " waited, %" PRIu64 " marked, %" PRIu64 " dropped early, %" PRIu64
           " for want of bytes, %" PRIu64 " of room; %" PRIu64 " left, %" PRIu64 " lost at the devices\n",
           counted->arrived, counted->enqueued, counted->marked, counted->early, counted->over_bytes, counted->over_packets, counted->departed,
           link->lost);
    printf("link: %" PRIu64 " updates, %" PRIu64 " of them later than by a whole period\n", counted->updates, counted->late);
}

int main(int count, char **words) {
    static struct bottleneck link;
    struct options options;
    sigset_t signals;
    int answer = read_options(count, words, &options);
    if (answer != OPTIONS_READ)
        return answer == OPTIONS_HELP ? 0 : 1;
    if (!are_files_usable(&options))
        return 1;
    /* (by default Linux ends a wait up to 50 us late, so that it can wake several threads at once) */
    if (prctl(PR_SET_TIMERSLACK, 1) != 0)
        die("the timer slack");
    hold_signals(&signals);
    open_link(&link, &options);
    while (!is_stopped && moment_of(&link) < options.lasts) {
        wait_for_work(&link, &signals);
        step(&link);
    }
    close_link(&link);
    return 0;
}
