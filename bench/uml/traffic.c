/* Sends and receives the traffic of a run (network.py): TCP that always has data, TCP flows of a given size, UDP at a constant rate, and probes.
 * It also notes the packets that cross a device.
 * Sender and receiver run under one kernel, so one clock measures the delay of a probe in one direction.
 *
 * usage: traffic receive ADDRESS BEGIN FILE     counts until SIGTERM, then writes FILE
 *        traffic send ADDRESS BEGIN PLAN FILE   sends what PLAN says, one flow a line, and ends after the last flow
 *        traffic watch DEVICE BEGIN TO FILE     until SIGTERM, writes a record to FILE for each IPv4 packet to TO that crosses DEVICE
 *   BEGIN    the run's time 0, in nanoseconds since 1970; all other times are nanoseconds after it, and may be negative
 *   PLAN     tcp FLOW SINCE UNTIL SOURCE CONTROL         sends from SINCE until UNTIL; CONTROL is the congestion control
 *            short FLOW SINCE BYTES SOURCE CONTROL       sends BYTES, and waits until the receiver has all of them
 *            udp FLOW SINCE UNTIL SOURCE PERIOD BYTES TOS    sends BYTES of UDP payload each PERIOD
 *            probe FLOW SINCE UNTIL SOURCE PERIOD BYTES TOS  the same, and the receiver notes the delay of each
 *   FILE     of the receiver: `bytes FLOW INTERVAL COUNT`, by intervals of 100 ms; `probe FLOW NUMBER SENT DELAY`
 *            of the sender: `sent FLOW COUNT` of probes and UDP; `took FLOW BYTES SINCE TIME`, with `-` for a flow that did not end;
 *            `failed FLOW` for a TCP flow whose connection broke
 *            of the watcher: struct record, in the order of the packets. A packet is sent and received with the same source, port and identification */
#define _GNU_SOURCE
#include <arpa/inet.h>
#include <errno.h>
#include <fcntl.h>
#include <inttypes.h>
#include <linux/filter.h>
#include <linux/if_ether.h>
#include <linux/if_packet.h>
#include <net/if.h>
#include <netinet/tcp.h>
#include <poll.h>
#include <signal.h>
#include <stdbool.h>
#include <stdint.h>
#include <stdio.h>
#include <stdlib.h>
#include <string.h>
#include <sys/mman.h>
#include <sys/prctl.h>
#include <sys/socket.h>
#include <time.h>
#include <unistd.h>

#define PORT 5201
#define MOST_FLOWS 1024
#define MOST_INTERVALS 1024
#define INTERVAL 100000000 /* ns */
#define UNSENT 32768       /* bytes of a TCP flow that its kernel holds and has not sent: few, so that a flow ends when it is due */
#define NEVER INT64_MAX

enum kind { TCP = 1, SHORT, UDP, PROBE };

/* The first bytes of a TCP flow, and of each packet of UDP. */
struct head {
    uint32_t flow, kind;
    uint64_t number;
    int64_t sent;
};

static int64_t begin;
static char zeros[65536];
static volatile sig_atomic_t is_stopped;

static void stop(int number) {
    (void)number;
    is_stopped = 1;
}

static void die(const char *what) {
    fprintf(stderr, "traffic: %s: %s\n", what, strerror(errno));
    exit(1);
}

static int64_t now(void) {
    struct timespec at;
    clock_gettime(CLOCK_REALTIME, &at);
    return (int64_t)at.tv_sec * 1000000000 + at.tv_nsec - begin;
}

static struct sockaddr_in place_of(const char *address, uint16_t port) {
    struct sockaddr_in place = {.sin_family = AF_INET, .sin_port = htons(port)};
    if (inet_pton(AF_INET, address, &place.sin_addr) != 1)
        die(address);
    return place;
}

static FILE *open_file(const char *name, const char *mode) {
    FILE *file = fopen(name, mode);
    if (file == NULL)
        die(name);
    return file;
}

/* Waits for a descriptor, or until a moment. A wait may end shortly before the moment, so that the caller waits again: Linux may end a wait late by a
 * thousandth of its length. */
static void wait_until(struct pollfd *files, nfds_t count, int64_t moment) {
    int64_t left = moment == NEVER ? 1000000000 : moment - now();
    left -= left / 512;
    struct timespec timeout = {.tv_sec = left > 0 ? left / 1000000000 : 0, .tv_nsec = left > 0 ? left % 1000000000 : 0};
    if (ppoll(files, count, &timeout, NULL) < 0 && errno != EINTR)
        die("ppoll");
}

/* ---- the receiver ---- */

static uint32_t counts[MOST_FLOWS][MOST_INTERVALS];

struct incoming {
    struct head head;
    size_t had; /* bytes of the head so far */
};

static void count(uint32_t flow, size_t bytes, int64_t moment) {
    int64_t interval = moment / INTERVAL;
    if (flow < MOST_FLOWS && moment >= 0 && interval < MOST_INTERVALS)
        counts[flow][interval] += (uint32_t)bytes;
}

/* Reads what a TCP flow has; false at its end. The receiver of a flow of a given size answers its end with a byte. */
static bool receive_tcp(int file, struct incoming *from, int64_t moment) {
    for (;;) {
        ssize_t got;
        if (from->had < sizeof from->head) {
            got = recv(file, (char *)&from->head + from->had, sizeof from->head - from->had, MSG_DONTWAIT);
            if (got > 0)
                from->had += (size_t)got;
        } else {
            got = recv(file, NULL, sizeof zeros, MSG_DONTWAIT | MSG_TRUNC);
        }
        if (got < 0)
            return errno == EAGAIN || errno == EINTR;
        if (got == 0) {
            if (from->head.kind == SHORT)
                (void)!write(file, "d", 1);
            return false;
        }
        if (from->had == sizeof from->head)
            count(from->head.flow, (size_t)got, moment);
        if (got < 8192)
            return true;
    }
}

/* The moment at which the kernel received a packet. */
static int64_t stamp_of(struct msghdr *message) {
    struct timespec at;
    struct cmsghdr *control = CMSG_FIRSTHDR(message);
    if (control == NULL || control->cmsg_type != SCM_TIMESTAMPNS)
        die("a time stamp is missing");
    memcpy(&at, CMSG_DATA(control), sizeof at);
    return (int64_t)at.tv_sec * 1000000000 + at.tv_nsec - begin;
}

static void receive_udp(int file, FILE *out) {
    for (;;) {
        char control[256];
        struct head head;
        struct iovec bytes = {&head, sizeof head};
        struct msghdr message = {.msg_iov = &bytes, .msg_iovlen = 1, .msg_control = control, .msg_controllen = sizeof control};
        ssize_t got = recvmsg(file, &message, MSG_DONTWAIT | MSG_TRUNC);
        if (got < (ssize_t)sizeof head)
            return;
        int64_t moment = stamp_of(&message);
        if (head.kind == PROBE)
            fprintf(out, "probe %" PRIu32 " %" PRIu64 " %" PRId64 " %" PRId64 "\n", head.flow, head.number, head.sent, moment - head.sent);
        count(head.flow, (size_t)got, moment);
    }
}

static int listen_at(const struct sockaddr_in *place) {
    int file = socket(AF_INET, SOCK_STREAM | SOCK_NONBLOCK, 0), yes = 1;
    if (file < 0 || setsockopt(file, SOL_SOCKET, SO_REUSEADDR, &yes, sizeof yes) < 0 ||
        bind(file, (const struct sockaddr *)place, sizeof *place) < 0 || listen(file, 1000) < 0)
        die("listen");
    return file;
}

static int receive(char **words) {
    static struct pollfd files[MOST_FLOWS];
    static struct incoming from[MOST_FLOWS];
    struct sockaddr_in place = place_of(words[2], PORT);
    FILE *out = open_file(words[4], "w");
    nfds_t open = 2;
    int yes = 1;
    files[0] = (struct pollfd){.fd = listen_at(&place), .events = POLLIN};
    files[1] = (struct pollfd){.fd = socket(AF_INET, SOCK_DGRAM | SOCK_NONBLOCK, 0), .events = POLLIN};
    if (setsockopt(files[1].fd, SOL_SOCKET, SO_TIMESTAMPNS, &yes, sizeof yes) < 0 || bind(files[1].fd, (struct sockaddr *)&place, sizeof place) < 0)
        die("bind");
    while (!is_stopped) {
        wait_until(files, open, NEVER);
        int64_t moment = now();
        if (files[1].revents != 0)
            receive_udp(files[1].fd, out);
        for (nfds_t i = 2; i < open; i++)
            if (files[i].revents != 0 && !receive_tcp(files[i].fd, &from[i], moment)) {
                close(files[i].fd);
                files[i] = files[--open];
                from[i] = from[open];
                files[i].revents = 0;
            }
        for (int file; files[0].revents != 0 && open < MOST_FLOWS && (file = accept4(files[0].fd, NULL, NULL, SOCK_NONBLOCK)) >= 0; open++) {
            files[open] = (struct pollfd){.fd = file, .events = POLLIN};
            from[open] = (struct incoming){.had = 0};
        }
    }
    for (uint32_t flow = 0; flow < MOST_FLOWS; flow++)
        for (uint32_t interval = 0; interval < MOST_INTERVALS; interval++)
            if (counts[flow][interval] != 0)
                fprintf(out, "bytes %" PRIu32 " %" PRIu32 " %" PRIu32 "\n", flow, interval, counts[flow][interval]);
    return fclose(out) == 0 ? 0 : 1;
}

/* ---- the sender ---- */

struct flow {
    enum kind kind;
    uint32_t number;
    int64_t since, until, next, period;
    uint64_t bytes, sent;
    int tos, file;
    bool is_sent; /* all of a flow of a given size is with the kernel */
    char source[32], control[32];
};

static struct flow flows[MOST_FLOWS];
static size_t flow_count;

static void read_plan(const char *name) {
    FILE *plan = open_file(name, "r");
    char kind[16];
    while (flow_count < MOST_FLOWS && fscanf(plan, "%15s", kind) == 1) {
        struct flow *it = &flows[flow_count++];
        int found;
        it->file = -1;
        if (strcmp(kind, "tcp") == 0 || strcmp(kind, "short") == 0) {
            it->kind = *kind == 't' ? TCP : SHORT;
            found = fscanf(plan, "%" SCNu32 " %" SCNd64 " %" SCNd64 " %31s %31s", &it->number, &it->since, &it->until, it->source, it->control) + 2;
            if (it->kind == SHORT) {
                it->bytes = (uint64_t)it->until;
                it->until = NEVER;
            }
        } else {
            it->kind = *kind == 'p' ? PROBE : UDP;
            found = fscanf(plan, "%" SCNu32 " %" SCNd64 " %" SCNd64 " %31s %" SCNd64 " %" SCNu64 " %d", &it->number, &it->since, &it->until, it->source,
                           &it->period, &it->bytes, &it->tos);
        }
        if (found != 7 || (it->kind > SHORT && (it->period <= 0 || it->bytes < sizeof(struct head) || it->bytes > sizeof zeros))) {
            fprintf(stderr, "traffic: %s: not a plan: flow %zu\n", name, flow_count);
            exit(1);
        }
        it->next = it->since;
    }
    fclose(plan);
}

static void open_flow(struct flow *it, const struct sockaddr_in *receiver) {
    bool is_tcp = it->kind <= SHORT;
    struct sockaddr_in source = place_of(it->source, 0);
    int yes = 1, unsent = UNSENT;
    it->file = socket(AF_INET, (is_tcp ? SOCK_STREAM : SOCK_DGRAM) | SOCK_NONBLOCK, 0);
    if (it->file < 0)
        die("socket");
    if (is_tcp && (setsockopt(it->file, IPPROTO_TCP, TCP_CONGESTION, it->control, (socklen_t)strlen(it->control)) < 0 ||
                   setsockopt(it->file, IPPROTO_TCP, TCP_NOTSENT_LOWAT, &unsent, sizeof unsent) < 0 ||
                   setsockopt(it->file, IPPROTO_IP, IP_BIND_ADDRESS_NO_PORT, &yes, sizeof yes) < 0))
        die(it->control);
    if (!is_tcp && setsockopt(it->file, IPPROTO_IP, IP_TOS, &it->tos, sizeof it->tos) < 0)
        die("IP_TOS");
    if (bind(it->file, (struct sockaddr *)&source, sizeof source) < 0)
        die(it->source);
    if (connect(it->file, (const struct sockaddr *)receiver, sizeof *receiver) < 0 && errno != EINPROGRESS)
        die("connect");
}

static void close_flow(struct flow *it) {
    close(it->file);
    it->file = -1;
    it->next = NEVER;
}

/* Sends as much of a TCP flow as its kernel takes. */
static void send_tcp(struct flow *it) {
    while (!it->is_sent) {
        struct head head = {.flow = it->number, .kind = it->kind};
        uint64_t left = it->kind == SHORT ? it->bytes - it->sent : sizeof zeros;
        size_t some = it->sent == 0 ? sizeof head : left < 16384 ? left : 16384;
        ssize_t done = write(it->file, it->sent == 0 ? (char *)&head : zeros, some);
        if (done < 0) {
            if (errno != EAGAIN && errno != EINTR)
                die("write");
            return;
        }
        it->sent += (uint64_t)done;
        if (it->kind == SHORT && it->sent >= it->bytes) {
            shutdown(it->file, SHUT_WR);
            it->is_sent = true;
        } else if ((size_t)done < some || (it->kind == TCP && it->sent > sizeof head)) {
            return;
        }
    }
}

static void send_udp(struct flow *it) {
    char bytes[65536];
    struct head head = {.flow = it->number, .kind = it->kind, .number = it->sent, .sent = now()};
    memset(bytes + sizeof head, 0, it->bytes - sizeof head);
    memcpy(bytes, &head, sizeof head);
    if (send(it->file, bytes, it->bytes, 0) < 0 && errno != ENOBUFS && errno != EAGAIN)
        die("send");
    it->sent++;
    it->next += it->period;
}

static bool is_due(const struct flow *it, int64_t moment) {
    return it->next <= moment && it->next != NEVER;
}

/* Opens, sends and closes what is due. A TCP flow's next moment is that of its beginning, and later that of its end. */
static void step(struct flow *it, int64_t moment, const struct sockaddr_in *receiver) {
    while (is_due(it, moment)) {
        if (it->file < 0) {
            open_flow(it, receiver);
            if (it->kind <= SHORT)
                it->next = it->until;
        } else if (it->next >= it->until) {
            close_flow(it);
        } else {
            send_udp(it);
        }
    }
}

static void note_end(struct flow *it, FILE *out) {
    char byte;
    if (it->kind == SHORT && it->is_sent && recv(it->file, &byte, 1, MSG_DONTWAIT) == 1) {
        fprintf(out, "took %" PRIu32 " %" PRIu64 " %" PRId64 " %" PRId64 "\n", it->number, it->bytes, it->since, now() - it->since);
        close_flow(it);
    }
}

static void fail(struct flow *it, FILE *out) {
    fprintf(out, "failed %" PRIu32 "\n", it->number);
    close_flow(it);
}

static int send_all(char **words) {
    static struct pollfd files[MOST_FLOWS];
    static size_t which[MOST_FLOWS];
    struct sockaddr_in receiver = place_of(words[2], PORT);
    read_plan(words[4]);
    FILE *out = open_file(words[5], "w");
    for (bool is_done = false; !is_done && !is_stopped;) {
        int64_t next = NEVER, moment = now();
        nfds_t open = 0;
        is_done = true;
        for (size_t i = 0; i < flow_count; i++) {
            struct flow *it = &flows[i];
            step(it, moment, &receiver);
            next = it->next < next ? it->next : next;
            if (it->file >= 0 && it->kind <= SHORT) {
                files[open] = (struct pollfd){.fd = it->file, .events = it->is_sent ? POLLIN : POLLOUT};
                which[open++] = i;
            }
            is_done = is_done && it->next == NEVER && it->file < 0;
        }
        if (is_done)
            break;
        wait_until(files, open, next);
        for (nfds_t i = 0; i < open; i++) {
            if (files[i].revents & POLLOUT)
                send_tcp(&flows[which[i]]);
            if (files[i].revents & POLLIN)
                note_end(&flows[which[i]], out);
            else if (files[i].revents & (POLLERR | POLLHUP))
                fail(&flows[which[i]], out);
        }
    }
    for (size_t i = 0; i < flow_count; i++) {
        if (flows[i].kind > SHORT)
            fprintf(out, "sent %" PRIu32 " %" PRIu64 "\n", flows[i].number, flows[i].sent);
        if (flows[i].kind == SHORT && flows[i].file >= 0)
            fprintf(out, "took %" PRIu32 " %" PRIu64 " %" PRId64 " -\n", flows[i].number, flows[i].bytes, flows[i].since);
    }
    return fclose(out) == 0 ? 0 : 1;
}

/* ---- the watcher ---- */

#define SPACE 262144    /* bytes of a block of the ring */
#define SPACES 64       /* blocks of the ring */
#define RETIRED 200     /* ms after which a block that is not full is readable */
#define HEADERS 64      /* bytes that are kept of a packet */

/* A packet that crossed the device. All fields are in the byte order of this machine. */
struct record {
    int64_t moment;
    uint32_t source, length;
    uint16_t port, identification;
    uint32_t protocol;
};

/* Lets IPv4 packets to `to` pass. */
static void filter(int file, uint32_t to) {
    struct sock_filter code[] = {
        BPF_STMT(BPF_LD | BPF_H | BPF_ABS, (uint32_t)(SKF_AD_OFF + SKF_AD_PROTOCOL)), BPF_JUMP(BPF_JMP | BPF_JEQ | BPF_K, ETH_P_IP, 0, 3),
        BPF_STMT(BPF_LD | BPF_W | BPF_ABS, 16), BPF_JUMP(BPF_JMP | BPF_JEQ | BPF_K, to, 0, 1), BPF_STMT(BPF_RET | BPF_K, HEADERS), BPF_STMT(BPF_RET | BPF_K, 0),
    };
    struct sock_fprog program = {.len = sizeof code / sizeof *code, .filter = code};
    if (setsockopt(file, SOL_SOCKET, SO_ATTACH_FILTER, &program, sizeof program) < 0)
        die("the filter");
}

static uint16_t half(const uint8_t *from) {
    return (uint16_t)(from[0] << 8 | from[1]);
}

/* Writes the packets of a block. */
static void note_block(const struct tpacket_block_desc *block, FILE *out) {
    const uint8_t *at = (const uint8_t *)block + block->hdr.bh1.offset_to_first_pkt;
    for (uint32_t left = block->hdr.bh1.num_pkts; left > 0; left--) {
        const struct tpacket3_hdr *it = (const struct tpacket3_hdr *)at;
        const uint8_t *ip = at + it->tp_net, *ports = ip + 4 * (ip[0] & 15);
        struct record record = {.moment = (int64_t)it->tp_sec * 1000000000 + it->tp_nsec - begin, .source = (uint32_t)half(ip + 12) << 16 | half(ip + 14),
                                .port = half(ports), .identification = half(ip + 4), .length = half(ip + 2), .protocol = ip[9]};
        if (fwrite(&record, sizeof record, 1, out) != 1)
            die("the record of a packet");
        at += it->tp_next_offset;
    }
}

static int watch(char **words) {
    FILE *out = open_file(words[5], "w");
    int file = socket(AF_PACKET, SOCK_DGRAM, 0), version = TPACKET_V3;
    struct tpacket_req3 ring = {.tp_block_size = SPACE, .tp_block_nr = SPACES, .tp_frame_size = 2048, .tp_frame_nr = SPACE / 2048 * SPACES,
                                .tp_retire_blk_tov = RETIRED};
    struct sockaddr_ll place = {.sll_family = AF_PACKET, .sll_protocol = htons(ETH_P_ALL), .sll_ifindex = (int)if_nametoindex(words[2])};
    if (file < 0 || setsockopt(file, SOL_PACKET, PACKET_VERSION, &version, sizeof version) < 0 ||
        setsockopt(file, SOL_PACKET, PACKET_RX_RING, &ring, sizeof ring) < 0)
        die("the ring");
    filter(file, ntohl(place_of(words[4], 0).sin_addr.s_addr));
    uint8_t *blocks = mmap(NULL, (size_t)SPACE * SPACES, PROT_READ | PROT_WRITE, MAP_SHARED, file, 0);
    if (blocks == MAP_FAILED || place.sll_ifindex == 0 || bind(file, (struct sockaddr *)&place, sizeof place) < 0)
        die(words[2]);
    struct pollfd files = {.fd = file, .events = POLLIN};
    for (size_t next = 0;;) {
        struct tpacket_block_desc *block = (struct tpacket_block_desc *)(blocks + next * SPACE);
        if ((__atomic_load_n(&block->hdr.bh1.block_status, __ATOMIC_ACQUIRE) & TP_STATUS_USER) != 0) {
            note_block(block, out);
            __atomic_store_n(&block->hdr.bh1.block_status, TP_STATUS_KERNEL, __ATOMIC_RELEASE);
            next = (next + 1) % SPACES;
        } else if (is_stopped) {
            break;
        } else if (poll(&files, 1, 1000) < 0 && errno != EINTR) {
            die("poll");
        }
    }
    struct tpacket_stats_v3 counts_of_ring;
    socklen_t length = sizeof counts_of_ring;
    if (getsockopt(file, SOL_PACKET, PACKET_STATISTICS, &counts_of_ring, &length) < 0 || counts_of_ring.tp_drops != 0)
        die("the ring missed packets");
    return fclose(out) == 0 ? 0 : 1;
}

int main(int words_count, char **words) {
    struct sigaction action = {.sa_handler = stop};
    if (sigaction(SIGTERM, &action, NULL) < 0 || signal(SIGPIPE, SIG_IGN) == SIG_ERR)
        die("signals");
    /* (by default Linux may end any wait 50 us late) */
    if (prctl(PR_SET_TIMERSLACK, 1) != 0)
        die("the timer slack");
    if (words_count == 5 && strcmp(words[1], "receive") == 0) {
        begin = strtoll(words[3], NULL, 10);
        return receive(words);
    }
    if (words_count == 6 && strcmp(words[1], "send") == 0) {
        begin = strtoll(words[3], NULL, 10);
        return send_all(words);
    }
    if (words_count == 6 && strcmp(words[1], "watch") == 0) {
        begin = strtoll(words[3], NULL, 10);
        return watch(words);
    }
    fputs("usage: traffic receive ADDRESS BEGIN FILE\n       traffic send ADDRESS BEGIN PLAN FILE\n       traffic watch DEVICE BEGIN TO FILE\n", stderr);
    return 1;
}
