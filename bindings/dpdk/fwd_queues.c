#include "fwd_queues.h"

#include "stage_packet.h"

#include <errno.h>
#include <stdio.h>

#define BURST 32u
#define QUANTUM 2000 /* bytes that a queue may send in a turn */
#define CLASSES 8u

bool fwd_queues_create(struct fwd_queues *queues, uint32_t count, const char *name, const struct pie_stage_params *params) {
    char one[PATH_MAX];
    *queues = (struct fwd_queues){.count = 0};
    for (uint32_t i = 0; i < count; i++) {
        fwd_queue_name(one, name, i);
        queues->stages[i] = pie_stage_create(one, params, SOCKET_ID_ANY);
        if (queues->stages[i] == NULL)
            return false;
        queues->count++;
    }
    return true;
}

void fwd_queues_free(struct fwd_queues *queues) {
    for (uint32_t i = 0; i < queues->count; i++)
        pie_stage_free(queues->stages[i]);
    queues->count = 0;
}

bool fwd_queue_name(char name[PATH_MAX], const char *path, uint32_t queue) {
    int length = queue == 0 ? snprintf(name, PATH_MAX, "%s", path) : snprintf(name, PATH_MAX, "%s-%u", path, queue);
    errno = ENAMETOOLONG;
    return length < PATH_MAX;
}

uint32_t fwd_queue_of(const struct rte_mbuf *mbuf, uint32_t count) {
    uint8_t copy[2];
    struct stage_packet packet = stage_packet_look(mbuf);
    if (packet.version == 0)
        return 0;
    const uint8_t *bytes = rte_pktmbuf_read(mbuf, packet.header, sizeof copy, copy);
    uint32_t class = packet.version == 4 ? bytes[1] >> 5 : (bytes[0] & 15) >> 1;
    return class * count / CLASSES;
}

void fwd_queues_enqueue(struct fwd_queues *queues, struct rte_mbuf **mbufs, uint32_t count, uint64_t now) {
    struct rte_mbuf *parts[FWD_QUEUES][BURST];
    uint32_t counts[FWD_QUEUES] = {0};
    if (queues->count == 1) {
        pie_stage_enqueue(queues->stages[0], mbufs, count, now);
        return;
    }
    for (uint32_t i = 0; i < count; i++) {
        uint32_t queue = fwd_queue_of(mbufs[i], queues->count);
        parts[queue][counts[queue]++] = mbufs[i];
    }
    for (uint32_t queue = 0; queue < queues->count; queue++)
        if (counts[queue] != 0)
            pie_stage_enqueue(queues->stages[queue], parts[queue], counts[queue], now);
}

static uint64_t bytes_of(struct rte_mbuf **mbufs, uint32_t count) {
    uint64_t bytes = 0;
    for (uint32_t i = 0; i < count; i++)
        bytes += rte_pktmbuf_pkt_len(mbufs[i]);
    return bytes;
}

/* Dequeues by deficit round robin: in its turn a queue sends its quantum, less the excess of its previous turn. An
 * empty queue saves no credit. */
static uint32_t dequeue_in_turns(struct fwd_queues *queues, struct rte_mbuf **mbufs, uint32_t count, uint64_t bytes, uint64_t now) {
    uint32_t taken = 0, empty = 0;
    while (taken < count && bytes != 0 && empty < queues->count) {
        int64_t *credit = &queues->credits[queues->turn];
        if (*credit > 0) {
            uint64_t most = RTE_MIN(bytes, (uint64_t)*credit);
            uint32_t part = pie_stage_dequeue_bytes(queues->stages[queues->turn], mbufs + taken, count - taken, most, now);
            uint64_t sent = bytes_of(mbufs + taken, part);
            empty = part == 0 ? empty + 1 : 0;
            *credit = part == 0 ? 0 : *credit - (int64_t)sent;
            bytes -= RTE_MIN(bytes, sent);
            taken += part;
        }
        if (*credit <= 0) {
            queues->turn = (queues->turn + 1) % queues->count;
            queues->credits[queues->turn] += QUANTUM;
        }
    }
    return taken;
}

uint32_t fwd_queues_dequeue(struct fwd_queues *queues, struct rte_mbuf **mbufs, uint32_t count, uint64_t bytes, uint64_t now) {
    if (queues->count == 1)
        return pie_stage_dequeue_bytes(queues->stages[0], mbufs, count, bytes, now);
    return dequeue_in_turns(queues, mbufs, count, bytes, now);
}

void fwd_queues_update(struct fwd_queues *queues, uint64_t now) {
    for (uint32_t i = 0; i < queues->count; i++)
        pie_stage_update(queues->stages[i], now);
}
