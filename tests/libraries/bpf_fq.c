/* Runs the queue with flows of bindings/bpf/fq_qdisc.bpf.h on this processor, as bpf_qdisc.c runs the plain one: 64 senders of different rates and sizes, of which
 * some share a flow, a link or a shaper, changed parameters, resets, and a reader whose ring buffer is full or absent at times.
 *
 * The order of the departures must be that of deficit round robin with new and old flows (RFC 8290, section 4), as it is written here a second time. Each event
 * that the reader receives must be of the flow of its packet, and is decided again by the rules of bpf_rules.h, for each flow alone. An excerpt of a flow must
 * begin with exactly the state of its rules. A packet must be dropped before its flow if the queue is full, and only then.
 *
 * Then 64 flows always have packets: the bytes of any two must differ by less than a quantum and a packet.
 *
 * usage: bpf_fq ENQUEUES      bpf.py compiles it, with QDISC as the name of pie_qdisc.bpf.c */
#include "bpf_kernel.h"

#define SENDERS 64
#define STEPS 20000 /* of a history */

/* ---- The flows, as they should be */

struct model {
    struct rules rules;
    uint64_t events, decided, taken, lost, left_tag;
    uint64_t head, tail, bytes; /* of its packets */
    struct owned *packets[QDISC_LIMIT];
    int64_t deficit;
    uint32_t number;
    bool is_known, is_open, is_listed;
};

enum { NEW, OLD };

static struct model models[SENDERS];
static struct model *of_number[QDISC_FLOWS], *lists[2][SENDERS];
static struct model *present; /* the flow of the present call */
static int lengths[2], models_count;
static uint64_t decided, snapshots, answers[5], total, total_bytes, over_limit, expected_drops;
static char message_place[1024];
static struct qdisc_fq *const fq = &all_fqs[0];

static void fail(const char *what) {
    printf("after %llu events: %s\n", (unsigned long long)decided, what);
    exit(1);
}

static struct qdisc_flow *real(const struct model *it) {
    return &all_flows[it->number];
}

static void append_to(int list, struct model *it) {
    lists[list][lengths[list]++] = it;
    it->is_listed = true;
}

static struct model *without_first(int list) {
    struct model *first = lists[list][0];
    memmove(&lists[list][0], &lists[list][1], sizeof lists[0][0] * (size_t)--lengths[list]);
    first->is_listed = false;
    return first;
}

/* Returns the flow whose packet departs next, or NULL. */
static struct model *next_of_round(void) {
    while (lengths[NEW] || lengths[OLD]) {
        int list = lengths[NEW] ? NEW : OLD;
        struct model *it = lists[list][0];
        if (it->deficit <= 0) {
            it->deficit += queue->config.quantum;
            append_to(OLD, without_first(list));
        } else if (it->head != it->tail) {
            return it;
        } else {
            without_first(list);
            if (list == NEW && lengths[OLD])
                append_to(OLD, it);
        }
    }
    return NULL;
}

/* ---- The reader */

static void *bpf_ringbuf_reserve(void *ring, uint64_t size, uint64_t flags) {
    (void)ring, (void)flags;
    return is_ring_full || size > sizeof message_place ? NULL : message_place;
}

/* Compares a snapshot with the rules of its flow, or gives them its state. */
static void take_snapshot(struct model *flow, const struct qdisc_snapshot *it) {
    struct rules *rules = &flow->rules;
    uint32_t at = it->first;
    if (flow->is_known && (flow->events != it->count || !is_state(rules, &it->pie) || rules->bytes != it->bytes || rules->tail - rules->head != it->tail - it->head))
        fail("a snapshot differs");
    if (flow->is_known && it->snapshot == flow->taken)
        fail("a snapshot comes again");
    if (it->count < flow->events || it->lost != flow->lost || it->taken != fq->taken)
        fail("the numbers of a snapshot");
    flow->taken = it->snapshot;
    rules->opening = it->opening;
    rules->params = it->pie.params;
    rules->now = it->pie.moment, rules->last = it->pie.last, rules->burst = it->pie.burst, rules->old = it->pie.old_delay, rules->average = it->pie.average;
    rules->waited = it->pie.waited, rules->cycle_start = it->pie.cycle_start, rules->cycle_bytes = it->pie.cycle_count, rules->bytes = it->bytes;
    rules->prob = it->pie.prob, rules->sum = it->pie.accu, rules->is_on = it->pie.active, rules->has_cycle = it->pie.measuring;
    rules->head = rules->tail = 0;
    for (uint64_t count = it->tail - it->head; count; count--) {
        const struct qdisc_place *place = &all_places[at];
        const struct owned *packet = flow->packets[(flow->head + rules->tail) % QDISC_LIMIT];
        if (place->tag >> 32 != packet->hash)
            fail("the packets of a snapshot differ");
        rules->queue[rules->tail++ % PLACES] = (struct packet){place->since, place->tag, place->size};
        at = place->next;
    }
    flow->events = it->count;
    flow->is_known = true;
    snapshots++;
}

static void bpf_ringbuf_submit(void *data, uint64_t flags) {
    const struct qdisc_message *it = data;
    struct model *flow = it->flow < QDISC_FLOWS ? of_number[it->flow] : NULL;
    struct pie_event expected;
    (void)flags;
    if (it->kind == QDISC_END)
        return;
    if (flow == NULL || (present != NULL && flow != present))
        fail("a message is of another flow");
    if (it->kind == QDISC_SNAPSHOT) {
        take_snapshot(flow, data);
        return;
    }
    if (!flow->is_known)
        fail("an event comes before a snapshot");
    expected = it->event;
    decide(&flow->rules, &it->event, &((const struct qdisc_new_params *)data)->params, &expected);
    if (memcmp(&expected, &it->event, sizeof expected))
        fail("an event differs");
    if (it->event.kind == PIE_EVENT_ARRIVE) {
        uint32_t size = arriving->size < 1 ? 1 : arriving->size > PIE_MAX_SIZE ? PIE_MAX_SIZE : arriving->size;
        if (it->event.size != size || it->event.tag >> 32 != arriving->hash || it->event.ecn != PIE_NOT_ECT)
            fail("an arrival is recorded wrongly");
        answers[it->event.answer % 5]++;
    }
    if (it->event.kind == PIE_EVENT_PARAMS && memcmp(&((const struct qdisc_new_params *)data)->params, &queue->config.params, sizeof queue->config.params))
        fail("other parameters are set");
    if (it->event.kind == PIE_EVENT_DEPART)
        flow->left_tag = it->event.tag;
    if (it->event.kind != PIE_EVENT_UPDATE && it->event.moment != now)
        fail("a moment is not the present one");
    flow->events++;
    flow->decided++;
    decided++;
}

/* ---- The kernel */

static struct sender {
    uint32_t hash;
    uint64_t arrival, gap, size;
} senders[SENDERS];
static uint64_t enqueued, changed, next_made, visited_bytes;
static bool is_busy, is_full_speed; /* the link sends a packet; it needs no time */

/* Checks what holds after a call for this flow; NULL: for the queue alone. */
static void check_rest(const struct model *it) {
    if (it != NULL) {
        const struct qdisc_queue *flow = &real(it)->queue;
        if (it->is_known && !flow->is_skipping && has_ring && (it->events != flow->count || !is_state(&it->rules, &flow->pie)))
            fail("the state differs");
        /* (new parameters apply after the updates of this call) */
        if (flow->pie.last + flow->pie.params.t_update <= now && changed == flow->changed)
            fail("an update was due");
        if (flow->lost + flow->unread + it->decided != flow->count)
            fail("an event is not counted");
        if (flow->tail - flow->head != it->tail - it->head || flow->refused || real(it)->deficit != it->deficit)
            fail("the numbers of a flow differ");
    }
    if (sch.q.qlen != total || queue->tail - queue->head != total || sch.qstats.backlog != total_bytes || sch.qstats.drops != expected_drops ||
        fq->over_limit != over_limit || fq->taken - fq->given != total)
        fail("the counters differ");
}

/* Begins a call of a flow, which may open it. */
static void begin_call(struct model *it) {
    present = it;
    if (!it->is_open) {
        struct pie_opening opening = queue->config.opening;
        opening.moment = now;
        opening.params = queue->config.params;
        open_rules(&it->rules, &opening);
        it->events = it->decided = it->taken = it->lost = 0;
        it->is_open = it->is_known = true;
        real(it)->queue.lost = real(it)->queue.unread = 0;
        real(it)->queue.changed = queue->config.changes;
    }
    changed = real(it)->queue.changed;
}

/* Follows what the reader misses. */
static void end_call(struct model *it, uint64_t lost, uint64_t unread) {
    if (real(it)->queue.lost != lost || real(it)->queue.unread != unread)
        it->is_known = false;
    it->lost = real(it)->queue.lost;
    present = NULL;
}

static void end_departure(struct model *it, struct owned *packet) {
    if (it->packets[it->head++ % QDISC_LIMIT] != packet)
        fail("another packet departs");
    it->deficit -= packet->size;
    it->bytes += packet->size;
    total--;
    total_bytes -= packet->size;
    visited_bytes += packet->size;
}

static void dequeue(void) {
    struct model *it = NULL;
    struct owned *packet;
    uint64_t lost = 0, unread = 0;
    wake = 0;
    if (total && !(queue->config.shaper.cost && now < queue->next)) {
        it = next_of_round();
        begin_call(it);
        lost = real(it)->queue.lost, unread = real(it)->queue.unread;
    }
    packet = owned_of(fq_op_dequeue(&sch));
    if (packet != NULL) {
        if (it == NULL)
            fail("a packet departs before it may");
        end_departure(it, packet);
        if (sent_bytes != visited_bytes)
            fail("a departure is not counted");
        check_pacing(packet);
        end_packet(&packet->skb);
        is_busy = !is_full_speed;
        link_out.departure = now + (queue->config.shaper.cost ? 0 : packet->size * link_out.pace / 1000);
    } else if (it != NULL) {
        fail("no packet departs");
    }
    if (wake * 1000 > allowed_ps + tolerance())
        fail("the shaper holds a packet too long");
    if (it != NULL) {
        end_call(it, lost, unread);
        if (it->is_known && has_ring && it->left_tag >> 32 != packet->hash)
            fail("the tag of a departure differs");
    }
    check_rest(it);
}

/* Returns the flow of a sender, which the perturbation of the queue decides. */
static struct model *model_of(const struct sender *sender) {
    uint32_t number = flow_of(sender->hash, fq->perturbation, queue->config.flows);
    if (number >= queue->config.flows)
        fail("a flow is out of range");
    if (of_number[number] == NULL) {
        of_number[number] = &models[models_count++];
        of_number[number]->number = number;
    }
    return of_number[number];
}

static void enqueue(const struct sender *sender) {
    struct model *it = model_of(sender);
    struct owned *packet;
    uint64_t lost, unread, drops = dropped;
    bool is_full = total >= queue->config.opening.packets;
    int verdict;
    while (made[next_made % (2 * QDISC_PACKETS)].is_alive)
        next_made++;
    packet = &made[next_made++ % (2 * QDISC_PACKETS)];
    packet->hash = sender->hash;
    packet->size = (uint32_t)(is_full_speed ? sender->size : draw() % 500 ? draw() % 3 ? sender->size : between(1, 2 * sender->size) : between(0, 70000));
    packet->is_alive = true;
    *(uint32_t *)packet->skb.cb = packet->size;
    if (!total)
        begin_pacing();
    arriving = packet;
    if (!is_full)
        begin_call(it);
    lost = real(it)->queue.lost, unread = real(it)->queue.unread;
    verdict = fq_op_enqueue(&packet->skb, &sch, NULL);
    enqueued++;
    if (verdict == NET_XMIT_SUCCESS) {
        if (is_full || dropped != drops || real(it)->queue.tail - real(it)->queue.head != it->tail - it->head + 1)
            fail("a packet is not queued");
        it->packets[it->tail++ % QDISC_LIMIT] = packet;
        total++;
        total_bytes += packet->size;
        if (!it->is_listed) {
            it->deficit = queue->config.quantum;
            append_to(NEW, it);
        }
    } else {
        if (dropped != drops + 1)
            fail("a packet is not dropped");
        expected_drops++;
        over_limit += is_full;
    }
    if (!is_full)
        end_call(it, lost, unread);
    check_rest(is_full ? NULL : it);
    if (!is_busy && !is_full_speed)
        dequeue();
}

/* Resets the queue. Each flow that was opened is reset, and loses its packets. */
static void reset(void) {
    uint64_t lost[SENDERS], unread[SENDERS];
    for (int at = 0; at < models_count; at++) {
        if (!models[at].is_open)
            continue;
        lost[at] = real(&models[at])->queue.lost;
        unread[at] = real(&models[at])->queue.unread;
    }
    present = NULL;
    fq_op_reset(&sch);
    total = total_bytes = 0;
    lengths[NEW] = lengths[OLD] = 0;
    for (int at = 0; at < models_count; at++) {
        struct model *it = &models[at];
        it->head = it->tail;
        it->is_listed = false;
        it->deficit = 0;
        if (!it->is_open)
            continue;
        end_call(it, lost[at], unread[at]);
        changed = ~UINT64_C(0);
        check_rest(it);
    }
    for (unsigned at = 0; at < 2 * QDISC_PACKETS; at++) {
        if (made[at].is_alive)
            fail("a reset keeps a packet");
    }
    is_busy = false;
    wake = 0;
}

/* Does what pie-qdisc does beside the kernel. */
static void interfere(void) {
    switch (draw() % 6) {
    case 0:
        has_ring = true;
        is_ring_full = false;
        queue->config.snapshots++;
        break;
    case 1:
        has_ring = draw() % 4 != 0;
        break;
    case 2:
        is_ring_full = !is_ring_full;
        break;
    case 3:
        queue->config.params = chosen_params();
        if (queue->config.shaper.cost)
            set_rate(link_out.pace * (1 + draw() % 3));
        queue->config.changes++;
        break;
    case 4:
        queue->config.quantum = (uint32_t)between(256, 1 << 20);
        break;
    default:
        if (draw() % 8 == 0)
            reset();
    }
}

static void add_queue(void) {
    prepare_queue();
    memset(of_number, 0, sizeof of_number);
    for (int at = 0; at < SENDERS; at++) {
        models[at].is_open = models[at].is_known = models[at].is_listed = false;
        models[at].head = models[at].tail = models[at].bytes = 0;
        models[at].deficit = 0;
    }
    models_count = lengths[NEW] = lengths[OLD] = 0;
    queue->config.flows = draw() % 2 ? QDISC_FLOWS : 1 + draw() % QDISC_FLOWS;
    queue->config.quantum = draw() % 2 ? 1514 : (uint32_t)between(256, 1 << 20);
    if (fq_op_init(&sch, NULL, NULL) || sch.limit != 1 || queue->config.use != QDISC_USED)
        fail("the queue is not added");
    allowed_ps = begun_ps = now * 1000;
    paced = total = total_bytes = over_limit = expected_drops = wake = 0;
    is_busy = false;
    for (int at = 0; at < SENDERS; at++) {
        /* (their loads differ by up to 2^10) */
        struct sender *it = &senders[at];
        uint64_t share = SENDERS * link_out.pace / 1000 + 1;
        it->hash = (uint32_t)draw();
        it->size = draw() % 2 ? link_out.mean : between(40, 2 * link_out.mean);
        it->gap = (it->size * share << (draw() % 8)) / (1 + draw() % 8) * 4 / link_out.quarters + 1;
        it->arrival = now + draw() % it->gap;
    }
}

/* Makes the next call of the kernel. */
static void step(void) {
    struct sender *first = &senders[0];
    for (int at = 1; at < SENDERS; at++) {
        if (senders[at].arrival < first->arrival)
            first = &senders[at];
    }
    if (draw() % 1000 == 0)
        interfere();
    if (is_busy && link_out.departure <= first->arrival) {
        now = link_out.departure > now ? link_out.departure : now;
        is_busy = false;
        dequeue();
    } else if (wake && wake <= first->arrival) {
        now = wake > now ? wake : now;
        dequeue();
    } else {
        now = first->arrival > now ? first->arrival : now;
        enqueue(first);
        first->arrival = now + (draw() % 8 ? first->gap / 2 + draw() % (first->gap + 1) : 0);
    }
}

static void remove_queue(void) {
    reset();
    fq_op_destroy(&sch);
    if (queue->config.use != QDISC_FREE || sch.q.qlen || sch.qstats.backlog)
        fail("the queue is not removed");
}

/* Serves flows that always have packets, of 40 to 1514 bytes, and returns the greatest difference between the bytes of two. */
static uint64_t fairness(void) {
    uint64_t most = 0;
    add_queue();
    remove_queue();
    prepare_queue();
    memset(of_number, 0, sizeof of_number);
    models_count = 0;
    pie_default_opening(&queue->config.opening, 0);
    queue->config.opening.packets = QDISC_LIMIT;
    queue->config.opening.params.target = 1000000000;
    queue->config.params = queue->config.opening.params;
    memset(&queue->config.shaper, 0, sizeof queue->config.shaper);
    queue->config.flows = QDISC_FLOWS;
    queue->config.quantum = 1514;
    is_full_speed = true;
    over_limit = expected_drops = 0;
    if (fq_op_init(&sch, NULL, NULL))
        fail("the queue is not added");
    for (int at = 0; at < SENDERS; at++) {
        senders[at].size = 40 + draw() % 1475;
        do
            senders[at].hash = (uint32_t)draw();
        while (of_number[flow_of(senders[at].hash, fq->perturbation, QDISC_FLOWS)] != NULL);
        (void)model_of(&senders[at]);
        models[at].is_open = models[at].is_listed = false;
        models[at].bytes = 0;
        enqueue(&senders[at]);
        enqueue(&senders[at]);
    }
    for (int round = 0; round < 100000; round++) {
        uint64_t least = UINT64_MAX, greatest = 0;
        now += 1000;
        dequeue();
        for (int at = 0; at < SENDERS; at++) {
            while (models[at].tail - models[at].head < 2)
                enqueue(&senders[at]);
            least = models[at].bytes < least ? models[at].bytes : least;
            greatest = models[at].bytes > greatest ? models[at].bytes : greatest;
        }
        most = greatest - least > most ? greatest - least : most;
    }
    is_full_speed = false;
    remove_queue();
    if (most >= 1514 + 1514)
        fail("flows with packets differ too much");
    return most;
}

int main(int count, char **words) {
    uint64_t wanted = count > 1 ? strtoull(words[1], NULL, 10) : 100000, histories = 0, lost = 0, unread = 0, full = 0, used = 0, most;
    for (; enqueued < wanted; histories++) {
        add_queue();
        for (int number = 0; number < STEPS; number++)
            step();
        remove_queue();
        for (int at = 0; at < models_count; at++) {
            lost += real(&models[at])->queue.lost;
            unread += real(&models[at])->queue.unread;
            used += models[at].is_open;
        }
        full += over_limit;
    }
    most = fairness();
    printf("equal: %llu enqueues of %llu queues with %llu flows, %llu events: %llu queued, %llu early, %llu over_bytes, %llu over the limit; %llu snapshots; %llu lost, "
           "%llu without a reader; the bytes of two flows differ by %llu\n", (unsigned long long)enqueued, (unsigned long long)histories, (unsigned long long)used,
           (unsigned long long)decided, (unsigned long long)answers[0], (unsigned long long)answers[2], (unsigned long long)answers[3], (unsigned long long)full,
           (unsigned long long)snapshots, (unsigned long long)lost, (unsigned long long)unread, (unsigned long long)most);
    return !answers[2] || !answers[3] || answers[4] || !full || !lost || !unread || snapshots < used * 2;
}
