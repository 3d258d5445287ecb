/* Runs the queue discipline of bindings/bpf/pie_qdisc.bpf.c on this processor, with the calls of dist/bpf/pie_c.ll, in random histories: a kernel that
 * enqueues packets and calls dequeue for a link of random rate, shapers, changed parameters, resets, and a reader whose ring buffer is full or absent at times.
 *
 * Each event that the reader receives is decided again by the rules of bpf_rules.h. An excerpt must begin with exactly the state of the rules, unless events
 * are lost; their number must be right. Each update that is due must be made. Packets must leave in order, each once, not before the shaper lets them, and
 * the kernel's counters must be right.
 *
 * usage: bpf_qdisc ENQUEUES      bpf.py compiles it, with QDISC as the name of pie_qdisc.bpf.c */
#include "bpf_kernel.h"

/* ---- The reader */

static struct rules rules;
static bool is_known;   /* the rules have the state of the queue: each event since the last snapshot was received */
static uint64_t events; /* that were decided again, since the opening */
static uint64_t snapshots, taken, lost_events, left, left_tag, decided, answers[5];
static char message_place[1024];

static void fail(const char *what) {
    printf("after %llu events: %s\n", (unsigned long long)decided, what);
    exit(1);
}

static void *bpf_ringbuf_reserve(void *ring, uint64_t size, uint64_t flags) {
    (void)ring, (void)flags;
    return is_ring_full || size > sizeof message_place ? NULL : message_place;
}

/* Compares a snapshot with the rules, or gives them its state. */
static void take_snapshot(const struct qdisc_snapshot *it) {
    uint64_t number = it->head;
    if (is_known && (events != it->count || !is_state(&rules, &it->pie) || rules.bytes != it->bytes || rules.tail - rules.head != it->tail - it->head))
        fail("a snapshot differs");
    if (it->stats.left != left && is_known)
        fail("the statistics of a snapshot differ");
    if (is_known && it->snapshot == taken)
        fail("a snapshot comes again");
    taken = it->snapshot;
    if (it->count < events || (is_known && it->lost != lost_events))
        fail("the number of lost events");
    rules.opening = it->opening;
    rules.params = it->pie.params;
    rules.now = it->pie.moment, rules.last = it->pie.last, rules.burst = it->pie.burst, rules.old = it->pie.old_delay, rules.average = it->pie.average;
    rules.waited = it->pie.waited, rules.cycle_start = it->pie.cycle_start, rules.cycle_bytes = it->pie.cycle_count, rules.bytes = it->bytes;
    rules.prob = it->pie.prob, rules.sum = it->pie.accu, rules.is_on = it->pie.active, rules.has_cycle = it->pie.measuring;
    for (rules.head = rules.tail = it->head; number != it->tail; number++) {
        const struct qdisc_place *place = &all_places[number % QDISC_PACKETS];
        rules.queue[rules.tail++ % PLACES] = (struct packet){place->since, place->tag, (uint32_t)place->size};
    }
    left = it->stats.left;
    lost_events = it->lost;
    events = it->count;
    is_known = true;
    snapshots++;
}

static void bpf_ringbuf_submit(void *data, uint64_t flags) {
    const struct qdisc_message *it = data;
    struct pie_event expected;
    (void)flags;
    if (it->kind == QDISC_SNAPSHOT) {
        take_snapshot(data);
        return;
    }
    if (it->kind == QDISC_END)
        return;
    if (!is_known)
        fail("an event comes before a snapshot");
    expected = it->event;
    decide(&rules, &it->event, &((const struct qdisc_new_params *)data)->params, &expected);
    if (memcmp(&expected, &it->event, sizeof expected))
        fail("an event differs");
    if (it->event.kind == PIE_EVENT_ARRIVE) {
        uint32_t size = arriving->size < 1 ? 1 : arriving->size > PIE_MAX_SIZE ? PIE_MAX_SIZE : arriving->size;
        if (it->event.size != size || it->event.tag >> 32 != arriving->hash || it->event.ecn != PIE_NOT_ECT)
            fail("an arrival is recorded wrongly");
        answers[it->event.answer % 5]++;
    }
    if (it->event.kind == PIE_EVENT_PARAMS && memcmp(&((const struct qdisc_new_params *)data)->params, &queue->config.params, sizeof queue->config.params))
        fail("other parameters are set");
    if (it->event.kind == PIE_EVENT_DEPART) {
        left++;
        left_tag = it->event.tag;
    }
    if (it->event.kind != PIE_EVENT_UPDATE && it->event.moment != now)
        fail("a moment is not the present one");
    events++;
    decided++;
}

/* ---- The kernel */

static uint64_t made_count, enqueued, expected_drops, expected_bytes, first_of_queue, departures_bytes;
static uint64_t changed; /* of the queue, after the last call */
static bool is_busy; /* the link sends a packet */

/* Checks what holds after a call, which was one of dequeue that found the queue empty or another one. */
static void check_rest(bool was_empty) {
    if (is_known && !queue->is_skipping && has_ring && (events != queue->count || !is_state(&rules, &queue->pie)))
        fail("the state differs");
    /* (new parameters apply after the updates of this call) */
    if (!was_empty && queue->pie.last + queue->pie.params.t_update <= now && changed == queue->changed)
        fail("an update was due");
    changed = queue->changed;
    if (sch.q.qlen != queue->tail - queue->head || sch.q.qlen != made_count - ended || sch.qstats.backlog != expected_bytes || queue->refused ||
        sch.qstats.drops != expected_drops)
        fail("the counters of the kernel differ");
    if (queue->lost + queue->unread + decided != queue->count)
        fail("an event is not counted");
}

/* Follows what the reader misses. */
static void follow(uint64_t lost, uint64_t unread) {
    if (queue->lost != lost || queue->unread != unread)
        is_known = false;
    lost_events = queue->lost;
}

static void dequeue(void) {
    uint64_t lost = queue->lost, unread = queue->unread, departures = queue->head;
    bool was_empty = queue->head == queue->tail;
    struct owned *packet;
    wake = 0;
    packet = owned_of(qdisc_op_dequeue(&sch));
    if (packet != NULL) {
        if (packet != &made[first_of_queue % (2 * QDISC_PACKETS)] || queue->head != departures + 1)
            fail("another packet departs");
        check_pacing(packet);
        first_of_queue++;
        expected_bytes -= packet->size;
        departures_bytes += packet->size;
        if (sent_bytes != departures_bytes)
            fail("a departure is not counted");
        end_packet(&packet->skb);
        is_busy = true;
        link_out.departure = now + (queue->config.shaper.cost ? 0 : packet->size * link_out.pace / 1000);
    }
    if (wake * 1000 > allowed_ps + tolerance())
        fail("the shaper holds a packet too long");
    follow(lost, unread);
    if (packet != NULL && is_known && has_ring && left_tag >> 32 != packet->hash)
        fail("the tag of a departure differs");
    check_rest(was_empty);
}

static void enqueue(void) {
    struct owned *packet = &made[made_count % (2 * QDISC_PACKETS)];
    uint64_t lost = queue->lost, unread = queue->unread, tail = queue->tail, drops = dropped;
    int verdict;
    if (packet->is_alive)
        fail("a packet was not ended");
    packet->hash = (uint32_t)draw();
    packet->size = (uint32_t)(draw() % 500 ? draw() % 3 ? link_out.mean : between(1, 2 * link_out.mean) : between(0, 70000));
    packet->is_alive = true;
    *(uint32_t *)packet->skb.cb = packet->size;
    if (queue->head == queue->tail)
        begin_pacing();
    made_count++;
    arriving = packet;
    verdict = qdisc_op_enqueue(&packet->skb, &sch, NULL);
    enqueued++;
    if (verdict == NET_XMIT_SUCCESS) {
        if (queue->tail != tail + 1 || dropped != drops)
            fail("a packet is not queued");
        /* (a packet that no reader receives has no hash) */
        if (all_places[tail % QDISC_PACKETS].tag >> 32 == 0)
            packet->hash = 0;
        expected_bytes += packet->size;
    } else {
        if (queue->tail != tail || dropped != drops + 1)
            fail("a packet is not dropped");
        expected_drops++;
        /* (the next packet takes its place in `made`) */
        made_count--;
        ended--;
    }
    follow(lost, unread);
    check_rest(false);
    if (!is_busy)
        dequeue();
}

/* Does what pie-qdisc does beside the kernel: a reader comes or goes, its ring is full, parameters and the shaper change. */
static void interfere(void) {
    uint64_t lost = queue->lost, unread = queue->unread;
    switch (draw() % 5) {
    case 0:
        has_ring = true;
        is_ring_full = false;
        queue->config.snapshots++;
        break;
    case 1:
        has_ring = draw() % 4 != 0;
        break;
    case 2:
        is_ring_full = !is_ring_full;
        break;
    case 3:
        queue->config.params = chosen_params();
        if (queue->config.shaper.cost)
            set_rate(link_out.pace * (1 + draw() % 3));
        queue->config.changes++;
        break;
    default:
        if (draw() % 4)
            break;
        qdisc_op_reset(&sch);
        made_count = ended = first_of_queue = 0;
        for (unsigned at = 0; at < 2 * QDISC_PACKETS; at++) {
            if (made[at].is_alive)
                fail("a reset keeps a packet");
        }
        expected_bytes = 0;
        is_busy = false;
        wake = 0;
        follow(lost, unread);
        check_rest(false);
    }
}

static void add_queue(void) {
    struct qdisc_config *config = &queue->config;
    prepare_queue();
    if (qdisc_op_init(&sch, NULL, NULL) || sch.limit != 1 || config->use != QDISC_USED)
        fail("the queue is not added");
    link_out.arrival = now;
    allowed_ps = begun_ps = now * 1000;
    paced = 0;
    is_busy = false;
    open_rules(&rules, &config->opening);
    is_known = true;
    changed = taken = wake = events = left = decided = lost_events = made_count = ended = first_of_queue = expected_drops = expected_bytes = 0;
}

/* Makes the next call of the kernel. */
static void step(void) {
    uint64_t next = link_out.arrival, gap = link_out.pace * link_out.mean / 1000 * 4 / link_out.quarters;
    if (draw() % 500 == 0)
        interfere();
    if (draw() % 500 == 0)
        link_out.quarters = 2 + draw() % 15;
    if (is_busy && link_out.departure <= next) {
        now = link_out.departure > now ? link_out.departure : now;
        is_busy = false;
        dequeue();
    } else if (wake && wake <= next) {
        now = wake > now ? wake : now;
        dequeue();
    } else {
        now = next > now ? next : now;
        enqueue();
        link_out.arrival = now + (draw() % 8 ? gap / 2 + draw() % (gap + 1) : 0);
    }
}

int main(int count, char **words) {
    uint64_t wanted = count > 1 ? strtoull(words[1], NULL, 10) : 100000, histories = 0, lost = 0, unread = 0, all = 0;
    for (; enqueued < wanted; histories++) {
        add_queue();
        for (int number = 0; number < 6000; number++)
            step();
        qdisc_op_reset(&sch);
        qdisc_op_destroy(&sch);
        if (queue->config.use != QDISC_FREE || sch.q.qlen || sch.qstats.backlog)
            fail("the queue is not removed");
        for (unsigned at = 0; at < 2 * QDISC_PACKETS; at++) {
            if (made[at].is_alive)
                fail("a packet remains");
        }
        lost += queue->lost;
        unread += queue->unread;
        all += decided;
    }
    printf("equal: %llu enqueues of %llu queues, %llu events: %llu queued, %llu early, %llu over_bytes, %llu over_packets; %llu snapshots; %llu lost, %llu without "
           "a reader\n", (unsigned long long)enqueued, (unsigned long long)histories, (unsigned long long)all, (unsigned long long)answers[0],
           (unsigned long long)answers[2], (unsigned long long)answers[3], (unsigned long long)answers[4], (unsigned long long)snapshots, (unsigned long long)lost,
           (unsigned long long)unread);
    return !answers[2] || !answers[3] || !answers[4] || !lost || !unread || snapshots < histories * 2;
}
