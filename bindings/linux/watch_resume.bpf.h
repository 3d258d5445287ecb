/* A part of pie_watch.bpf.c: writes a queue that worked before, or whose steps were lost, as it is before its next step. */
#define COPY 128 /* bytes of the kernel's struct sk_buff that have the fields that are read */

struct walk {
    u64 next, end; /* the next packet or flow, and the end of the list */
    u64 flows;
    u32 place, flow, list, is_peeked;
    u32 memory; /* of the packets */
};

/* The lists of struct watch_flow. */
enum { NO_LIST, NEW_FLOWS, OLD_FLOWS };

/* A field of a copy of a kernel's struct, from the field `first` on. */
#define COPIED(copy, type, field, first) (*(typeof(((struct type *)0)->field) *)((char *)(copy) + OFFSET(type, field) - OFFSET(type, first)))

static __always_inline struct walk walk_of(const struct queue *queue, u64 next, u64 end) {
    return (struct walk){.next = next, .end = end, .flows = queue->flows, .place = queue->place};
}

/* Fills the head of the next record of a resumed queue. */
static __always_inline void head_of_part(struct watch_head *head, const struct queue *queue, enum watch_type type, u32 flow) {
    fill_head(head, queue, type, queue->seq - 1, queue->resumed);
    head->flow = flow;
}

/* Writes a packet of a list. Returns 1 at its end, or if the ring is full. The record is first a copy of the beginning of the kernel's struct: one copy of
 * several fields needs fewer instructions than a copy of each. */
static long write_waiting(u32 number, struct walk *walk) {
    struct queue *queue = &queues[walk->place % WATCH_PLACES];
    struct watch_wait *record = next_record(queue);
    u64 skb = walk->next, enqueued;
    u32 size, pkt_len, memory;
    char *cb;
    if (skb == 0 || skb == walk->end || queue->is_broken)
        return 1;
    bpf_probe_read_kernel(record, COPY, (void *)skb);
    cb = (char *)record + OFFSET(sk_buff, cb);
    walk->next = (u64)COPIED(record, sk_buff, next, next);
    size = COPIED(record, sk_buff, len, next);
    pkt_len = COPIED(cb, qdisc_skb_cb, pkt_len, pkt_len);
    enqueued = *(u64 *)(cb + OFFSET(qdisc_skb_cb, data) + OFFSET(pie_skb_cb, enqueue_time));
    memory = *(u32 *)(cb + OFFSET(qdisc_skb_cb, data) + OFFSET(pie_skb_cb, mem_usage));
    head_of_part(&record->head, queue, WATCH_WAIT, walk->flow);
    record->enqueued = enqueued;
    record->size = size;
    record->pkt_len = pkt_len;
    record->memory = memory;
    record->is_peeked = walk->is_peeked;
    walk->memory += memory;
    hold(queue);
    return 0;
}

/* Writes the packets of a list of a queue, whose memory is added to `waiting_memory` unless they were returned. */
__noinline int write_packets(u32 place, u64 next, u64 end, u32 flow, u32 is_peeked) {
    struct queue *queue = &queues[place % WATCH_PLACES];
    struct walk walk = walk_of(queue, next, end);
    walk.flow = flow;
    walk.is_peeked = is_peeked;
    bpf_loop(MOST_WAITING, write_waiting, &walk, 0);
    if (!is_peeked)
        queue->waiting_memory += walk.memory;
    return 0;
}

/* (This function and write_flows are verified also if the kernel has no types of fq_pie: `has_fq_pie` is a constant for the verifier.) */

/* Writes a flow of fq_pie and its packets. A flow of NO_LIST is not written if it is in a list. Returns the next flow of the list. */
__noinline u64 write_flow(u32 place, u64 flow, u32 number, u32 list) {
    struct queue *queue = &queues[place % WATCH_PLACES];
    struct watch_flow *record = next_record(queue);
    u32 deficit, backlog, qlen;
    u64 next, packets;
    if (!has_fq_pie)
        return 0;
    bpf_probe_read_kernel(&record->vars, bpf_core_type_size(struct fq_pie_flow), (void *)(flow + OFFSET(fq_pie_flow, vars)));
    deficit = COPIED(&record->vars, fq_pie_flow, deficit, vars);
    backlog = COPIED(&record->vars, fq_pie_flow, backlog, vars);
    qlen = COPIED(&record->vars, fq_pie_flow, qlen, vars);
    next = (u64)COPIED(&record->vars, fq_pie_flow, flowchain.next, vars);
    packets = (u64)COPIED(&record->vars, fq_pie_flow, head, vars);
    if (list == NO_LIST && next != flow + OFFSET(fq_pie_flow, flowchain))
        return next;
    head_of_part(&record->head, queue, WATCH_FLOW, number);
    record->deficit = deficit;
    record->backlog = backlog;
    record->qlen = qlen;
    record->list = list;
    hold(queue);
    if (packets != 0)
        write_packets(place, packets, 0, number, 0);
    return next;
}

/* Writes the next flow of a list. Returns 1 at its end, or if the ring is full. */
static long write_listed(u32 number, struct walk *walk) {
    u64 flow = walk->next - OFFSET(fq_pie_flow, flowchain);
    if (walk->next == walk->end || queues[walk->place % WATCH_PLACES].is_broken)
        return 1;
    walk->next = write_flow(walk->place, flow, (flow - walk->flows) / bpf_core_type_size(struct fq_pie_flow), walk->list);
    return 0;
}

/* Writes a flow that is in no list, if its state is not the initial one. Returns 1 if the ring is full. */
static long write_unlisted(u32 number, struct walk *walk) {
    struct queue *queue = &queues[walk->place % WATCH_PLACES];
    u64 flow = walk->flows + (u64)number * bpf_core_type_size(struct fq_pie_flow);
    struct watch_vars *vars = next_record(queue);
    if (queue->is_broken)
        return 1;
    READ(*vars, flow, fq_pie_flow, vars);
    if (vars->dq_tstamp == ~0ull && (vars->qdelay | vars->qdelay_old | vars->prob | vars->accu_prob | vars->backlog_old) == 0)
        return 0;
    write_flow(walk->place, flow, number, NO_LIST);
    return 0;
}

/* Writes the flows of a list, the first of which is `next`; or the flows of no list, `end` in number. */
__noinline int write_flows(u32 place, u64 next, u64 end, u32 list) {
    struct queue *queue = &queues[place % WATCH_PLACES];
    struct walk walk = walk_of(queue, next, end);
    if (!has_fq_pie)
        return 0;
    walk.list = list;
    if (list == NO_LIST)
        bpf_loop(end < MOST_FLOWS ? (u32)end : MOST_FLOWS, write_unlisted, &walk, 0);
    else
        bpf_loop(MOST_FLOWS, write_listed, &walk, 0);
    return 0;
}

/* Writes the packets that were returned to a queue. */
__noinline int write_returned(u32 place) {
    struct queue *queue = &queues[place % WATCH_PLACES];
    u64 next = 0;
    READ(next, queue->sch, Qdisc, gso_skb.next);
    write_packets(place, next, queue->sch + OFFSET(Qdisc, gso_skb), WATCH_FLOW_NONE, 1);
    READ(next, queue->sch, Qdisc, skb_bad_txq.next);
    return write_packets(place, next, queue->sch + OFFSET(Qdisc, skb_bad_txq), WATCH_FLOW_NONE, 1);
}

/* Returns true if the ring has a place for a queue with this number of packets and flows. `is_needed`: steps are lost until it has. */
static __always_inline bool has_place(u32 waiting, u32 flows, bool is_needed) {
    u64 needed = ((u64)waiting + 2 * (u64)flows + 8) * (WATCH_MOST + 8), size = bpf_ringbuf_query(&ring, BPF_RB_RING_SIZE);
    if (size < needed && is_needed)
        ring_needed = needed;
    return size >= needed + bpf_ringbuf_query(&ring, BPF_RB_AVAIL_DATA);
}

/* Returns true if the queue's rate estimator is on, but the programs that read the clock are not attached. */
static __always_inline bool lacks_clock(struct queue *queue) {
    u8 rate = 0;
    READ(rate, queue->key, pie_params, dq_rate_estimator);
    if (rate == 0 || has_clock)
        return false;
    needs_clock = true;
    return true;
}

/* Writes the queue at a place as it is before its next step: WATCH_RESUME, its flows and its packets, if the ring has a place for them and the queue is not
 * reset. Until then, a broken queue loses its steps. The caller has the queue's lock. */
__noinline int resume(u32 at) {
    struct queue *queue = &queues[at % WATCH_PLACES];
    u64 own = queue->sch + OFFSET(Qdisc, privdata), next = 0;
    u32 flows = 0, waiting = 0;
    if (queue->is_resetting != 0) /* on another processor, without the lock */
        return 0;
    queue->is_due = false;
    flush(queue->place);
    if (is_fq_pie(queue))
        READ(flows, own, fq_pie_sched_data, flows_cnt);
    READ(waiting, queue->sch, Qdisc, q.qlen);
    if (lacks_clock(queue) || !has_place(waiting, flows, queue->is_broken || queue->segment != segment))
        return 0;
    if (!write_lost(queue))
        return 0;
    struct watch_whole *record = bpf_ringbuf_reserve(&ring, sizeof *record, 0);
    if (record == NULL)
        return 0;
    queue->resumed = NOW;
    fill_head(&record->head, queue, WATCH_RESUME, queue->seq++, queue->resumed);
    read_whole(record, queue);
    queue->segment = segment;
    queue->waiting_memory = 0;
    queue->is_broken = false; /* `hold` sets it if the ring is full */
    write_returned(queue->place);
    if (is_fq_pie(queue)) {
        READ(next, own, fq_pie_sched_data, new_flows.next);
        write_flows(queue->place, next, own + OFFSET(fq_pie_sched_data, new_flows), NEW_FLOWS);
        READ(next, own, fq_pie_sched_data, old_flows.next);
        write_flows(queue->place, next, own + OFFSET(fq_pie_sched_data, old_flows), OLD_FLOWS);
        write_flows(queue->place, 0, flows, NO_LIST);
        record->kept_memory = queue->memory - queue->waiting_memory;
    } else {
        READ(next, queue->sch, Qdisc, q.head);
        write_packets(queue->place, next, 0, WATCH_FLOW_NONE, 0);
    }
    flush(queue->place);
    write(record);
    return 0;
}

/* Resumes the queue if steps were lost, if a segment begins, or if the program in user space wants it. */
static __always_inline void resume_if_due(struct queue *queue) {
    if (queue->is_broken || queue->is_due || queue->segment != segment)
        resume(queue->place);
}
