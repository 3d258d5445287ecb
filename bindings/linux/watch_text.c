#include "watch_text.h"

#include <stdlib.h>
#include <string.h>

struct text_queue {
    bool is_there;
    u32 kind;
    u32 seq; /* of the next step */
    u32 dropped; /* the kernel's counter after the last record that has it */
    bool is_known, is_gap; /* `dropped` is known; steps were lost since */
    char name[48];
    struct watch_base base;
    u32 memory;
    struct watch_vars vars;   /* after the last step */
    struct watch_vars *flows; /* of fq_pie */
    u32 flows_count;
};

static const char columns[] =
    "qid,kind,type,seq,ns,cpu,flow,backlog,size,pktlen,mtu,qlen0,qlen1,bl0,bl1,limit,ret,proto,l3,room,early,nrnd,rnd,enq,nt,t0,t1,t2,hash,prio,truesize,x0,x1,"
    "x2,b_qdelay,b_qdelay_old,b_burst_time,b_dq_tstamp,b_prob,b_accu_prob,b_dq_count,b_avg_dq_rate,b_backlog_old,a_qdelay,a_qdelay_old,a_burst_time,"
    "a_dq_tstamp,a_prob,a_accu_prob,a_dq_count,a_avg_dq_rate,a_backlog_old,target,tupdate,plimit,alpha,beta,ecn,bytemode,dqrate,packets_in,dropped,overlimit,"
    "ecn_mark,maxq,rq,rqb,drop,moved\n";

/* A row. Fields that a type of row lacks are 0. */
struct row {
    const char *type;
    const struct watch_head *head;
    u64 seq;
    u64 ns; /* if the head has none */
    u32 backlog, size, pkt_len, mtu, qlen_before, qlen, backlog_before, backlog_after, limit, ret;
    u16 protocol, network;
    u32 room, early, draws;
    u64 random, enqueued;
    u32 readings;
    u64 at[3];
    u32 hash, priority, truesize, x[3];
    struct watch_vars before, after;
    u64 target;
    u32 tupdate, params_limit, alpha, beta, ecn, bytemode, dq_rate;
    struct watch_stats stats;
    u32 returned, returned_bytes, is_drop, dropped_returned;
};

/* ---- writing */

static char *put_number(char *to, u64 number) {
    char digits[20];
    size_t count = 0;
    do
        digits[count++] = (char)('0' + number % 10);
    while ((number /= 10) != 0);
    while (count > 0)
        *to++ = digits[--count];
    *to++ = ',';
    return to;
}

static char *put_text(char *to, const char *text) {
    size_t length = strlen(text);
    memcpy(to, text, length);
    to[length] = ',';
    return to + length + 1;
}

/* Writes a number of network byte order in hexadecimal digits, at least `least` of them. */
static char *put_hexadecimal(char *to, u16 number, int least) {
    unsigned value = (unsigned)(number & 255) << 8 | number >> 8;
    return to + sprintf(to, "%0*x,", least, value);
}

static char *put_vars(char *to, const struct watch_vars *vars) {
    to = put_number(to, vars->qdelay);
    to = put_number(to, vars->qdelay_old);
    to = put_number(to, vars->burst_time);
    to = put_number(to, vars->dq_tstamp);
    to = put_number(to, vars->prob);
    to = put_number(to, vars->accu_prob);
    to = put_number(to, vars->dq_count);
    to = put_number(to, vars->avg_dq_rate);
    return put_number(to, vars->backlog_old);
}

static char *put_numbers(char *to, const u32 *numbers, size_t count) {
    for (size_t i = 0; i < count; i++)
        to = put_number(to, numbers[i]);
    return to;
}

static void write_row(struct watch_text *text, const struct text_queue *queue, const struct row *row) {
    const struct watch_head *head = row->head;
    char line[2048], *to = line;
    to = put_text(to, queue->name);
    to = put_text(to, queue->kind == WATCH_PIE ? "pie" : "fq_pie");
    to = put_text(to, row->type);
    to = put_number(to, row->seq);
    to = put_number(to, head->ns != 0 ? head->ns : row->ns);
    to = put_number(to, head->cpu);
    to = head->flow == WATCH_FLOW_NONE ? put_text(to, "-1") : put_number(to, head->flow);
    to = put_numbers(to,
                     (u32[]){row->backlog, row->size, row->pkt_len, row->mtu, row->qlen_before, row->qlen, row->backlog_before, row->backlog_after, row->limit,
                             row->ret},
                     10);
    to = put_hexadecimal(to, row->protocol, 1);
    to = put_hexadecimal(to, row->network, 4);
    to = put_numbers(to, (u32[]){row->room, row->early, row->draws}, 3);
    to = put_number(to, row->random);
    to = put_number(to, row->enqueued);
    to = put_number(to, row->readings);
    to = put_number(to, row->at[0]);
    to = put_number(to, row->at[1]);
    to = put_number(to, row->at[2]);
    to = put_numbers(to, (u32[]){row->hash, row->priority, row->truesize, row->x[0], row->x[1], row->x[2]}, 6);
    to = put_vars(to, &row->before);
    to = put_vars(to, &row->after);
    to = put_number(to, row->target);
    to = put_numbers(to, (u32[]){row->tupdate, row->params_limit, row->alpha, row->beta, row->ecn, row->bytemode, row->dq_rate}, 7);
    to = put_numbers(to, (u32[]){row->stats.packets_in, row->stats.dropped, row->stats.overlimit, row->stats.ecn_mark, row->stats.maxq}, 5);
    to = put_numbers(to, (u32[]){row->returned, row->returned_bytes, row->is_drop, row->dropped_returned}, 4);
    to[-1] = '\n';
    fwrite(line, 1, (size_t)(to - line), text->out);
    text->bytes += (u64)(to - line);
}

/* ---- records */

size_t watch_bytes(const struct watch_head *head) {
    switch (head->type) {
    case WATCH_QUEUE:
        return sizeof(struct watch_queue);
    case WATCH_LOST:
    case WATCH_BASE:
        return sizeof(struct watch_base);
    case WATCH_INIT:
    case WATCH_RESUME:
    case WATCH_CHANGE:
    case WATCH_RESET:
    case WATCH_DESTROY:
        return sizeof(struct watch_whole);
    case WATCH_FLOW:
        return sizeof(struct watch_flow);
    case WATCH_WAIT:
        return sizeof(struct watch_wait);
    case WATCH_ENQUEUE:
        return sizeof(struct watch_enqueue);
    case WATCH_DEQUEUE:
        return head->bits & WATCH_HAS_CLOCK ? sizeof(struct watch_dequeue) : offsetof(struct watch_dequeue, at);
    case WATCH_TIMER:
        return sizeof(struct watch_head);
    case WATCH_CALC:
        return sizeof(struct watch_calc);
    }
    return 0;
}

static bool add_queue(struct watch_text *text, const struct watch_queue *record) {
    size_t number = record->head.queue;
    struct text_queue *queue;
    char handle[16] = "-";
    if (number >= text->count) {
        queue = realloc(text->queues, (number + 1) * sizeof *queue);
        if (queue == NULL)
            return false;
        memset(queue + text->count, 0, (number + 1 - text->count) * sizeof *queue);
        text->queues = queue;
        text->count = number + 1;
    }
    queue = &text->queues[number];
    if (record->handle != 0)
        snprintf(handle, sizeof handle, "%x:", record->handle >> 16);
    free(queue->flows); /* (of a queue with the same number, 65,536 queues ago) */
    *queue = (struct text_queue){.is_there = true, .kind = record->kind, .seq = record->head.seq};
    snprintf(queue->name, sizeof queue->name, "%.15s/%s/%zu", record->device, handle, number);
    return true;
}

/* Returns the state that a row of a flow builds on, or NULL if there is no such flow. */
static struct watch_vars *vars_of(struct text_queue *queue, u32 flow) {
    if (queue->kind == WATCH_PIE)
        return &queue->vars;
    return flow < queue->flows_count ? &queue->flows[flow] : NULL;
}

/* Resets the state of each flow as pie_vars_init does: fq_pie's resets have no record for each flow. */
static void reset_flows(struct text_queue *queue) {
    for (u32 i = 0; i < queue->flows_count; i++) {
        struct watch_vars *vars = &queue->flows[i];
        vars->burst_time = UINT64_C(150000000) >> 6;
        vars->dq_tstamp = vars->dq_count = UINT64_MAX;
        vars->accu_prob = vars->avg_dq_rate = 0;
    }
}

static bool begin_flows(struct watch_text *text, struct text_queue *queue, const struct row *row, u32 count) {
    struct watch_vars *flows = calloc((size_t)count + 1, sizeof *flows);
    if (flows == NULL)
        return false;
    free(queue->flows);
    queue->flows = flows;
    queue->flows_count = count;
    reset_flows(queue);
    write_row(text, queue, row);
    return true;
}

static bool add_whole(struct watch_text *text, struct text_queue *queue, const struct watch_whole *record) {
    static const char *const names[] = {[WATCH_INIT] = "init", [WATCH_RESUME] = "resume", [WATCH_CHANGE] = "change", [WATCH_RESET] = "reset",
                                        [WATCH_DESTROY] = "destroy"};
    struct row row = {.type = names[record->head.type], .head = &record->head, .seq = record->head.seq, .early = 255};
    struct watch_base *base = &queue->base;
    if (record->head.type == WATCH_CHANGE) {
        row.backlog = record->dropped_bytes;
        row.size = record->dropped_packets;
        row.dropped_returned = record->dropped_returned;
    }
    row.returned = record->returned;
    row.returned_bytes = record->returned_bytes;
    row.qlen = record->qlen;
    row.backlog_after = record->backlog;
    row.mtu = base->mtu = record->mtu;
    row.limit = row.params_limit = base->limit = record->limit;
    row.target = record->target;
    row.tupdate = record->tupdate;
    row.alpha = record->alpha;
    row.beta = record->beta;
    row.ecn = (record->head.bits & WATCH_ECN) != 0;
    row.bytemode = (record->head.bits & WATCH_BYTEMODE) != 0;
    row.dq_rate = (record->head.bits & WATCH_DQ_RATE) != 0;
    row.stats = base->stats = record->stats;
    if (queue->kind == WATCH_PIE) {
        row.after = queue->vars = record->vars;
    } else {
        row.x[0] = record->fq.ecn_prob;
        row.x[1] = record->fq.flows;
        row.x[2] = record->fq.quantum;
        row.truesize = record->fq.memory_limit;
        base->memory = record->fq.memory;
        base->overmemory = record->fq.overmemory;
        if (record->head.type == WATCH_RESUME) {
            row.at[0] = (u64)record->fq.overmemory + 1;
            row.at[1] = (u64)record->fq.cursor + 1;
            row.at[2] = record->kept_memory;
        }
        if (record->head.type == WATCH_INIT || record->head.type == WATCH_RESUME)
            return begin_flows(text, queue, &row, record->fq.flows);
        if (record->head.type == WATCH_RESET)
            reset_flows(queue);
    }
    write_row(text, queue, &row);
    return true;
}

static bool add_enqueue(struct watch_text *text, struct text_queue *queue, const struct watch_enqueue *record) {
    const struct watch_head *head = &record->head;
    struct row row = {.type = "enq", .head = head, .seq = head->seq};
    struct watch_vars *vars = head->flow == WATCH_FLOW_NONE && queue->kind == WATCH_FQ_PIE ? NULL : vars_of(queue, head->flow);
    struct watch_base *base = &queue->base;
    row.backlog = record->decided_backlog;
    row.size = record->size;
    row.pkt_len = record->pkt_len;
    row.mtu = base->mtu;
    row.limit = base->limit;
    row.qlen_before = record->qlen_before;
    row.qlen = record->qlen;
    row.backlog_before = record->backlog_before;
    row.backlog_after = record->backlog;
    row.ret = (head->ret & 15u) | (u32)(head->ret >> 4) << 16;
    row.protocol = record->protocol;
    row.network = record->network;
    row.room = head->bits & WATCH_ROOM;
    row.early = (head->bits & WATCH_EARLY) >> 1;
    row.early = row.early == WATCH_EARLY_NONE ? 255 : row.early;
    row.draws = (head->bits & WATCH_RANDOM) >> 3;
    row.random = record->random;
    row.enqueued = record->enqueued;
    row.ns = record->enqueued << 6; /* if the head has none */
    row.returned = record->returned;
    row.returned_bytes = record->returned_bytes;
    row.hash = record->hash;
    row.priority = record->priority;
    row.truesize = record->truesize;
    base->stats.packets_in += head->counts & WATCH_COUNT_IN ? 1 : 0;
    base->stats.dropped += head->counts & WATCH_COUNT_DROPPED ? 1 : 0;
    base->stats.overlimit += head->counts & WATCH_COUNT_OVERLIMIT ? 1 : 0;
    base->stats.ecn_mark += head->counts & WATCH_COUNT_MARK ? 1 : 0;
    base->overmemory += head->counts & WATCH_COUNT_OVERMEMORY ? 1 : 0;
    if (head->counts & WATCH_COUNT_MAXQ)
        base->stats.maxq = record->qlen_before;
    row.stats = base->stats;
    if (queue->kind == WATCH_FQ_PIE) {
        row.x[0] = base->memory;
        row.x[1] = base->memory = record->memory;
        row.x[2] = base->overmemory;
    }
    if (vars != NULL) {
        row.before = *vars;
        row.after = *vars = record->vars;
    }
    write_row(text, queue, &row);
    return vars != NULL || head->flow == WATCH_FLOW_NONE;
}

static bool add_dequeue(struct watch_text *text, struct text_queue *queue, const struct watch_dequeue *record) {
    struct row row = {.type = "deq", .head = &record->head, .seq = record->head.seq, .early = 255};
    struct watch_vars *vars = vars_of(queue, record->head.flow);
    if (vars == NULL)
        return false;
    row.backlog = record->decided_backlog;
    row.size = record->size;
    row.pkt_len = record->pkt_len;
    row.qlen = record->qlen;
    row.backlog_after = record->backlog;
    row.enqueued = record->enqueued;
    row.returned = record->returned;
    row.returned_bytes = record->returned_bytes;
    row.is_drop = (record->head.bits & WATCH_DROP) != 0;
    row.ns = record->vars.dq_tstamp << 6;
    if (queue->kind == WATCH_FQ_PIE)
        row.x[1] = queue->base.memory = record->memory;
    if (record->head.bits & WATCH_HAS_CLOCK) {
        row.readings = record->head.bits & WATCH_READINGS;
        memcpy(row.at, record->at, sizeof row.at);
    }
    row.before = *vars;
    row.after = *vars = record->vars;
    write_row(text, queue, &row);
    return true;
}

static bool add_calc(struct watch_text *text, struct text_queue *queue, const struct watch_calc *record) {
    struct row row = {.type = "calc", .head = &record->head, .seq = record->head.seq, .early = 255};
    struct watch_vars *vars = vars_of(queue, record->head.flow);
    if (vars == NULL)
        return false;
    row.backlog = record->decided_backlog;
    row.qlen = record->qlen;
    row.backlog_after = record->backlog;
    row.returned = record->returned;
    row.returned_bytes = record->returned_bytes;
    row.before = *vars;
    row.after = *vars = record->vars;
    write_row(text, queue, &row);
    return true;
}

static bool add_flow(struct watch_text *text, struct text_queue *queue, const struct watch_flow *record) {
    struct row row = {.type = "flow", .head = &record->head, .seq = record->head.seq, .early = 255};
    struct watch_vars *vars = vars_of(queue, record->head.flow);
    if (vars == NULL)
        return false;
    row.backlog = record->backlog;
    row.qlen = record->qlen;
    row.x[0] = record->deficit;
    row.x[1] = record->list;
    row.after = *vars = record->vars;
    write_row(text, queue, &row);
    return true;
}

static void add_wait(struct watch_text *text, struct text_queue *queue, const struct watch_wait *record) {
    struct row row = {.type = "wait", .head = &record->head, .seq = record->head.seq, .early = 255};
    row.size = record->size;
    row.pkt_len = record->pkt_len;
    row.enqueued = record->enqueued;
    row.truesize = record->memory;
    row.x[0] = record->is_peeked;
    write_row(text, queue, &row);
}


/* Compares the number of a step with the one that follows, and counts numbers that are missing. */
static void count_step(struct watch_text *text, struct text_queue *queue, u32 seq) {
    text->missing += seq - queue->seq;
    queue->seq = seq + 1;
    text->steps++;
}

/* Follows the kernel's counter of dropped packets. After lost steps, its increase is added to `text->dropped`. */
static void count_dropped(struct watch_text *text, struct text_queue *queue, const struct watch_head *head) {
    u32 now;
    if (head->type == WATCH_ENQUEUE) {
        queue->dropped += (head->counts & WATCH_COUNT_DROPPED) != 0;
        return;
    }
    if (head->type == WATCH_BASE)
        now = ((const struct watch_base *)head)->stats.dropped;
    else if (watch_bytes(head) == sizeof(struct watch_whole))
        now = ((const struct watch_whole *)head)->stats.dropped;
    else
        return;
    if (queue->is_gap && queue->is_known)
        text->dropped += now - queue->dropped;
    queue->dropped = now;
    queue->is_known = true;
    queue->is_gap = false;
}

bool watch_text_count(struct watch_text *text, const void *record) {
    const struct watch_head *head = record;
    struct text_queue *queue = head->queue < text->count ? &text->queues[head->queue] : NULL;
    if (head->type == WATCH_QUEUE)
        return add_queue(text, record);
    if (queue == NULL || !queue->is_there)
        return false;
    if (head->type == WATCH_LOST) {
        text->lost += ((const struct watch_base *)record)->lost;
        queue->seq += ((const struct watch_base *)record)->lost;
        queue->is_gap = true;
    } else if (head->type != WATCH_BASE && head->type != WATCH_FLOW && head->type != WATCH_WAIT) {
        count_step(text, queue, head->seq);
    }
    count_dropped(text, queue, head);
    return true;
}

bool watch_text_add(struct watch_text *text, const void *record) {
    const struct watch_head *head = record;
    struct text_queue *queue;
    if (!watch_text_count(text, record))
        return false;
    queue = &text->queues[head->queue];
    switch (head->type) {
    case WATCH_QUEUE:
        return true;
    case WATCH_LOST:
        fprintf(text->out, "lost,%u,%s\n", ((const struct watch_base *)record)->lost, queue->name);
        return true;
    case WATCH_BASE:
        queue->base = *(const struct watch_base *)record;
        return true;
    case WATCH_ENQUEUE:
        return add_enqueue(text, queue, record);
    case WATCH_DEQUEUE:
        return add_dequeue(text, queue, record);
    case WATCH_CALC:
        return add_calc(text, queue, record);
    case WATCH_FLOW:
        return add_flow(text, queue, record);
    case WATCH_WAIT:
        add_wait(text, queue, record);
        return true;
    case WATCH_TIMER:
        write_row(text, queue, &(struct row){.type = "timer", .head = head, .seq = head->seq, .early = 255});
        return true;
    }
    return watch_bytes(head) == sizeof(struct watch_whole) && add_whole(text, queue, record);
}

void watch_text_head(struct watch_text *text, FILE *out) {
    text->out = out;
    fputs(columns, out);
}

const char *watch_text_name(const struct watch_text *text, unsigned number) {
    return number < text->count && text->queues[number].is_there ? text->queues[number].name : NULL;
}

void watch_text_end(struct watch_text *text) {
    for (size_t i = 0; i < text->count; i++)
        free(text->queues[i].flows);
    free(text->queues);
    text->queues = NULL;
    text->count = 0;
}
