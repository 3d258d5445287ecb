/* A part of pie_watch.bpf.c: the random words and the readings of the clock that a step drew. */
#define INTERRUPTED 6 /* values among which the second program finds that of the first */

/* Values of one processor that a function of the kernel returned, each with the task that called it, and with an address of the stack in the call. */
struct drawn {
    u32 count, spare;
    struct {
        u64 task, stack, value;
    } at[DRAWS];
};

struct {
    __uint(type, BPF_MAP_TYPE_ARRAY);
    __uint(max_entries, 1); /* the number of processors */
    __type(key, u32);
    __type(value, struct drawn);
} words SEC(".maps"), readings SEC(".maps");

static __always_inline struct drawn *drawn_here(void *map) {
    u32 cpu = bpf_get_smp_processor_id();
    return bpf_map_lookup_elem(map, &cpu);
}

/* Keeps a value that this task drew. The second of two programs at one function finds it there, unless the first one did not run. An interrupt between the
 * two programs may have kept values too. */
static __always_inline void keep_drawn(void *map, u64 value, const void *stack) {
    struct drawn *drawn = drawn_here(map);
    u64 task = bpf_get_current_task(), at = (u64)stack;
    u32 count;
    if (drawn == NULL)
        return;
    count = drawn->count;
    for (u32 i = 1; i <= INTERRUPTED; i++) {
        u32 last = (count - i) % DRAWS;
        if (drawn->at[last].value == value && drawn->at[last].task == task && drawn->at[last].stack == at)
            return;
    }
    drawn->at[count % DRAWS].task = task;
    drawn->at[count % DRAWS].stack = at;
    drawn->at[count % DRAWS].value = value;
    drawn->count = count + 1;
}

#define FAR (1ull << 62) /* above each distance on a stack */

/* Returns 1 if the number is not 0, without a branch. */
static __always_inline u64 is_not_0(u64 number) {
    number = (number | -number) >> 63;
    barrier_var(number);
    return number;
}

/* Copies the values that the step of the queue at a place drew itself, since the count was `since`, to the queue's `values`. Returns the number of these
 * values.
 *
 * An interrupt in the step draws values too, for the same task, but deeper on the stack or on another stack. All calls of the step have one distance from
 * the beginning of the step, the least one. No branch depends on a value: the verifier would follow each way through the loops. */
static __always_inline u32 select_own(struct drawn *drawn, struct queue *queue, u32 since, u64 *least) {
    u64 task = bpf_get_current_task(), stack = queue->stack, distance = *least;
    u32 own = 0, count = drawn->count - since;
    if (distance == 0)
        distance = FAR;
    for (u32 i = 0; i < DRAWS; i++) {
        u32 at = (since + i) % DRAWS;
        u64 is_other = is_not_0(drawn->at[at].task ^ task) | (~((u64)i - count) >> 63);
        u64 its = ((stack - drawn->at[at].stack) & (2 * FAR - 1)) | is_other * FAR, is_less = (its - distance) >> 63;
        barrier_var(is_less);
        distance ^= (distance ^ its) & -is_less;
        queue->distances[i] = its;
    }
    *least = distance;
    for (u32 i = 0; i < DRAWS; i++) {
        queue->values[own % DRAWS] = drawn->at[(since + i) % DRAWS].value;
        own += 1 - (u32)is_not_0(queue->distances[i] ^ distance);
    }
    return own;
}

__noinline u32 select_words(u32 place, u32 since) {
    struct queue *queue = &queues[place % WATCH_PLACES];
    struct drawn *drawn = drawn_here(&words);
    return drawn != NULL ? select_own(drawn, queue, since, &queue->least_word) : 0;
}

__noinline u32 select_readings(u32 place, u32 since) {
    struct queue *queue = &queues[place % WATCH_PLACES];
    struct drawn *drawn = drawn_here(&readings);
    return drawn != NULL ? select_own(drawn, queue, since, &queue->least_reading) : 0;
}

/* Copies the random words that the step drew itself to the queue's `values`. Returns their number, or DRAWS if words were overwritten. */
static __always_inline u32 own_words(struct queue *queue) {
    struct drawn *drawn = drawn_here(&words);
    u32 since = queue->draws, count, at = since % DRAWS;
    if (drawn == NULL || (count = drawn->count - since) == 0)
        return 0;
    if (count > DRAWS)
        return DRAWS;
    if (count == 1 && drawn->at[at].task == bpf_get_current_task() && queue->stack - drawn->at[at].stack == queue->least_word) { /* the usual case */
        queue->values[0] = drawn->at[at].value;
        return 1;
    }
    return select_words(queue->place, since);
}

/* As own_words, for readings of the clock. */
static __always_inline u32 own_readings(struct queue *queue) {
    struct drawn *drawn = drawn_here(&readings);
    u32 count = drawn != NULL ? drawn->count - queue->readings : 0;
    return count == 0 ? 0 : count > DRAWS ? DRAWS : select_readings(queue->place, queue->readings);
}
