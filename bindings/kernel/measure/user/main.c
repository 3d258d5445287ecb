/* Measures the time of enqueue and dequeue of queues.c. In each round a batch of packets is enqueued above 100 queued ones, the clock advances by 20 ms,
 * and as many packets are dequeued. The kinds take turns, so that other work on the machine affects all. Prints, for each kind, the least and the median
 * time of a packet, in ns.
 *
 * usage: queues [TURNS] */
#define _GNU_SOURCE
#include "queues.h"

#include <asm/prctl.h>
#include <stdint.h>
#include <stdio.h>
#include <stdlib.h>
#include <string.h>
#include <sys/syscall.h>
#include <time.h>
#include <unistd.h>
#include <x86intrin.h>

#define BATCH 64
#define QUEUED 100
#define TURN 8 /* batches of a kind before another kind has its turn */

extern int pie_init_module(void), recorded_init_module(void);

static uint64_t ticks_per_second, later; /* `later`: ns that the clock was advanced */
static uint64_t multiplier;              /* ns of a tick, times 2^24 */
unsigned long words_drawn;

void *user_memory(unsigned long bytes) {
    void *memory = aligned_alloc(4096, (bytes + 4095) / 4096 * 4096);
    if (memory == NULL)
        exit(1);
    return memset(memory, 0, (bytes + 4095) / 4096 * 4096);
}

/* Reads the clock by the steps of ktime_get with the time stamp counter as clock source. */
long long user_clock(void) {
    uint64_t ticks;
    _mm_lfence();
    ticks = __rdtsc();
    return (long long)((uint64_t)((unsigned __int128)ticks * multiplier >> 24) + later);
}

/* Random words of a short generator: the kernel's own is not measured. */
unsigned long get_random_u64(void) {
    static uint64_t state = 88172645463325252u;
    state ^= state << 13;
    state ^= state >> 7;
    state ^= state << 17;
    words_drawn++;
    return state;
}

void get_random_bytes(void *to, size_t bytes) {
    unsigned char *at = to;
    while (bytes != 0) {
        unsigned long word = get_random_u64();
        size_t part = bytes < 8 ? bytes : 8;
        memcpy(at, &word, part);
        at += part;
        bytes -= part;
    }
}

long strscpy(char *to, const char *from, size_t bytes) {
    return snprintf(to, bytes, "%s", from);
}

unsigned jiffies_to_usecs(unsigned long jiffies_at_250_hertz) {
    return (unsigned)(jiffies_at_250_hertz * 4000);
}

/* Kernel functions that do nothing here. */
#define NOTHING(name)                                                                                                                                  \
    long name(void) {                                                                                                                                  \
        return 0;                                                                                                                                      \
    }
NOTHING(hrtimer_init)
NOTHING(hrtimer_start_range_ns)
NOTHING(init_timer_key)
NOTHING(mod_timer)
NOTHING(proc_set_size)
NOTHING(__skb_flow_dissect) /* writes the addresses of a flow once */
NOTHING(__rcu_read_lock)
NOTHING(__rcu_read_unlock)
char kmalloc_caches[4096];
unsigned long jiffies, phys_base;

/* The thunks of a kernel without mitigations: they only return, or jump to the register. */
__asm__(".globl __x86_return_thunk\n__x86_return_thunk: ret\n"
        ".irp name, rax, rbx, rcx, rdx, rsi, rdi, rbp, r8, r9, r10, r11, r12, r13, r14, r15\n"
        ".globl __x86_indirect_thunk_\\name\n__x86_indirect_thunk_\\name: jmp *%\\name\n"
        ".endr\n");

struct kind {
    const char *name, *id;
    int events, flows;
    void *queue;
    float *enqueue, *dequeue;
    unsigned queued;
    unsigned long batches, drops, words;
};

static int compare(const void *one, const void *other) {
    const float *a = one, *b = other;
    return (*a > *b) - (*a < *b);
}

static double passed(uint64_t ticks) {
    return (double)ticks * 1e9 / (double)ticks_per_second / BATCH;
}

/* Makes a batch of arrivals, and a departure for each enqueued packet. */
static void batch(struct kind *it, int is_considered) {
    uint64_t begun, enqueued, dequeued;
    unsigned drops, came;
    unsigned long before;
    queue_consider(it->queue, is_considered);
    while (it->queued < QUEUED)
        it->queued += 1 - queue_put(it->queue, 1);
    before = words_drawn;
    begun = __rdtsc();
    _mm_lfence();
    drops = queue_put(it->queue, BATCH);
    _mm_lfence();
    enqueued = __rdtsc() - begun;
    it->words += words_drawn - before;
    later += 20000000;
    begun = __rdtsc();
    _mm_lfence();
    came = queue_take(it->queue, BATCH);
    _mm_lfence();
    dequeued = __rdtsc() - begun;
    if (came != BATCH)
        exit(1);
    it->queued -= drops;
    it->drops += drops;
    it->enqueue[it->batches] = (float)passed(enqueued);
    it->dequeue[it->batches++] = (float)passed(dequeued);
}

static void report(struct kind *it) {
    qsort(it->enqueue, it->batches, sizeof(float), compare);
    qsort(it->dequeue, it->batches, sizeof(float), compare);
    printf("  %-22s %5.1f (%5.1f) + %5.1f (%5.1f)   drops %.2f %%, random words of the kernel %.2f for each arrival\n", it->name, it->enqueue[0],
           it->enqueue[it->batches / 2], it->dequeue[0], it->dequeue[it->batches / 2], 100.0 * (double)it->drops / (double)(it->batches * BATCH),
           (double)it->words / (double)(it->batches * BATCH));
}

int main(int count, char **words) {
    static struct kind kinds[] = {{.name = "pfifo", .id = "pfifo"},
                                  {.name = "pie", .id = "pie"},
                                  {.name = "pie_recorded events 0", .id = "pie_recorded"},
                                  {.name = "pie_recorded noflows", .id = "pie_recorded", .events = 65536},
                                  {.name = "pie_recorded", .id = "pie_recorded", .events = 65536, .flows = 1}};
    const size_t all = sizeof kinds / sizeof *kinds;
    const size_t turns = count > 1 ? (size_t)atoi(words[1]) : 2000;
    struct timespec begun, ended, wait = {0, 200000000};
    uint64_t first, last;
    size_t i, turn;
    int is_considered;

    /* the stack protector of kernel code reads its number at %gs:0x28 */
    syscall(SYS_arch_prctl, ARCH_SET_GS, user_memory(4096));
    clock_gettime(CLOCK_MONOTONIC_RAW, &begun);
    first = __rdtsc();
    nanosleep(&wait, NULL);
    clock_gettime(CLOCK_MONOTONIC_RAW, &ended);
    last = __rdtsc();
    ticks_per_second = (uint64_t)((double)(last - first) * 1e9 / ((double)(ended.tv_sec - begun.tv_sec) * 1e9 + (double)(ended.tv_nsec - begun.tv_nsec)));
    multiplier = (1000000000u * (uint64_t)(1 << 24)) / ticks_per_second;
    queues_begin();
    pie_init_module();
    recorded_init_module();
    for (i = 0; i < all; i++) {
        kinds[i].enqueue = user_memory(turns * TURN * sizeof(float));
        kinds[i].dequeue = user_memory(turns * TURN * sizeof(float));
        if ((kinds[i].queue = queue_open(kinds[i].id, kinds[i].events, kinds[i].flows)) == NULL)
            return 1;
    }
    for (is_considered = 0; is_considered < 2; is_considered++) {
        printf("%s: ns of enqueue and dequeue, the least and the median of %zu batches\n", is_considered ? "considered" : "in a burst allowance", turns * TURN);
        for (i = 0; i < all; i++)
            kinds[i].drops = kinds[i].words = kinds[i].batches = 0;
        for (turn = 0; turn < turns * all; turn++) {
            struct kind *it = &kinds[turn % all];
            for (i = 0; i < TURN; i++)
                batch(it, is_considered);
        }
        for (i = 0; i < all; i++)
            report(&kinds[i]);
    }
    return 0;
}
