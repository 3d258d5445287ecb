/* SPDX-License-Identifier: GPL-2.0 OR MIT */
/* Calls between queues.c, which kbuild compiles, and main.c, a program with a C library. */
void queues_begin(void);
void *queue_open(const char *kind, int events, int flows);
void queue_consider(void *queue, int is_considered);
unsigned int queue_put(void *queue, unsigned int count);
unsigned int queue_take(void *queue, unsigned int count);

/* Memory of zeros, aligned to 4096 bytes. */
void *user_memory(unsigned long bytes);

/* The moment in ns. */
long long user_clock(void);
