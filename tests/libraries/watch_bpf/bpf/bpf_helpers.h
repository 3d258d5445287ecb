/* In place of libbpf's header, for watch_sums.c: watch_sums.bpf.c as a part of a program in user space. */
#ifndef WATCH_BPF_HELPERS_H
#define WATCH_BPF_HELPERS_H

#define SEC(name)
#define __uint(name, value) int (*name)[value]
#define __type(name, value) __typeof__(value) *name
#define __always_inline inline
#define bpf_core_field_offset(type, field) __builtin_offsetof(type, field)
#define bpf_core_type_size(type) sizeof(type)
#define BPF_PROG(name, ...) name(__VA_ARGS__)
#ifndef NULL
#define NULL ((void *)0)
#endif

void *bpf_map_lookup_elem(void *map, void *key);
long bpf_map_update_elem(void *map, void *key, void *value, u64 flags);
long bpf_map_delete_elem(void *map, void *key);
void *bpf_ringbuf_reserve(void *ring, u64 size, u64 flags);
void bpf_ringbuf_submit(void *data, u64 flags);
long bpf_probe_read_kernel(void *to, u32 size, void *from);
long bpf_probe_read_kernel_str(void *to, u32 size, void *from);
u64 bpf_ktime_get_ns(void);
u32 bpf_get_smp_processor_id(void);
long bpf_seq_write(struct seq_file *seq, void *data, u32 bytes);

#endif
