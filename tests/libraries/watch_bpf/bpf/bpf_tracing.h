/* In place of libbpf's header: bpf_helpers.h has all. */
