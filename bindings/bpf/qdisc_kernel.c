#include "pie_qdisc.h"

#include "pie_qdisc.skel.h"

#include <bpf/bpf.h>
#include <bpf/libbpf.h>
#include <errno.h>
#include <limits.h>
#include <linux/netlink.h>
#include <linux/rtnetlink.h>
#include <stdio.h>
#include <stdlib.h>
#include <string.h>
#include <sys/mman.h>
#include <sys/socket.h>
#include <sys/stat.h>
#include <sys/utsname.h>
#include <unistd.h>

/* ---- the maps */

#define LOG_BYTES (1 << 24)
#define MOST_PROGRAMS 12

/* The pinned maps: the two last ones are the registered queue disciplines. */
static const char *const pins[] = {"queues", "places", "rings", "fqs", "flows", "operations", "fq_operations"};
enum { PINS = sizeof pins / sizeof *pins, OPERATIONS = 5 };

static const char *pin(const char *folder, const char *name) {
    static char path[PATH_MAX];
    snprintf(path, sizeof path, "%s/%s", folder, name);
    return path;
}

/* Prints libbpf's messages if the variable PIE_QDISC_LOG is set. */
static int print_message(enum libbpf_print_level level, const char *format, va_list words) {
    return getenv("PIE_QDISC_LOG") && level != LIBBPF_DEBUG ? vfprintf(stderr, format, words) : 0;
}

static struct pie_qdisc_bpf *opened_object(void) {
    struct pie_qdisc_bpf *object = pie_qdisc_bpf__open();
    struct pie_opening opening;
    if (!object)
        return NULL;
    pie_default_opening(&opening, 0);
    opening.packets = 1000;
    memcpy((void *)&object->rodata->default_opening, &opening, sizeof opening);
    return object;
}

/* Prints why the kernel does not load the programs. */
static void print_refusal(int error) {
    unsigned int major = 0, minor = 0;
    struct utsname kernel = {.release = ""};
    if (!uname(&kernel) && sscanf(kernel.release, "%u.%u", &major, &minor) == 2 && (major < 6 || (major == 6 && minor < 16)))
        fprintf(stderr, "pie-qdisc: Linux %s has no BPF queue disciplines: they need Linux 6.16 or later. juniperbowls-dkms has a module for older kernels\n",
                kernel.release);
    else
        fprintf(stderr, "pie-qdisc: Linux %s does not load the programs: %s. They need CONFIG_NET_SCH_BPF, and root\n", kernel.release, strerror(error));
}

/* Loads and registers the programs, and pins their maps. */
static bool load(const char *folder) {
    struct pie_qdisc_bpf *object = opened_object();
    struct bpf_map *all[PINS];
    struct bpf_link *links[PINS] = {NULL};
    bool is_done = true;
    int error;
    if (!object || (error = pie_qdisc_bpf__load(object))) {
        print_refusal(errno);
        return false;
    }
    all[0] = object->maps.queues, all[1] = object->maps.places, all[2] = object->maps.rings, all[3] = object->maps.fqs, all[4] = object->maps.flows;
    all[5] = object->maps.pie_ops, all[6] = object->maps.fq_ops;
    if (mkdir(folder, 0700) && errno != EEXIST) {
        fprintf(stderr, "pie-qdisc: %s: %s. A bpf file system must be mounted there\n", folder, strerror(errno));
        return false;
    }
    for (int at = OPERATIONS; at < PINS && is_done; at++) {
        links[at] = bpf_map__attach_struct_ops(all[at]);
        is_done = links[at];
        if (!is_done)
            fprintf(stderr, "pie-qdisc: the kernel does not register the queue discipline: %s\n", strerror(errno));
    }
    for (int at = 0; at < PINS && is_done; at++) {
        error = bpf_map__pin(all[at], pin(folder, pins[at]));
        is_done = !error;
        if (error)
            fprintf(stderr, "pie-qdisc: %s: %s\n", pin(folder, pins[at]), strerror(-error));
    }
    for (int at = OPERATIONS; at < PINS; at++) {
        if (links[at] && is_done)
            bpf_link__disconnect(links[at]);
        bpf_link__destroy(links[at]);
    }
    pie_qdisc_bpf__destroy(object);
    return is_done;
}

/* Maps the memory of a pinned map. Returns NULL after an error. */
static void *memory(const char *folder, const char *name, size_t size, int access) {
    int file = bpf_obj_get(pin(folder, name));
    void *found = file < 0 ? MAP_FAILED : mmap(NULL, size, access, MAP_SHARED, file, 0);
    if (file >= 0)
        close(file);
    return found == MAP_FAILED ? NULL : found;
}

bool maps_open(struct qdisc_maps *maps, const char *folder, bool is_loaded) {
    int queues_file = -1;
    maps->folder = folder;
    libbpf_set_print(print_message);
    queues_file = bpf_obj_get(pin(folder, "queues"));
    if (queues_file < 0 && is_loaded) {
        if (!load(folder))
            return false;
        queues_file = bpf_obj_get(pin(folder, "queues"));
    }
    if (queues_file < 0) {
        fprintf(stderr, "pie-qdisc: no queue is attached (%s: %s)\n", pin(folder, "queues"), strerror(errno));
        return false;
    }
    close(queues_file);
    maps->rings_file = bpf_obj_get(pin(folder, "rings"));
    maps->queues = memory(folder, "queues", QDISC_QUEUES * sizeof *maps->queues, PROT_READ | PROT_WRITE);
    maps->places = memory(folder, "places", (size_t)QDISC_QUEUES * QDISC_PACKETS * sizeof *maps->places, PROT_READ);
    maps->fqs = memory(folder, "fqs", QDISC_FQS * sizeof *maps->fqs, PROT_READ);
    maps->flows = memory(folder, "flows", (size_t)QDISC_FQS * QDISC_FLOWS * sizeof *maps->flows, PROT_READ);
    if (maps->rings_file < 0 || !maps->queues || !maps->places || !maps->fqs || !maps->flows) {
        fprintf(stderr, "pie-qdisc: %s: its maps cannot be opened: %s\n", folder, strerror(errno));
        return false;
    }
    return true;
}

void maps_unload_unused(const struct qdisc_maps *maps) {
    uint32_t first = 0;
    int operations;
    for (unsigned int at = 0; at < QDISC_QUEUES; at++)
        if (maps->queues[at].config.use != QDISC_FREE)
            return;
    for (int at = 0; at < PINS; at++) {
        operations = at < OPERATIONS ? -1 : bpf_obj_get(pin(maps->folder, pins[at]));
        if (operations >= 0) {
            (void)bpf_map_delete_elem(operations, &first);
            close(operations);
        }
        (void)unlink(pin(maps->folder, pins[at]));
    }
    (void)rmdir(maps->folder);
}

bool maps_print_verified(void) {
    struct pie_qdisc_bpf *object = opened_object();
    struct bpf_program *program;
    char *log = calloc(MOST_PROGRAMS, LOG_BYTES), *at = log;
    int error = object && log ? 0 : -ENOMEM;
    libbpf_set_print(print_message);
    if (!error) {
        bpf_object__for_each_program(program, object->obj) {
            bpf_program__set_log_level(program, 4);
            bpf_program__set_log_buf(program, at, LOG_BYTES);
            at += LOG_BYTES;
        }
        error = pie_qdisc_bpf__load(object);
        at = log;
        bpf_object__for_each_program(program, object->obj) {
            const char *found = strstr(at, "processed ");
            printf("%s %s\n", bpf_program__name(program), found ? strtok(strdup(found), "\n") : "not verified");
            if (error)
                fprintf(stderr, "%s\n", at + (strlen(at) > 6000 ? strlen(at) - 6000 : 0));
            at += LOG_BYTES;
        }
    }
    pie_qdisc_bpf__destroy(object);
    free(log);
    return !error;
}

uint64_t this_netns(void) {
    struct stat about;
    return stat("/proc/self/ns/net", &about) ? 0 : about.st_ino;
}

unsigned int maps_next(const struct qdisc_maps *maps, unsigned int number, int ifindex, uint32_t parent) {
    uint64_t netns = this_netns();
    for (; number < QDISC_QUEUES; number++) {
        const struct qdisc_config *config = &maps->queues[number].config;
        if (config->use == QDISC_USED && config->netns == netns && (!ifindex || config->ifindex == (uint32_t)ifindex) &&
            (!parent || config->parent == parent))
            break;
    }
    return number;
}

/* ---- requests that add and remove queue disciplines */

struct request {
    struct nlmsghdr head;
    struct tcmsg tc;
    char attributes[64];
};

/* Copies the message of an answer, if it has one. */
static void read_text(const struct nlmsghdr *answer, char *text, unsigned int room) {
    const struct nlmsgerr *error = NLMSG_DATA(answer);
    unsigned int skipped = sizeof *error + (answer->nlmsg_flags & NLM_F_CAPPED ? 0 : error->msg.nlmsg_len - sizeof error->msg);
    const char *at = (const char *)error + NLMSG_ALIGN(skipped), *end = (const char *)answer + answer->nlmsg_len;
    if (!(answer->nlmsg_flags & NLM_F_ACK_TLVS))
        return;
    while (at + sizeof(struct nlattr) <= end) {
        const struct nlattr *attribute = (const struct nlattr *)at;
        if (attribute->nla_len < sizeof *attribute || at + attribute->nla_len > end)
            return;
        if (attribute->nla_type == NLMSGERR_ATTR_MSG)
            snprintf(text, room, "%.*s", (int)(attribute->nla_len - sizeof *attribute), at + sizeof *attribute);
        at += NLA_ALIGN(attribute->nla_len);
    }
}

static int answer_of(const struct request *request, char *text, unsigned int room) {
    char bytes[4096];
    const struct nlmsghdr *answer = (const struct nlmsghdr *)bytes;
    int result = -EIO, yes = 1, file = socket(AF_NETLINK, SOCK_RAW | SOCK_CLOEXEC, NETLINK_ROUTE);
    *text = 0;
    if (file < 0)
        return -errno;
    (void)setsockopt(file, SOL_NETLINK, NETLINK_EXT_ACK, &yes, sizeof yes);
    if (send(file, request, request->head.nlmsg_len, 0) < 0) {
        result = -errno;
    } else {
        ssize_t size = recv(file, bytes, sizeof bytes, 0);
        if (size >= (ssize_t)NLMSG_LENGTH(sizeof(struct nlmsgerr)) && answer->nlmsg_type == NLMSG_ERROR && answer->nlmsg_len <= size) {
            result = ((const struct nlmsgerr *)NLMSG_DATA(answer))->error;
            read_text(answer, text, room);
        }
    }
    close(file);
    return result;
}

static struct request request_for(int type, int flags, int ifindex, uint32_t parent, uint32_t handle) {
    struct request request = {.head = {.nlmsg_len = NLMSG_LENGTH(sizeof(struct tcmsg)), .nlmsg_type = type, .nlmsg_flags = NLM_F_REQUEST | NLM_F_ACK | flags}};
    request.tc = (struct tcmsg){.tcm_family = AF_UNSPEC, .tcm_ifindex = ifindex, .tcm_parent = parent, .tcm_handle = handle};
    return request;
}

int link_add(int ifindex, uint32_t parent, uint32_t handle, const char *kind, bool is_replaced, char *text, unsigned int room) {
    struct request request = request_for(RTM_NEWQDISC, NLM_F_CREATE | (is_replaced ? NLM_F_REPLACE : NLM_F_EXCL), ifindex, parent, handle);
    struct nlattr *attribute = (struct nlattr *)request.attributes;
    attribute->nla_type = TCA_KIND;
    attribute->nla_len = sizeof *attribute + strlen(kind) + 1;
    memcpy(attribute + 1, kind, strlen(kind) + 1);
    request.head.nlmsg_len += NLA_ALIGN(attribute->nla_len);
    return answer_of(&request, text, room);
}

int link_remove(int ifindex, uint32_t parent, char *text, unsigned int room) {
    struct request request = request_for(RTM_DELQDISC, 0, ifindex, parent, 0);
    return answer_of(&request, text, room);
}
