/* The parts of pie-qdisc: requests to the kernel, the maps, options, and records. */
#ifndef PIE_QDISC_H
#define PIE_QDISC_H

#include "qdisc_queue.h"

#include <stdbool.h>
#include <stdint.h>

/* ---- Requests to the kernel that add and remove queue disciplines (rtnetlink). */

/* Adds a queue discipline of this kind to a device, as `tc qdisc add` does; if `is_replaced`, in place of another one, as `tc qdisc replace` does.
 * Returns 0 or a negative errno. If the kernel has a message, it is then in `text`. */
int link_add(int ifindex, uint32_t parent, uint32_t handle, const char *kind, bool is_replaced, char *text, unsigned int room);

/* Removes the queue discipline with this parent, as `tc qdisc del` does. Returns as link_add. */
int link_remove(int ifindex, uint32_t parent, char *text, unsigned int room);

/* ---- The maps of the BPF programs, which are pinned: the queues stay when pie-qdisc ends. */

struct qdisc_maps {
    const char *folder; /* of the pins, in a bpf file system */
    int rings_file;
    struct qdisc_queue *queues;
    const struct qdisc_place *places;
    const struct qdisc_fq *fqs;
    const struct qdisc_flow *flows;
};

/* Opens the pinned maps. If there are none and `is_loaded`, loads the programs and pins them first. Returns false with a message on standard error. */
bool maps_open(struct qdisc_maps *maps, const char *folder, bool is_loaded);

/* Unloads the programs if no queue uses them. */
void maps_unload_unused(const struct qdisc_maps *maps);

/* Prints the kernel's verification of each program: its name and the number of instructions that were processed. Returns false if a program is refused. */
bool maps_print_verified(void);

/* Returns the number of the next queue from `number` on that this device has, below this parent unless it is 0; QDISC_QUEUES if there is none. */
unsigned int maps_next(const struct qdisc_maps *maps, unsigned int number, int ifindex, uint32_t parent);

/* Returns the number of the network namespace of this process, as the kernel has it. */
uint64_t this_netns(void);

/* ---- The options of a queue, as tc's pie has them. */

/* Fills `config` with the defaults: those of pie_default_opening, with 1000 packets; if `has_flows`, with 1024 flows and a quantum of 1514 bytes. */
void options_default(struct qdisc_config *config, bool has_flows);

/* Reads options into `config`. If `is_change`, the queue exists, and options that cannot change are refused. Returns false with a message on standard error. */
bool options_read(struct qdisc_config *config, char **words, int count, bool is_change);

/* The text of the options that options_read accepts. */
extern const char options_usage[];

/* ---- The record of a queue: an excerpt of its history as text. */

#define ALL_FLOWS (-1)

/* Writes the events of queue `number` to the file (NULL: standard output) until the queue ends, a signal comes or `seconds` have passed (0: no end). After
 * lost events the text ends, or continues as another excerpt in FILE.2 and so on. If the queue has flows, those of one flow are written, or each flow's to
 * the file `flowN` of a new folder with the name FILE. Returns the exit status: 0, 1 for an error, 2 for lost events. */
int record_queue(const struct qdisc_maps *maps, unsigned int number, int flow, const char *file, unsigned int seconds, unsigned int ring);

#endif
