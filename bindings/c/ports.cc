// The classes of include/pie_link.h, as C++11 and C++17: a port and an excerpt are moved and never copied, and close themselves; each member function
// returns the result of the call in C of its name; and threads each have a port. bindings/c/threads.sh builds and runs it.
#include "pie_link.h"

#include <cstdio>
#include <cstdlib>
#include <thread>
#include <type_traits>
#include <utility>
#include <vector>

#define CHECK(c) \
    do { \
        if (!(c)) { \
            std::fprintf(stderr, "bindings/c/ports.cc:%d: %s\n", __LINE__, #c); \
            std::exit(1); \
        } \
    } while (0)

static_assert(!std::is_copy_constructible<pie_link_port>::value && !std::is_copy_assignable<pie_link_port>::value, "a port is not copied");
static_assert(std::is_nothrow_move_constructible<pie_link_port>::value && std::is_nothrow_move_assignable<pie_link_port>::value, "it is moved");
static_assert(sizeof(pie_link_port) == sizeof(pie_port), "it is a port, and no more");
static_assert(!std::is_copy_constructible<pie_owned_excerpt>::value && !std::is_copy_assignable<pie_owned_excerpt>::value, "nor is an excerpt");
static_assert(std::is_nothrow_move_assignable<pie_owned_excerpt>::value && sizeof(pie_owned_excerpt) == sizeof(pie_excerpt), "it is one");

static pie_event event_at(uint64_t moment, uint64_t tag) {
    pie_event event = {};
    event.moment = moment;
    event.tag = tag;
    event.size = 1000;
    event.ecn = PIE_ECT0;
    return event;
}

static pie_opening opening_of(uint64_t tail) {
    pie_opening opening;
    pie_default_opening(&opening, 100000000);
    opening.mode = PIE_BOUNDED;
    opening.tail = tail;
    return opening;
}

static void calls() {
    pie_link_port port, other;
    pie_event event = event_at(10, 7);
    pie_opening opening = opening_of(8);
    pie_params params = opening.params;
    pie_event events[2];
    pie_registers registers;
    pie_totals totals;
    size_t folded;
    uint64_t last;
    CHECK(!port.is_open() && port.close() == PIE_CLOSED && port.arrive(event) == PIE_CLOSED && port.try_update(event) == PIE_CLOSED);
    CHECK(port.share(port) == PIE_CLOSED && port.gather(port) == PIE_CLOSED);
    CHECK(port.open(opening, 0) == PIE_NO_CALLERS && port.open(opening, 2) == PIE_DONE && port.open(opening, 2) == PIE_OPEN);
    CHECK(port.share(port) == PIE_OPEN && port.gather(port) == PIE_APART && port.is_open());
    CHECK(port.share(other) == PIE_DONE && other.is_open() && port.gather(other) == PIE_DONE && !other.is_open());
    CHECK(port.share(other) == PIE_DONE);
    CHECK(other.arrive(event) == PIE_ENQUEUE && event.caller == 1 && port.depart(event) == PIE_DONE && event.tag == 7);
    CHECK(port.try_depart(event) == PIE_NONE && port.update(event) == PIE_TOO_SOON);
    event = event_at(15000000, 0);
    CHECK(port.try_update(event) == PIE_DONE && port.try_reset(event) == PIE_DONE && port.reset(event) == PIE_DONE);
    params.target = 5000000;
    CHECK(port.set_params(params, event) == PIE_DONE && port.try_set_params(params, event) == PIE_DONE);
    // a move closes the source, and releases the port that the target had
    pie_link_port moved(std::move(port));
    CHECK(!port.is_open() && moved.is_open() && moved.try_arrive(event) == PIE_BAD_SIZE);
    pie_link_port &itself = moved;
    moved = std::move(itself);
    CHECK(moved.is_open());
    port = std::move(moved);
    CHECK(port.is_open() && !moved.is_open());
    other = std::move(port); // (closes the port that `other` was)
    CHECK(other.fold(&event, 1, folded, last, params) == PIE_DONE && folded == 1 && last == 1 && event.kind == PIE_EVENT_ARRIVE && event.caller == 1);
    CHECK(other.try_fold(&event, 1, folded, last, params) == PIE_DONE && last == 2 && event.kind == PIE_EVENT_DEPART);
    CHECK(other.stats(totals) == PIE_DONE && totals.stats.arrivals == 1 && other.registers(registers) == PIE_DONE && registers.packets == 0);
    events[0] = events[1] = event_at(20000000, 8);
    CHECK(other.arrive_all(events, 2) == PIE_DONE && events[1].answer == PIE_ENQUEUE);
    CHECK(other.depart_all(UINT64_MAX, events, 2, folded) == PIE_DONE && folded == 1 && events[0].answer == PIE_FULL);
    CHECK(other.try_depart_all(1, events, 0, folded) == PIE_DONE && folded == 0);
    CHECK(other.try_arrive_all(events, 0) == PIE_DONE && other.try_stats(totals) == PIE_DONE && other.try_registers(registers) == PIE_DONE);
    other.wake();
    CHECK(other.close() == PIE_DONE && !other.is_open());
}

static void excerpts() {
    pie_link_port port;
    pie_owned_excerpt excerpt;
    pie_event event = event_at(10, 7);
    pie_opening opening = opening_of(8);
    unsigned char record[PIE_RESUME_ROOM];
    opening.packets = 8;
    CHECK(port.try_excerpt(excerpt) == PIE_CLOSED && !excerpt.is_open() && excerpt.close() == PIE_CLOSED && excerpt.write(record, 1) == 0);
    CHECK(port.open(opening, 1) == PIE_DONE && excerpt.open(opening) == PIE_DONE && excerpt.open(opening) == PIE_OPEN && excerpt.is_open());
    CHECK(port.arrive(event) == PIE_ENQUEUE && port.excerpt(excerpt) == PIE_DONE && port.try_excerpt(excerpt) == PIE_DONE);
    pie_owned_excerpt moved(std::move(excerpt));
    CHECK(!excerpt.is_open() && moved.is_open() && moved.write(record, sizeof record) > 0 && record[0] == 'r');
    excerpt = std::move(moved);
    CHECK(!moved.is_open() && excerpt.write(record, sizeof record) > 0 && record[0] == 'a' && excerpt.write(record, sizeof record) == 0);
    CHECK(excerpt.close() == PIE_DONE && !excerpt.is_open() && port.excerpt(excerpt) == PIE_CLOSED);
}

// Each thread has a port, which ends with it. The events of all folds have each thread's packets once and in order.
static void threads() {
    enum { THREADS = 4, PACKETS = 20000 };
    std::vector<pie_link_port> ports(1);
    std::vector<std::thread> senders;
    uint64_t next[THREADS + 1] = {}, folded = 0;
    CHECK(ports[0].open(opening_of(1 << 12), THREADS + 1) == PIE_DONE);
    for (int i = 0; i < THREADS; i++) {
        pie_link_port shared;
        CHECK(ports[0].share(shared) == PIE_DONE);
        ports.push_back(std::move(shared)); // (moves them all, as the vector grows)
    }
    for (int i = 0; i < THREADS; i++)
        senders.emplace_back([](pie_link_port port) {
            for (uint64_t tag = 0; tag < PACKETS; tag++) {
                pie_event event = event_at(tag, tag);
                while (port.arrive(event) == PIE_FULL)
                    std::this_thread::yield();
            }
        }, std::move(ports[1 + i]));
    while (folded < THREADS * PACKETS) {
        pie_event events[PIE_LINK_MOST];
        pie_params params;
        size_t count;
        uint64_t last;
        uint32_t code = ports[0].fold(events, PIE_LINK_MOST, count, last, params);
        CHECK((code == PIE_DONE || code == PIE_TOO_MANY) && last == folded + count);
        for (size_t i = 0; i < count; i++)
            CHECK(events[i].kind == PIE_EVENT_ARRIVE && events[i].tag == next[events[i].caller]++);
        folded += count;
    }
    for (auto &it : senders)
        it.join();
}

int main() {
    calls();
    excerpts();
    threads();
    return 0;
}
