/* Marks set in IPv4 and IPv6 headers: the field is CE, the checksum is right, and nothing else has changed. */
#include "packet.h"

#include <stdio.h>
#include <string.h>

static int failed;

static void check(int holds, const char *what, unsigned number) {
    if (!holds) {
        printf("packet_test: %s (%u)\n", what, number);
        failed = 1;
    }
}

/* Returns the ones' complement sum of a header: 0xffff if its checksum is right. */
static uint16_t sum_of(const uint8_t *header, size_t size) {
    uint32_t sum = 0;
    for (size_t i = 0; i < size; i += 2)
        sum += (uint32_t)(header[i] << 8 | header[i + 1]);
    while (sum >> 16 != 0)
        sum = (sum & 0xffff) + (sum >> 16);
    return (uint16_t)sum;
}

/* A header of 24 bytes, one option, with other bytes for each number. */
static void fill_ipv4(uint8_t *header, unsigned number) {
    uint32_t last = number;
    for (int i = 0; i < 24; i++) {
        last = last * 1664525u + 1013904223u;
        header[i] = (uint8_t)(last >> 24);
    }
    header[0] = 0x46;
    header[10] = header[11] = 0;
    uint16_t checksum = (uint16_t)~sum_of(header, 24);
    header[10] = (uint8_t)(checksum >> 8);
    header[11] = (uint8_t)checksum;
}

static void test_ipv4(void) {
    for (unsigned number = 0; number < 200000; number++) {
        uint8_t header[24], before[24];
        fill_ipv4(header, number);
        memcpy(before, header, 24);
        check(ecn_of(header, 24) == (before[1] & 3u), "the field is the low end of the second byte", number);
        set_ce(header, 24);
        check(ecn_of(header, 24) == 3, "marked", number);
        check(sum_of(header, 24) == 0xffff, "the checksum is right", number);
        check(header[1] >> 2 == before[1] >> 2 && header[0] == before[0], "the rest of the first word stays", number);
        check(memcmp(header + 2, before + 2, 8) == 0 && memcmp(header + 12, before + 12, 12) == 0, "the rest stays", number);
    }
}

static void test_ipv6(void) {
    for (unsigned field = 0; field < 256; field++) {
        uint8_t header[40] = {0x60}, before[40];
        header[0] |= (uint8_t)(field >> 4);
        header[1] = (uint8_t)(field << 4 | 9); /* and the flow label's first bits */
        memcpy(before, header, 40);
        check(ecn_of(header, 40) == (field & 3), "the field is the low end of the traffic class", field);
        set_ce(header, 40);
        check(ecn_of(header, 40) == 3, "marked in IPv6", field);
        check(header[0] == before[0] && (header[1] & 0xcf) == (before[1] & 0xcf), "the class and the label stay", field);
        check(memcmp(header + 2, before + 2, 38) == 0, "the rest of IPv6 stays", field);
    }
}

static void test_others(void) {
    uint8_t header[40] = {0x45, 3}, before[40];
    memcpy(before, header, 40);
    set_ce(header, 19);
    check(ecn_of(header, 19) == 0 && memcmp(header, before, 40) == 0, "a cut header is left alone", 4);
    header[0] = before[0] = 0x60;
    set_ce(header, 39);
    check(ecn_of(header, 39) == 0 && memcmp(header, before, 40) == 0, "a cut header is left alone", 6);
    header[0] = before[0] = 0x50;
    set_ce(header, 40);
    check(ecn_of(header, 40) == 0 && memcmp(header, before, 40) == 0, "what is no IP is left alone", 5);
}

static void test_lists(void) {
    struct packets list = {0};
    const uint8_t bytes[3] = {1, 2, 3};
    check(pop(&list) == NULL, "an empty list", 0);
    for (unsigned size = 1; size <= 3; size++)
        push(&list, packet_of(bytes, size));
    check(list.count == 3 && list.bytes == 6, "count and bytes", 6);
    struct packets rest = {0};
    for (unsigned size = 1; size <= 3; size++) {
        struct packet *packet = pop(&list);
        check(packet->size == size && memcmp(packet->bytes, bytes, size) == 0, "the oldest first", size);
        push(&rest, packet);
    }
    check(list.count == 0 && list.bytes == 0 && pop(&list) == NULL, "empty again", 0);
    free_all(&rest);
    check(rest.first == NULL && rest.count == 0, "freed", 0);
}

int main(void) {
    test_ipv4();
    test_ipv6();
    test_others();
    test_lists();
    if (!failed)
        printf("packet_test: marks of IPv4 and IPv6, and lists\n");
    return failed;
}
