#include "stage_test.h"

#include "stage_packet.h"

#include <rte_ip.h>
#include <string.h>

struct rte_mbuf *alloc(void) {
    struct rte_mbuf *mbuf = rte_pktmbuf_alloc(pool);
    EXPECT(mbuf != NULL);
    return mbuf;
}

void expect_all_back(void) {
    EXPECT(rte_mempool_avail_count(pool) == MBUFS);
}

/* Writes a frame with this number of VLAN tags and an IP header of this version and this ECN field; returns its size. */
static uint32_t write_frame(uint8_t *bytes, int tags, int version, uint8_t ecn) {
    uint32_t at = 12;
    memset(bytes, 0, 256);
    for (int i = 0; i < tags; i++, at += 4) {
        bytes[at] = i + 1 < tags ? 0x88 : 0x81;
        bytes[at + 1] = i + 1 < tags ? 0xa8 : 0x00;
    }
    bytes[at++] = version == 4 ? 0x08 : 0x86;
    bytes[at++] = version == 4 ? 0x00 : 0xdd;
    if (version == 4) {
        struct rte_ipv4_hdr header = {.version_ihl = 0x46, .type_of_service = 0xb8 | ecn, .time_to_live = 64, .next_proto_id = 17};
        header.total_length = rte_cpu_to_be_16(64);
        header.src_addr = rte_cpu_to_be_32(0x0a000001 + (uint32_t)tags);
        header.dst_addr = rte_cpu_to_be_32(0xffffff00);
        memcpy(bytes + at, &header, sizeof header);
        ((struct rte_ipv4_hdr *)(bytes + at))->hdr_checksum = rte_ipv4_cksum((struct rte_ipv4_hdr *)(bytes + at));
        return at + 64;
    }
    bytes[at] = 0x6b;
    bytes[at + 1] = (uint8_t)(0x85 | ecn << 4);
    return at + 80;
}

/* Returns a frame of these bytes in three segments: `first` bytes, `second` bytes and the rest. */
static struct rte_mbuf *segments(const uint8_t *bytes, uint32_t size, uint32_t first, uint32_t second) {
    uint32_t lengths[3] = {first, second, size - first - second};
    struct rte_mbuf *head = NULL;
    for (int i = 0; i < 3; i++) {
        struct rte_mbuf *segment = alloc();
        memcpy(rte_pktmbuf_append(segment, (uint16_t)lengths[i]), bytes, lengths[i]);
        bytes += lengths[i];
        if (head == NULL)
            head = segment;
        else
            EXPECT(rte_pktmbuf_chain(head, segment) == 0);
    }
    return head;
}

static struct rte_mbuf *frame(int tags, int version, uint8_t ecn) {
    uint8_t bytes[256];
    return segments(bytes, write_frame(bytes, tags, version, ecn), 14, 0);
}

struct rte_mbuf *ipv6(int tags) {
    return frame(tags, 6, PIE_NOT_ECT);
}

struct rte_mbuf *plain(uint16_t size, uint8_t ecn) {
    uint8_t bytes[256];
    struct rte_mbuf *mbuf = alloc();
    uint32_t head = write_frame(bytes, 0, 4, ecn);
    memset(rte_pktmbuf_append(mbuf, size), 0, size);
    memcpy(rte_pktmbuf_mtod(mbuf, void *), bytes, RTE_MIN(head, (uint32_t)size));
    return mbuf;
}

/* Tests that a mark changes only the ECN field and the checksum, which is right, for frames in any segments. */
static void expect_marked(int tags, int version, uint8_t ecn, uint32_t first, uint32_t second) {
    uint8_t bytes[256], wanted[256], copy[256];
    uint32_t size = write_frame(bytes, tags, version, ecn);
    EXPECT(write_frame(wanted, tags, version, PIE_CE) == size);
    struct rte_mbuf *mbuf = segments(bytes, size, first, second);
    struct stage_packet packet = stage_packet_look(mbuf);
    EXPECT(packet.version == version && packet.ecn == ecn && packet.header == 14 + 4 * tags);
    EXPECT(!stage_packet_is_shared(mbuf, &packet));
    stage_packet_mark(mbuf, &packet);
    EXPECT(memcmp(rte_pktmbuf_read(mbuf, 0, size, copy), wanted, size) == 0);
    rte_pktmbuf_free(mbuf);
}

void test_marks(void) {
    for (int version = 4; version <= 6; version += 2)
        for (int tags = 0; tags <= 4; tags++)
            for (uint8_t ecn = PIE_ECT1; ecn <= PIE_CE; ecn++)
                for (uint32_t first = 1; first < 50; first++)
                    for (uint32_t second = 0; second < 12; second += 3)
                        expect_marked(tags, version, ecn, first, second);
    // the card computes the checksum: it is unchanged
    struct rte_mbuf *mbuf = frame(0, 4, PIE_ECT0);
    struct stage_packet packet = stage_packet_look(mbuf);
    uint8_t before[64], after[64];
    memcpy(before, rte_pktmbuf_read(mbuf, 0, 34, before), 34);
    mbuf->ol_flags |= RTE_MBUF_F_TX_IP_CKSUM;
    stage_packet_mark(mbuf, &packet);
    const uint8_t *now = rte_pktmbuf_read(mbuf, 0, 34, after);
    EXPECT(now[15] == (before[15] | PIE_CE) && now[24] == before[24] && now[25] == before[25]);
    rte_pktmbuf_free(mbuf);
    expect_all_back();
    printf("stage_test: marks in IPv4 and IPv6, behind VLAN tags, across segments\n");
}

/* Tests that a frame without a complete IP header has no ECN field. */
void test_no_ip(void) {
    uint8_t bytes[256];
    for (int version = 4; version <= 6; version += 2) {
        uint32_t size = write_frame(bytes, 5, version, PIE_ECT0);
        struct rte_mbuf *mbuf = segments(bytes, size, 20, 0);
        EXPECT(stage_packet_look(mbuf).version == 0); // five tags
        rte_pktmbuf_free(mbuf);
        write_frame(bytes, 1, version, PIE_ECT0);
        for (uint32_t cut = 0; cut < 18u + (version == 4 ? 24 : 40); cut++) {
            mbuf = segments(bytes, cut, cut / 2, 0);
            EXPECT(stage_packet_look(mbuf).version == 0 && stage_packet_look(mbuf).ecn == PIE_NOT_ECT);
            rte_pktmbuf_free(mbuf);
        }
    }
    write_frame(bytes, 0, 4, PIE_ECT0);
    bytes[14] = 0x44; // a header of 16 bytes
    struct rte_mbuf *mbuf = segments(bytes, 78, 30, 0);
    EXPECT(stage_packet_look(mbuf).version == 0);
    rte_pktmbuf_free(mbuf);
    expect_all_back();
    printf("stage_test: no IP, and headers cut short\n");
}

/* Tests that a shared header is not marked. */
void test_shared(void) {
    struct rte_mbuf *mbuf = plain(100, PIE_ECT0);
    struct stage_packet packet = stage_packet_look(mbuf);
    struct rte_mbuf *clone = rte_pktmbuf_clone(mbuf, pool);
    EXPECT(stage_packet_is_shared(mbuf, &packet) && stage_packet_is_shared(clone, &packet));
    rte_pktmbuf_free(mbuf);
    EXPECT(!stage_packet_is_shared(clone, &packet)); // the last holder
    rte_mbuf_refcnt_update(clone, 1);
    EXPECT(stage_packet_is_shared(clone, &packet));
    rte_mbuf_refcnt_update(clone, -1);
    rte_pktmbuf_free(clone);
    expect_all_back();
    printf("stage_test: shared headers\n");
}
