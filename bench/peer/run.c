/* A program that a network engineer would write in place of `pie run`: reads a trace of arrivals, departures and updates that begins with a
 * short `open` record, decides each with the library, and writes each record again with the answer. It stops at the first record that it does not
 * understand. Its output equals that of `pie run` on such a trace (bench/pie_run.sh and bench/pie_text_count.sh compare them).
 *
 * build: cc -O2 -Iinclude -o peer bench/peer/run.c crates/pie_c/out/libpie_c.a
 * usage: peer < trace > history */
#include "pie.h"

#include <stdio.h>
#include <stdlib.h>
#include <string.h>

enum { IN = 1 << 18, OUT = 1 << 16, ROOM = 512, FIELDS = 16, LARGEST_RING = 1 << 20 };

struct packet {
    uint64_t tag, since;
    uint32_t size, ecn;
};

struct field {
    const char *at;
    size_t length;
};

static char in[IN + 1], out[OUT + ROOM];
static size_t written;
static struct packet *ring;
static uint64_t first, packets, bytes, capacity;
static struct pie_state pie;
static const char *const ecn_words[] = {"not", "ect1", "ect0", "ce"};
static const char *const verdicts[] = {"enqueue", "mark", "early", "bytes", "packets"};

static void fail(const char *why) {
    fwrite(out, 1, written, stdout);
    fprintf(stderr, "peer: %s\n", why);
    exit(1);
}

static void put(const char *text, size_t length) {
    memcpy(out + written, text, length);
    written += length;
}

static void put_word(const char *word) {
    out[written++] = ',';
    put(word, strlen(word));
}

static void put_number(uint64_t number) {
    char digits[20];
    int at = sizeof digits;
    do {
        digits[--at] = (char)('0' + number % 10);
        number /= 10;
    } while (number != 0);
    out[written++] = ',';
    put(digits + at, sizeof digits - at);
}

static uint64_t number_of(struct field field) {
    uint64_t number = 0;
    if (field.length == 0 || field.length > 20 || (field.length > 1 && *field.at == '0'))
        fail("not a number in range");
    for (size_t i = 0; i < field.length; i++) {
        unsigned digit = (unsigned char)field.at[i] - '0';
        if (digit > 9 || number > (UINT64_MAX - digit) / 10)
            fail("not a number in range");
        number = number * 10 + digit;
    }
    return number;
}

static int is_word(struct field field, const char *word) {
    return field.length == strlen(word) && memcmp(field.at, word, field.length) == 0;
}

static uint32_t ecn_of(struct field field) {
    for (uint32_t ecn = 0; ecn < 4; ecn++)
        if (is_word(field, ecn_words[ecn]))
            return ecn;
    fail("unknown word");
    return 0;
}

static size_t split(const char *line, size_t length, struct field *fields) {
    const char *end = line + length;
    for (size_t count = 0; count < FIELDS;) {
        const char *comma = memchr(line, ',', (size_t)(end - line));
        const char *stop = comma ? comma : end;
        fields[count++] = (struct field){line, (size_t)(stop - line)};
        if (!comma)
            return count;
        line = comma + 1;
    }
    fail("wrong number of fields");
    return 0;
}

static void arrive(const struct field *fields) {
    struct packet packet = {number_of(fields[3]), 0, (uint32_t)number_of(fields[4]), ecn_of(fields[5])};
    uint64_t moment = number_of(fields[2]), word = number_of(fields[6]);
    uint32_t verdict = pie_arrive(&pie, bytes, packet.size, capacity - packets, packet.ecn, word, moment);
    if (verdict > 100)
        fail("refused");
    put_word(verdicts[verdict]);
    if (verdict > PIE_MARK)
        return;
    packet.ecn = verdict == PIE_MARK ? PIE_CE : packet.ecn;
    packet.since = pie.moment;
    ring[(first + packets++) % capacity] = packet;
    bytes += packet.size;
}

static void depart(uint64_t moment) {
    if (packets == 0) {
        if (pie_empty(&pie, moment) > 100)
            fail("refused");
        put_word("empty");
        return;
    }
    struct packet packet = ring[first];
    first = (first + 1) % capacity;
    packets--;
    bytes -= packet.size;
    if (pie_depart(&pie, packet.size, bytes, moment) > 100)
        fail("refused");
    put_word("left");
    put_number(packet.tag);
    put_number(packet.size);
    put_word(ecn_words[packet.ecn]);
}

static void update(uint64_t moment) {
    struct pie_updated made = pie_update(&pie, bytes, moment);
    if (made.code > 100)
        fail("refused");
    put_number(made.delay);
    put_number(made.prob);
    put_number(made.burst);
}

static void open_link(const struct field *fields) {
    struct pie_opening opening;
    pie_default_opening(&opening, 0);
    pie_default_params(&opening.params);
    opening.choices = 0;
    opening.moment = number_of(fields[1]);
    capacity = number_of(fields[2]);
    if (capacity == 0 || capacity > LARGEST_RING || pie_open(&pie, &opening) != PIE_DONE)
        fail("record 1: out of range");
    ring = calloc(capacity, sizeof *ring);
    if (!ring)
        fail("out of memory");
}

static void record(const char *line, size_t length) {
    struct field fields[FIELDS];
    size_t count = split(line, length, fields);
    if (!ring && !(is_word(fields[0], "open") && count == 5))
        fail("the first record is not an open record");
    put(line, length);
    if (!ring)
        open_link(fields);
    else if (is_word(fields[0], "arrive") && count == 7 && number_of(fields[1]) < 65536)
        arrive(fields);
    else if (is_word(fields[0], "depart") && count == 3 && number_of(fields[1]) < 65536)
        depart(number_of(fields[2]));
    else if (is_word(fields[0], "update") && count == 3 && number_of(fields[1]) < 65536)
        update(number_of(fields[2]));
    else
        fail("unknown record");
    out[written++] = '\n';
}

int main(void) {
    size_t held = 0, got;
    while ((got = fread(in + held, 1, IN - held, stdin)) != 0) {
        char *line = in, *end = in + held + got, *feed;
        while ((feed = memchr(line, '\n', (size_t)(end - line))) != NULL) {
            if (feed - line > ROOM - 128)
                fail("a line is too long");
            record(line, (size_t)(feed - line));
            line = feed + 1;
            if (written >= OUT) {
                fwrite(out, 1, written, stdout);
                written = 0;
            }
        }
        held = (size_t)(end - line);
        memmove(in, line, held);
        if (held == IN)
            fail("a line is too long");
    }
    fwrite(out, 1, written, stdout);
    return held != 0;
}
