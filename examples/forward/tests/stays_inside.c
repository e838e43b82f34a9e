// stays_inside FOLDER: gives each call of tz.h the tables of FOLDER with each byte changed, cut, and longer by a byte; and addresses and
// packets with each byte changed, or of other lengths. Each buffer lies right in front of a page that may not be touched, and then right
// behind one, so a call that leaves it ends the process. What a call answers has to be one of its own answers, and what isn't an answer's
// may not be written. Prints the cases and how many went wrong. Built with the sanitizers by ./forward.
#define _GNU_SOURCE
#include <inttypes.h>
#include <stdio.h>
#include <stdlib.h>
#include <string.h>
#include <sys/mman.h>
#include <tz.h>

enum { ROOM = 1 << 16, PAGE = 4096, MOST = 64, CHANGES = 11 };

// A piece of memory between two pages that may not be touched.
struct fenced {
    uint8_t *start;
};
static struct fenced table_place, in_place, out_place, info_place, port_place, next_place;
static uint8_t tables[MOST][ROOM], addresses[MOST][TZ_ADDRESS_LENGTH];
static size_t lengths[MOST];
static uint32_t nodes;
static int behind;
static uint64_t cases, wrong;

static void fence(struct fenced *place) {
    uint8_t *all = mmap(NULL, ROOM + 2 * PAGE, PROT_NONE, MAP_PRIVATE | MAP_ANONYMOUS, -1, 0);
    if (all == MAP_FAILED || mprotect(all + PAGE, ROOM, PROT_READ | PROT_WRITE)) exit(3);
    place->start = all + PAGE;
}

// So many bytes at the end of the place, or at its beginning.
static void *put(struct fenced *place, const void *bytes, size_t length) {
    uint8_t *at = behind ? place->start : place->start + ROOM - length;
    if (bytes) memcpy(at, bytes, length);
    return at;
}

static void is(int right, const char *what, int32_t answer) {
    cases++;
    if (!right && wrong++ < 20) printf("wrong: %s: %" PRId32 "\n", what, answer);
}

static int one_of(int32_t answer, const int32_t *among) {
    for (; *among != INT32_MIN; among++) if (*among == answer) return 1;
    return 0;
}
#define ONE_OF(answer, ...) one_of(answer, (const int32_t[]){__VA_ARGS__, INT32_MIN})

static int all_are(const uint8_t *bytes, size_t length, uint8_t value) {
    while (length--) if (*bytes++ != value) return 0;
    return 1;
}

// The eight bits of a byte turned one by one, and the byte as 0, as 255 and inverted.
static uint8_t changed(uint8_t byte, int how) { return how < 8 ? byte ^ (1 << how) : how == 8 ? 0 : how == 9 ? 255 : (uint8_t)~byte; }

static int32_t launch(const uint8_t *table, size_t length, const uint8_t *address, size_t address_length, uint8_t *packet, size_t room) {
    uint8_t *in = put(&in_place, address, address_length), *out = put(&out_place, NULL, room);
    memset(out, 0xa5, room);
    int32_t answer = tz_launch(table, length, in, address_length, out, room);
    if (answer == 0 && packet) memcpy(packet, out, TZ_PACKET_LENGTH);
    is(answer == 0 || all_are(out, room, 0xa5), "a launch that was refused wrote", answer);
    return answer;
}

static int32_t hop(const uint8_t *table, size_t length, const uint8_t *packet, size_t packet_length, uint8_t *sent, size_t room,
                   uint32_t *next) {
    uint8_t *in = put(&in_place, packet, packet_length), *out = put(&out_place, NULL, room);
    uint32_t *port = put(&port_place, NULL, sizeof *port), *to = put(&next_place, NULL, sizeof *to);
    memset(out, 0xa5, room);
    *port = *to = 0xa5a5a5a5;
    int32_t answer = tz_hop(table, length, in, packet_length, out, room, port, to);
    is(answer == 1 || (all_are(out, room, 0xa5) && *port == 0xa5a5a5a5 && *to == 0xa5a5a5a5), "a hop that sent nothing wrote", answer);
    is(answer != 1 || (*port < 65536 && *to < 65536), "a hop to a place that is none", answer);
    if (answer == 1 && sent) memcpy(sent, out, TZ_PACKET_LENGTH);
    if (answer == 1) *next = *to;
    return answer;
}

// Each call over bytes that needn't be a table; the packet is one that the node has to carry.
static void call_all(const uint8_t *bytes, size_t length, uint32_t node, const uint8_t *packet, int32_t first, int32_t last,
                     const char *what) {
    const uint8_t *table = put(&table_place, bytes, length);
    struct tz_info *info = put(&info_place, NULL, sizeof *info);
    uint32_t *to = put(&next_place, NULL, sizeof *to), next;
    uint8_t *out;
    int32_t answer = tz_table_check(table, length);
    is(first >= answer && answer >= last, what, answer);
    answer = tz_table_info(table, length, info);
    is(ONE_OF(answer, 0, TZ_NOT_IN_ORDER), "tz_table_info", answer);
    for (uint32_t port = 0; port < 70000; port = port < 4 ? port + 1 : port * 5) {
        answer = tz_neighbour(table, length, port, to);
        is(ONE_OF(answer, 0, TZ_NOT_IN_ORDER, TZ_NO_PORT), "tz_neighbour", answer);
    }
    out = put(&out_place, NULL, TZ_ADDRESS_LENGTH);
    answer = tz_address(table, length, out, TZ_ADDRESS_LENGTH);
    is(ONE_OF(answer, 0, TZ_NOT_IN_ORDER), "tz_address", answer);
    for (uint32_t to_node = node % 3; to_node < nodes; to_node += 3) {
        answer = launch(table, length, addresses[to_node], TZ_ADDRESS_LENGTH, NULL, TZ_PACKET_LENGTH);
        is(ONE_OF(answer, 0, TZ_NOT_IN_ORDER, TZ_NO_NODE, TZ_UNREACHABLE), "tz_launch", answer);
    }
    answer = hop(table, length, packet, TZ_PACKET_LENGTH, NULL, TZ_PACKET_LENGTH, &next);
    is(ONE_OF(answer, 0, 1, TZ_NOT_IN_ORDER, TZ_NO_NODE, TZ_STRAY, TZ_SPENT), "tz_hop", answer);
    is(!memcmp(table, bytes, length), "a table was written", answer);
}

// How these bytes are no packet, whose number of ports is at 16, or no address, where it is at 15; or 0.
static int32_t form(const uint8_t *bytes, size_t at) {
    if (at == 15 && (bytes[10] > 1 || (bytes[10] == 0 && !all_are(bytes + 11, 31, 0)))) return TZ_BAD_FLAG;
    if (bytes[at] > 13) return TZ_BAD_COUNT;
    return all_are(bytes + at + 1 + 2 * bytes[at], 26 - 2 * bytes[at], 0) ? 0 : TZ_BAD_PADDING;
}

// A packet of any bytes, from a node on over the tables as they are: it ends within as many hops as there are nodes.
static void carry(uint32_t at, const uint8_t *packet) {
    uint8_t bytes[TZ_PACKET_LENGTH];
    uint32_t hops = 0;
    int32_t answer;
    memcpy(bytes, packet, sizeof bytes);
    do {
        const uint8_t *table = put(&table_place, tables[at], lengths[at]);
        answer = hop(table, lengths[at], bytes, sizeof bytes, bytes, sizeof bytes, &at);
    } while (answer == 1 && at < nodes && ++hops < nodes);
    if (form(packet, 16)) is(answer == form(packet, 16), "a packet of another form", answer);
    else is(ONE_OF(answer, 0, TZ_STRAY, TZ_SPENT), "the end of a packet of any bytes", answer);
}

static void try_table(uint32_t node, const uint8_t *packet) {
    static uint8_t bytes[ROOM];
    size_t length = lengths[node];
    memcpy(bytes, tables[node], length);
    call_all(bytes, length, node, packet, 0, 0, "a table as it was written");
    for (size_t at = 0; at < length; at++) {
        for (int how = 0; how < CHANGES; how++) {
            bytes[at] = changed(tables[node][at], how);
            if (bytes[at] == tables[node][at]) continue;
            if (at < 6) call_all(bytes, length, node, packet, TZ_NO_TABLE, TZ_NO_TABLE, "a changed letter");
            else if (at < 8) call_all(bytes, length, node, packet, TZ_VERSION_NOT_KNOWN, TZ_VERSION_NOT_KNOWN, "a changed version");
            else call_all(bytes, length, node, packet, TZ_CUT_SHORT, TZ_DAMAGED, "a changed byte");
        }
        bytes[at] = tables[node][at];
        call_all(bytes, at, node, packet, at < 8 ? TZ_NO_TABLE : TZ_CUT_SHORT, at < 8 ? TZ_NO_TABLE : TZ_CUT_SHORT, "a table that is cut");
    }
    bytes[length] = 0;
    call_all(bytes, length + 1, node, packet, TZ_TOO_LONG, TZ_TOO_LONG, "a byte too many");
}

static void try_packet(uint32_t from, const uint8_t *packet, const uint8_t *address) {
    size_t all = lengths[from];
    const uint8_t *table = put(&table_place, tables[from], all);
    uint8_t bytes[TZ_PACKET_LENGTH + 2] = {0};
    uint32_t next;
    int32_t answer;
    for (size_t length = 0; length <= sizeof bytes; length++) {
        if (length != TZ_PACKET_LENGTH) {
            answer = hop(table, all, bytes, length, NULL, TZ_PACKET_LENGTH, &next);
            is(answer == TZ_BAD_LENGTH, "a packet of another length", answer);
            answer = hop(table, all, packet, TZ_PACKET_LENGTH, NULL, length, &next);
            is(answer == TZ_NO_ROOM, "no room for a packet that goes on", answer);
            answer = launch(table, all, address, TZ_ADDRESS_LENGTH, NULL, length);
            is(answer == TZ_NO_ROOM, "no room for a packet that is launched", answer);
        }
        if (length != TZ_ADDRESS_LENGTH) {
            answer = launch(table, all, bytes, length, NULL, TZ_PACKET_LENGTH);
            is(answer == TZ_BAD_LENGTH, "an address of another length", answer);
            answer = tz_address(table, all, put(&out_place, NULL, length), length);
            is(answer == TZ_NO_ROOM, "no room for an address", answer);
        }
    }
    for (size_t at = 0; at < TZ_PACKET_LENGTH; at++) {
        for (int how = 0; how < CHANGES; how++) {
            memcpy(bytes, packet, TZ_PACKET_LENGTH);
            bytes[at] = changed(packet[at], how);
            carry(from, bytes);
            if (at == TZ_ADDRESS_LENGTH) continue;
            memcpy(bytes, address, TZ_ADDRESS_LENGTH);
            bytes[at] = changed(address[at], how);
            table = put(&table_place, tables[from], all);
            answer = launch(table, all, bytes, TZ_ADDRESS_LENGTH, NULL, TZ_PACKET_LENGTH);
            is(form(bytes, 15) ? answer == form(bytes, 15) : ONE_OF(answer, 0, TZ_NO_NODE, TZ_UNREACHABLE), "a changed address", answer);
        }
    }
}

static void load(const char *folder, uint32_t node) {
    char path[4096];
    struct tz_info info;
    FILE *file;
    snprintf(path, sizeof path, "%s/%" PRIu32 ".table", folder, node);
    if (!(file = fopen(path, "rb"))) { perror(path); exit(2); }
    lengths[node] = fread(tables[node], 1, ROOM - 1, file);
    fclose(file);
    int32_t answer = tz_table_info(tables[node], lengths[node], &info);
    if (answer == 0) answer = tz_address(tables[node], lengths[node], addresses[node], TZ_ADDRESS_LENGTH);
    if (answer || info.nodes > MOST) { printf("%s: %" PRId32 "\n", path, answer); exit(2); }
    nodes = info.nodes;
}

int main(int count, char **words) {
    uint8_t packet[TZ_PACKET_LENGTH];
    if (count != 2) return 2;
    nodes = 1;
    for (uint32_t node = 0; node < nodes; node++) load(words[1], node);
    fence(&table_place), fence(&in_place), fence(&out_place), fence(&info_place), fence(&port_place), fence(&next_place);
    for (behind = 0; behind < 2; behind++) {
        for (uint32_t node = 0; node < nodes; node++) {
            for (uint32_t to = 0; to < nodes; to++) {
                const uint8_t *table = put(&table_place, tables[node], lengths[node]);
                int32_t answer = launch(table, lengths[node], addresses[to], TZ_ADDRESS_LENGTH, packet, sizeof packet);
                is(ONE_OF(answer, 0, TZ_UNREACHABLE), "a launch", answer);
                if (answer == 0 && (node + to) % 4 == 0) try_packet(node, packet, addresses[to]);
            }
            // The last packet that it could send; there is one to itself.
            try_table(node, packet);
        }
    }
    printf("stays_inside: tables=%" PRIu32 " cases=%" PRIu64 " wrong=%" PRIu64 "\n", nodes, cases, wrong);
    return wrong > 0;
}
