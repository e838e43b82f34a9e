// forward FOLDER [ROUTES]: carries packets over the tables 0.table, 1.table, .. that `tznode tables` put into FOLDER, by the library of
// tz.h. With ROUTES, a file of lines `FROM TO` and behind it what `tznode route` prints of this pair, it takes each packet's way and
// compares the two. Else it carries a million packets between drawn nodes, and prints how many packets were launched and how many hops were
// made in a second of the processor. The status is 0 where all went as it should.
#define _POSIX_C_SOURCE 200809L
#include <errno.h>
#include <fcntl.h>
#include <inttypes.h>
#include <stdio.h>
#include <stdlib.h>
#include <string.h>
#include <sys/mman.h>
#include <sys/stat.h>
#include <time.h>
#include <unistd.h>
#include <tz.h>

enum { PACKETS = 1000000, BATCH = 1000 };

struct table {
    const uint8_t *bytes;
    size_t length;
};

static struct table *tables;
static uint32_t nodes;
static uint64_t generation;

static void end(const char *what, const char *cause) {
    fprintf(stderr, "forward: %s: %s\n", what, cause);
    exit(1);
}

static void refused(const char *what, int32_t answer) {
    fprintf(stderr, "forward: %s: refusal %" PRId32 " of tz.h\n", what, answer);
    exit(1);
}

// Maps the table of a node and checks it. A table's file is replaced by a rename, so a mapping keeps its bytes.
static void load(const char *folder, uint32_t node, struct table *table, struct tz_info *info) {
    char path[4096];
    struct stat status;
    int32_t answer;
    if (snprintf(path, sizeof path, "%s/%" PRIu32 ".table", folder, node) >= (int)sizeof path) end(folder, "the path is too long");
    int file = open(path, O_RDONLY);
    if (file < 0 || fstat(file, &status)) end(path, strerror(errno));
    table->length = (size_t)status.st_size;
    table->bytes = table->length ? mmap(NULL, table->length, PROT_READ, MAP_PRIVATE, file, 0) : (const uint8_t *)"";
    if (table->bytes == MAP_FAILED) end(path, strerror(errno));
    close(file);
    if ((answer = tz_table_check(table->bytes, table->length))) refused(path, answer);
    if ((answer = tz_table_info(table->bytes, table->length, info))) refused(path, answer);
    if (info->node != node || (node && (info->nodes != nodes || info->generation != generation)))
        end(path, "it is of another node, network or generation");
}

static size_t load_all(const char *folder) {
    struct table first;
    struct tz_info info;
    size_t bytes = 0;
    load(folder, 0, &first, &info);
    nodes = info.nodes;
    generation = info.generation;
    if (!(tables = calloc(nodes, sizeof *tables))) end(folder, "out of memory");
    for (uint32_t node = 0; node < nodes; node++) {
        load(folder, node, &tables[node], &info);
        bytes += tables[node].length;
    }
    return bytes;
}

// The packet that a node sends to another, and whether there is one. In a network the address would come from the other node.
static int launch(uint32_t from, uint32_t to, uint8_t *packet) {
    uint8_t address[TZ_ADDRESS_LENGTH];
    int32_t answer = tz_address(tables[to].bytes, tables[to].length, address, sizeof address);
    if (answer) refused("an address", answer);
    answer = tz_launch(tables[from].bytes, tables[from].length, address, sizeof address, packet, TZ_PACKET_LENGTH);
    if (answer && answer != TZ_UNREACHABLE) refused("a launch", answer);
    return !answer;
}

// Carries a packet to its end, and puts the nodes that it comes to behind the first one. Returns how many hops it made.
static uint32_t carry(uint32_t at, uint8_t *packet, uint32_t *trail) {
    uint8_t sent[TZ_PACKET_LENGTH];
    uint32_t hops = 0, port;
    int32_t answer;
    trail[0] = at;
    while ((answer = tz_hop(tables[at].bytes, tables[at].length, packet, TZ_PACKET_LENGTH, sent, sizeof sent, &port, &at)) == 1) {
        memcpy(packet, sent, sizeof sent);
        trail[++hops] = at;
    }
    if (answer) refused("a hop", answer);
    return hops;
}

// The file's lines against the packets' ways. A table has no weights, so the length isn't compared.
static int compare(const char *path) {
    FILE *file = fopen(path, "r");
    size_t size = 0, lines = 0, wrong = 0, used;
    uint32_t from, to, *trail = calloc(nodes, sizeof *trail);
    char *line = NULL, *cut, *way = malloc(80 + 6 * (size_t)nodes);
    uint8_t packet[TZ_PACKET_LENGTH];
    if (!file) end(path, strerror(errno));
    if (!trail || !way) end(path, "out of memory");
    for (; getline(&line, &size, file) > 0; lines++) {
        if ((cut = strstr(line, " length ")) || (cut = strchr(line, '\n'))) *cut = 0;
        if (sscanf(line, "%" SCNu32 " %" SCNu32, &from, &to) != 2 || from >= nodes || to >= nodes)
            end(path, "a line begins with no pair of nodes");
        used = (size_t)sprintf(way, "%" PRIu32 " %" PRIu32 " generation=%" PRIu64, from, to, generation);
        if (launch(from, to, packet)) {
            uint32_t hops = carry(from, packet, trail);
            used += (size_t)sprintf(way + used, " route");
            for (uint32_t k = 0; k <= hops; k++) used += (size_t)sprintf(way + used, " %" PRIu32, trail[k]);
        } else {
            strcpy(way + used, " unreachable");
        }
        if (strcmp(line, way)) {
            printf("differs: %s: %s\n", line, way);
            wrong++;
        }
    }
    printf("ways=%zu different=%zu\n", lines, wrong);
    return lines == 0 || wrong > 0;
}

// Seconds of the processor.
static double now(void) {
    struct timespec time;
    clock_gettime(CLOCK_PROCESS_CPUTIME_ID, &time);
    return (double)time.tv_sec + (double)time.tv_nsec / 1e9;
}

// A drawn node, by xorshift64.
static uint32_t drawn(void) {
    static uint64_t state = 88172645463325252;
    state ^= state << 13;
    state ^= state >> 7;
    state ^= state << 17;
    return (uint32_t)((state >> 32) % nodes);
}

// A batch is launched, and then carried, so that the two have times of their own.
static int measure(void) {
    static uint8_t packets[BATCH][TZ_PACKET_LENGTH];
    static uint32_t pair[BATCH][2];
    uint32_t *trail = calloc(nodes, sizeof *trail);
    uint64_t hops = 0, unreachable = 0;
    double launching = 0, hopping = 0, from;
    if (!trail) end("a trail", "out of memory");
    for (int batch = 0; batch < PACKETS / BATCH; batch++) {
        int sent = 0;
        from = now();
        for (int k = 0; k < BATCH; k++) {
            pair[sent][0] = drawn();
            pair[sent][1] = drawn();
            if (launch(pair[sent][0], pair[sent][1], packets[sent])) sent++; else unreachable++;
        }
        launching += now() - from;
        from = now();
        for (int k = 0; k < sent; k++) {
            uint32_t made = carry(pair[k][0], packets[k], trail);
            if (trail[made] != pair[k][1]) end("a packet", "it arrived at another node");
            // The last step says that it has arrived.
            hops += made + 1;
        }
        hopping += now() - from;
    }
    printf("packets=%d unreachable=%" PRIu64 " launches_a_second=%.0f hops=%" PRIu64 " hops_a_second=%.0f\n", PACKETS, unreachable,
           PACKETS / launching, hops, hopping > 0 ? (double)hops / hopping : 0);
    return 0;
}

int main(int count, char **words) {
    if (count < 2 || count > 3) {
        fprintf(stderr, "usage: forward FOLDER [ROUTES]\n");
        return 2;
    }
    size_t bytes = load_all(words[1]);
    printf("tables=%" PRIu32 " bytes=%zu generation=%" PRIu64 "\n", nodes, bytes, generation);
    return count == 3 ? compare(words[2]) : measure();
}
