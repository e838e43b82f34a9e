// router --nodes A-B --wires FILE --tables FOLDER [--metrics PORT] [--counters FILE]: the routers of nodes A to B over UDP, each at a port
// of its own, by the library of tz.h. A datagram is a packet of 43 bytes and a payload of up to 1,400 bytes behind it. fleet/README.md has
// the lines of FILE, the payloads that a router answers, and the counters.
//
// FOLDER holds N.table for each node; a file that is replaced is taken at once, and the newest four generations are kept. A packet goes by
// the table of its own generation. SIGHUP forgets all tables and reads FILE and FOLDER anew, SIGTERM ends it. Its text of counters is
// served at 127.0.0.1:PORT (0: a free one), and put into FILE each second. Nothing of this program is proved but what the library does.
#define _GNU_SOURCE
#include <arpa/inet.h>
#include <errno.h>
#include <fcntl.h>
#include <inttypes.h>
#include <linux/sock_diag.h>
#include <netinet/in.h>
#include <signal.h>
#include <stdbool.h>
#include <stdio.h>
#include <stdlib.h>
#include <string.h>
#include <sys/epoll.h>
#include <sys/inotify.h>
#include <sys/resource.h>
#include <sys/signalfd.h>
#include <sys/socket.h>
#include <sys/stat.h>
#include <time.h>
#include <unistd.h>
#include <tz.h>

enum {
    NODES = 65536,               // a node's number is below this
    GENERATIONS = 4,             // so many tables of a node are kept
    BATCH = 64,                  // so many datagrams are taken from a socket at a time
    PAYLOAD = 1400,              // the most bytes behind a packet
    LONGEST_TABLE = 3014710,     // no table has more bytes
    LOADED_AT_A_TIME = 8,        // so many tables are read before packets have their turn again
    READERS = 16, REQUEST = 2048 // clients of the counters, and the most bytes that one may ask with
};

// What a payload is, by its first byte. Behind it stands the port of the host that it is for, or that an answer is for (2 bytes).
enum kind {
    DATA,    // goes to the host
    ECHO,    // an address of 42 bytes follows, to which the destination's router answers
    ARRIVED, // that answer
    TRACE,   // as ECHO, and each router on the way answers too
    PASSED,  // that answer
    LOST,    // the answer of a router that dropped an ECHO or a TRACE
    KINDS
};
enum {
    ASKING = 3 + TZ_ADDRESS_LENGTH,          // what stands in front of an asking payload's own bytes
    ANSWERING = 3 + 2 + 1 + TZ_PACKET_LENGTH // and of an answer's: behind the port the router's node, the reason, and the packet that came
};

// Why a datagram was dropped. In a LOST payload the reason is its place here, counted from 1.
enum reason {
    LENGTH, GONE, NOT_YET, STRAY, SPENT, NO_NODE, BAD_COUNT, BAD_PADDING, TABLE, NO_WIRE, BUSY, FAILED, REASONS,
    PASSED_ON, IS_THERE // it wasn't
};
static const char *const reason_names[REASONS] = {"length", "generation_gone", "generation_not_yet", "stray", "spent", "no_node",
                                                  "bad_count", "bad_padding", "table", "no_wire", "busy", "failed"};

// Why a table's file isn't taken: from 1 on under the numbers of tz.h.
enum refused { UNREADABLE, OTHER_NODE = 7, OLDER, CONFLICT, REFUSED };
static const char *const refused_names[REFUSED] = {"unreadable", "no_table", "version", "cut_short", "too_long",
                                                   "damaged", "not_in_order", "other_node", "older", "conflict"};

struct table {
    uint8_t *bytes;
    size_t length;
    uint64_t generation;
};

struct node {
    uint32_t number;
    int socket;
    bool is_due;                      // its file has to be looked at
    unsigned kept;
    struct table tables[GENERATIONS]; // the newest first
};

// Where a node's router is, and its host. A port of 0: nobody knows.
struct wire {
    struct sockaddr_in router;
    struct in_addr host;
};

// A client of the counters: what it asks is read to its end, and then the text is written.
struct reader {
    int socket;
    char request[REQUEST];
    size_t asked, done, length;
    char *text;
    time_t since;
};

static const char *wires_path, *tables_path, *counters_path;
static struct wire *wires;
static uint32_t wire_count, first_node, node_count, due_count;
static struct node *nodes;
static struct reader readers[READERS];
static int poll_handle, watch_handle, watched = -1;
static struct {
    uint64_t received, passed_on, delivered, handed, unclaimed, answers, answers_lost, loaded, dropped[REASONS], refused[REFUSED];
} counted;

static void stop(int status, const char *what, const char *cause) {
    fprintf(stderr, "router: %s: %s\n", what, cause);
    exit(status);
}

static void *room(size_t size) {
    void *place = calloc(1, size);
    if (!place) stop(1, "memory", "there is no more");
    return place;
}

static time_t now(void) {
    struct timespec time;
    clock_gettime(CLOCK_MONOTONIC, &time);
    return time.tv_sec;
}

static uint32_t two_bytes(const uint8_t *at) { return (uint32_t)at[0] << 8 | at[1]; }

static void put_two_bytes(uint8_t *at, uint32_t number) {
    at[0] = (uint8_t)(number >> 8);
    at[1] = (uint8_t)number;
}

// The generation that a packet or an address names: its first eight bytes, as tz.h says.
static uint64_t generation_of(const uint8_t *bytes) {
    uint64_t generation = 0;
    for (int k = 0; k < 8; k++) generation = generation << 8 | bytes[k];
    return generation;
}

// ---- the file of wires

// A plain number below the limit, up to the byte that ends it. False where there is none.
static bool number_of(const char **text, char end, uint32_t limit, uint32_t *number) {
    uint64_t value = 0;
    const char *at = *text;
    if (at[0] == '0' && at[1] >= '0' && at[1] <= '9') return false;
    for (; *at >= '0' && *at <= '9' && value < limit; at++) value = 10 * value + (uint64_t)(*at - '0');
    if (at == *text || *at != end || value >= limit) return false;
    *number = (uint32_t)value;
    *text = at + (end != 0);
    return true;
}

// A line `NODE HOST:PORT [HOST]`. False where it is none.
static bool wire_of(char *line, struct wire *into) {
    uint32_t node, port;
    char *rest = NULL, *words[4] = {NULL};
    int count = 0;
    for (char *word = strtok_r(line, " \t", &rest); word && count < 4; word = strtok_r(NULL, " \t", &rest)) words[count++] = word;
    if (count < 2 || count > 3) return false;
    const char *number = words[0], *behind = strrchr(words[1], ':');
    if (!behind || !number_of(&number, 0, NODES, &node) || into[node].router.sin_port) return false;
    words[1][behind - words[1]] = 0;
    behind++;
    struct wire wire = {.router.sin_family = AF_INET};
    if (!number_of(&behind, 0, 65536, &port) || port == 0 || inet_pton(AF_INET, words[1], &wire.router.sin_addr) != 1) return false;
    wire.router.sin_port = htons((uint16_t)port);
    wire.host = wire.router.sin_addr;
    if (count == 3 && inet_pton(AF_INET, words[2], &wire.host) != 1) return false;
    into[node] = wire;
    return true;
}

// Reads the file. Where it isn't one, says so, and leaves what was known. Returns the number of wires, or 0.
static uint32_t read_wires(void) {
    struct wire *read = room(NODES * sizeof *read);
    FILE *file = fopen(wires_path, "re");
    char *line = NULL;
    size_t size = 0, number = 0;
    uint32_t count = 0;
    bool is_right = file != NULL;
    if (!file) fprintf(stderr, "router: %s: %s\n", wires_path, strerror(errno));
    while (is_right && getline(&line, &size, file) > 0) {
        number++;
        line[strcspn(line, "#\r\n")] = 0;
        if (!line[strspn(line, " \t")]) continue;
        if ((is_right = wire_of(line, read))) count++;
        else fprintf(stderr, "router: %s:%zu: it is no `NODE HOST:PORT [HOST]` of a node that has none yet\n", wires_path, number);
    }
    free(line);
    if (file) fclose(file);
    if (is_right && count) {
        free(wires);
        wires = read;
        return count;
    }
    free(read);
    return 0;
}

// ---- tables

static void refuse(struct node *node, enum refused why) {
    counted.refused[why]++;
    fprintf(stderr, "router: %s/%" PRIu32 ".table: %s\n", tables_path, node->number, refused_names[why]);
}

// The bytes of a node's file, or NULL: then *why says why, or is REFUSED where there is no file.
static uint8_t *bytes_of(const struct node *node, size_t *length, enum refused *why) {
    char path[4096];
    struct stat status;
    uint8_t *bytes = NULL;
    size_t done = 0;
    if (snprintf(path, sizeof path, "%s/%" PRIu32 ".table", tables_path, node->number) >= (int)sizeof path) return *why = UNREADABLE, NULL;
    int file = open(path, O_RDONLY | O_NONBLOCK | O_CLOEXEC);
    *why = file < 0 && errno == ENOENT ? REFUSED : UNREADABLE;
    if (file < 0) return NULL;
    if (!fstat(file, &status) && S_ISREG(status.st_mode)) {
        *length = (size_t)status.st_size;
        if (*length > LONGEST_TABLE) *why = (enum refused)-TZ_TOO_LONG;
        else if ((bytes = malloc(*length + 1))) {
            // One that is written in its place may be shorter by now: then it is cut short, and its end is told of again.
            for (ssize_t got; done < *length && (got = read(file, bytes + done, *length - done)) > 0;) done += (size_t)got;
            *length = done;
        }
    }
    close(file);
    return bytes;
}

// Takes what a node's file holds now, if it is a table of this node, of a generation that it lacks and among the newest four.
static void load(struct node *node) {
    struct table new = {0};
    struct tz_info info;
    enum refused why;
    unsigned place = 0;
    int32_t answer;
    if (!(new.bytes = bytes_of(node, &new.length, &why))) {
        if (why != REFUSED) refuse(node, why);
        return;
    }
    if ((answer = tz_table_check(new.bytes, new.length)) || (answer = tz_table_info(new.bytes, new.length, &info))) {
        free(new.bytes);
        refuse(node, (enum refused)-answer);
        return;
    }
    new.generation = info.generation;
    while (place < node->kept && node->tables[place].generation > new.generation) place++;
    struct table *there = place < node->kept && node->tables[place].generation == new.generation ? &node->tables[place] : NULL;
    if (info.node != node->number) why = OTHER_NODE;
    else if (there) why = there->length == new.length && !memcmp(there->bytes, new.bytes, new.length) ? REFUSED : CONFLICT;
    else if (place == GENERATIONS) why = OLDER;
    else {
        if (node->kept == GENERATIONS) free(node->tables[--node->kept].bytes);
        memmove(node->tables + place + 1, node->tables + place, (node->kept++ - place) * sizeof *node->tables);
        node->tables[place] = new;
        counted.loaded++;
        return;
    }
    free(new.bytes);
    if (why != REFUSED) refuse(node, why);
}

static void forget(struct node *node) {
    while (node->kept) free(node->tables[--node->kept].bytes);
}

static void make_due(struct node *node) {
    due_count += !node->is_due;
    node->is_due = true;
}

static void make_all_due(void) {
    for (uint32_t k = 0; k < node_count; k++) make_due(&nodes[k]);
}

// A few of the tables that have to be looked at. It goes round, so none waits for good.
static void load_some(void) {
    static uint32_t at;
    for (unsigned done = 0; due_count && done < LOADED_AT_A_TIME; at = (at + 1) % node_count) {
        if (!nodes[at].is_due) continue;
        nodes[at].is_due = false;
        due_count--;
        done++;
        load(&nodes[at]);
    }
}

// Watches the folder, if it is there, and another one that has taken its place. What came before it was watched is looked for then.
static void watch(void) {
    static struct stat known;
    struct stat found;
    bool is_there = !stat(tables_path, &found);
    if (watched >= 0 && is_there && found.st_ino == known.st_ino && found.st_dev == known.st_dev) return;
    if (watched >= 0) inotify_rm_watch(watch_handle, watched);
    watched = is_there ? inotify_add_watch(watch_handle, tables_path, IN_MOVED_TO | IN_CLOSE_WRITE | IN_ONLYDIR) : -1;
    if (watched < 0) return;
    known = found;
    make_all_due();
}

static void read_watch(void) {
    _Alignas(struct inotify_event) char events[16384];
    ssize_t length;
    while ((length = read(watch_handle, events, sizeof events)) > 0) {
        for (const char *at = events; at < events + length;) {
            const struct inotify_event *event = (const struct inotify_event *)at;
            uint32_t node;
            const char *name = event->name;
            at += sizeof *event + event->len;
            if (event->mask & IN_Q_OVERFLOW) make_all_due();
            else if (event->mask & IN_IGNORED && event->wd == watched) watched = -1;
            else if (event->len && number_of(&name, '.', NODES, &node) && !strcmp(name, "table") && node - first_node < node_count)
                make_due(&nodes[node - first_node]);
        }
    }
}

// ---- datagrams

// What a batch sends. Each datagram that was taken leads to two at most: itself, and an answer.
static struct {
    struct mmsghdr headers[2 * BATCH];
    struct iovec parts[2 * BATCH];
    struct sockaddr_in places[2 * BATCH];
    uint8_t answers[2 * BATCH][TZ_PACKET_LENGTH + PAYLOAD];
    bool is_to_host[2 * BATCH];
    unsigned count;
} out;

// The datagram stays where it is until it is sent.
static void queue(const struct sockaddr_in *place, uint8_t *datagram, size_t length, bool is_to_host) {
    unsigned at = out.count++;
    out.places[at] = *place;
    out.is_to_host[at] = is_to_host;
    out.parts[at] = (struct iovec){datagram, length};
    out.headers[at].msg_hdr = (struct msghdr){.msg_name = &out.places[at], .msg_namelen = sizeof out.places[at],
                                              .msg_iov = &out.parts[at], .msg_iovlen = 1};
}

static void send_queued(int handle) {
    for (unsigned done = 0; done < out.count;) {
        int sent = sendmmsg(handle, out.headers + done, out.count - done, MSG_DONTWAIT);
        for (int k = 0; k < sent; k++) {
            if (out.is_to_host[done + (unsigned)k]) counted.handed++;
            else counted.passed_on++;
        }
        if (sent > 0) done += (unsigned)sent;
        else if (errno != EINTR) {
            counted.dropped[errno == EAGAIN || errno == ENOBUFS ? BUSY : FAILED]++;
            done++;
        }
    }
    out.count = 0;
}

// A node's table of this generation, or NULL: then it is gone, or hasn't come yet.
static const struct table *table_of(const struct node *node, uint64_t generation, enum reason *why) {
    for (unsigned k = 0; k < node->kept; k++)
        if (node->tables[k].generation == generation) return &node->tables[k];
    *why = node->kept && node->tables[0].generation > generation ? GONE : NOT_YET;
    return NULL;
}

// Passes a datagram on to the next router, in place. It answers PASSED_ON; IS_THERE where it has arrived; or why it was dropped. In these
// two cases it is as it was.
static enum reason pass(const struct node *node, uint8_t *datagram, size_t length) {
    uint8_t sent[TZ_PACKET_LENGTH];
    uint32_t port, next;
    enum reason why = TABLE;
    const struct table *table = table_of(node, generation_of(datagram), &why);
    if (table) {
        switch (tz_hop(table->bytes, table->length, datagram, TZ_PACKET_LENGTH, sent, sizeof sent, &port, &next)) {
        case 0: counted.delivered++; return IS_THERE;
        case 1:
            if (next < NODES && wires[next].router.sin_port) {
                memcpy(datagram, sent, sizeof sent);
                queue(&wires[next].router, datagram, length, false);
                return PASSED_ON;
            }
            why = NO_WIRE;
            break;
        case TZ_STRAY: why = STRAY; break;
        case TZ_SPENT: why = SPENT; break;
        case TZ_NO_NODE: why = NO_NODE; break;
        case TZ_BAD_COUNT: why = BAD_COUNT; break;
        case TZ_BAD_PADDING: why = BAD_PADDING; break;
        default: why = TABLE;
        }
    }
    counted.dropped[why]++;
    return why;
}

// Gives a datagram that has arrived to the node's host, at the port that its payload names.
static void hand(const struct node *node, uint8_t *datagram, size_t length) {
    const uint8_t *payload = datagram + TZ_PACKET_LENGTH;
    struct sockaddr_in place = {.sin_family = AF_INET, .sin_addr = wires[node->number].host};
    if (length < TZ_PACKET_LENGTH + 3 || payload[0] >= KINDS || !two_bytes(payload + 1)) {
        counted.unclaimed++;
        return;
    }
    place.sin_port = htons((uint16_t)two_bytes(payload + 1));
    queue(&place, datagram, length, true);
}

// Answers an asking payload from this node: by its own table it sends to the address that the payload names.
static void answer(const struct node *node, enum kind kind, unsigned reason, const uint8_t *packet, const uint8_t *asked, size_t length) {
    uint8_t *built = out.answers[out.count], *payload = built + TZ_PACKET_LENGTH;
    enum reason why;
    const struct table *table = table_of(node, generation_of(asked + 3), &why);
    if (!table || tz_launch(table->bytes, table->length, asked + 3, TZ_ADDRESS_LENGTH, built, TZ_PACKET_LENGTH)) {
        counted.answers_lost++;
        return;
    }
    size_t own = length - ASKING < PAYLOAD - ANSWERING ? length - ASKING : PAYLOAD - ANSWERING;
    payload[0] = (uint8_t)kind;
    memcpy(payload + 1, asked + 1, 2);
    put_two_bytes(payload + 3, node->number);
    payload[5] = (uint8_t)reason;
    memcpy(payload + 6, packet, TZ_PACKET_LENGTH);
    memcpy(payload + ANSWERING, asked + ASKING, own);
    counted.answers++;
    if (pass(node, built, TZ_PACKET_LENGTH + ANSWERING + own) == IS_THERE) hand(node, built, TZ_PACKET_LENGTH + ANSWERING + own);
}

static void take(const struct node *node, uint8_t *datagram, size_t length) {
    const uint8_t *payload = datagram + TZ_PACKET_LENGTH;
    uint8_t packet[TZ_PACKET_LENGTH];
    bool asks = length >= TZ_PACKET_LENGTH + ASKING && (payload[0] == ECHO || payload[0] == TRACE);
    if (asks) memcpy(packet, datagram, sizeof packet);
    enum reason what = pass(node, datagram, length);
    if (!asks) {
        if (what == IS_THERE) hand(node, datagram, length);
        return;
    }
    length -= TZ_PACKET_LENGTH;
    if (what == IS_THERE) answer(node, ARRIVED, 0, packet, payload, length);
    else if (what != PASSED_ON) answer(node, LOST, what + 1, packet, payload, length);
    else if (payload[0] == TRACE) answer(node, PASSED, 0, packet, payload, length);
}

// A batch of what has come to a node: it is taken, passed on and sent.
static void serve(const struct node *node) {
    static uint8_t buffers[BATCH][TZ_PACKET_LENGTH + PAYLOAD];
    static struct iovec parts[BATCH];
    static struct mmsghdr headers[BATCH];
    for (int k = 0; k < BATCH && !headers[k].msg_hdr.msg_iov; k++) {
        parts[k] = (struct iovec){buffers[k], sizeof buffers[k]};
        headers[k].msg_hdr = (struct msghdr){.msg_iov = &parts[k], .msg_iovlen = 1};
    }
    int count = recvmmsg(node->socket, headers, BATCH, MSG_DONTWAIT, NULL);
    for (int k = 0; k < count; k++) {
        counted.received++;
        if (headers[k].msg_len < TZ_PACKET_LENGTH || headers[k].msg_hdr.msg_flags & MSG_TRUNC) counted.dropped[LENGTH]++;
        else take(node, buffers[k], headers[k].msg_len);
    }
    send_queued(node->socket);
}

// ---- counters

// How many datagrams the system has dropped, since a socket's place for them was full.
static uint64_t overflows(void) {
    uint64_t sum = 0;
    for (uint32_t k = 0; k < node_count; k++) {
        uint32_t figures[SK_MEMINFO_VARS] = {0};
        socklen_t size = sizeof figures;
        if (!getsockopt(nodes[k].socket, SOL_SOCKET, SO_MEMINFO, figures, &size)) sum += figures[SK_MEMINFO_DROPS];
    }
    return sum;
}

static void tell(FILE *file, const char *name, uint64_t value) {
    fprintf(file, "# TYPE fleet_%s counter\nfleet_%s %" PRIu64 "\n", name, name, value);
}

static void tell_all(FILE *file) {
    uint64_t least = UINT64_MAX, greatest = 0;
    uint32_t without = 0;
    struct timespec used;
    tell(file, "received_total", counted.received);
    tell(file, "passed_on_total", counted.passed_on);
    tell(file, "delivered_total", counted.delivered);
    tell(file, "handed_total", counted.handed);
    tell(file, "unclaimed_total", counted.unclaimed);
    tell(file, "answers_total", counted.answers);
    tell(file, "answers_lost_total", counted.answers_lost);
    tell(file, "tables_loaded_total", counted.loaded);
    fprintf(file, "# TYPE fleet_dropped_total counter\n");
    for (int k = 0; k < REASONS; k++)
        fprintf(file, "fleet_dropped_total{reason=\"%s\"} %" PRIu64 "\n", reason_names[k], counted.dropped[k]);
    fprintf(file, "fleet_dropped_total{reason=\"queue_full\"} %" PRIu64 "\n", overflows());
    fprintf(file, "# TYPE fleet_tables_refused_total counter\n");
    for (int k = 0; k < REFUSED; k++)
        fprintf(file, "fleet_tables_refused_total{reason=\"%s\"} %" PRIu64 "\n", refused_names[k], counted.refused[k]);
    fprintf(file, "# TYPE fleet_generation gauge\n");
    for (uint32_t k = 0; k < node_count; k++) {
        if (!nodes[k].kept && ++without) continue;
        uint64_t newest = nodes[k].tables[0].generation;
        least = newest < least ? newest : least;
        greatest = newest > greatest ? newest : greatest;
        fprintf(file, "fleet_generation{node=\"%" PRIu32 "\"} %" PRIu64 "\n", nodes[k].number, newest);
    }
    clock_gettime(CLOCK_PROCESS_CPUTIME_ID, &used);
    fprintf(file, "# TYPE fleet_nodes gauge\nfleet_nodes %" PRIu32 "\n", node_count);
    fprintf(file, "# TYPE fleet_nodes_without_table gauge\nfleet_nodes_without_table %" PRIu32 "\n", without);
    if (without < node_count)
        fprintf(file, "# TYPE fleet_generation_least gauge\nfleet_generation_least %" PRIu64
                      "\n# TYPE fleet_generation_greatest gauge\nfleet_generation_greatest %" PRIu64 "\n", least, greatest);
    fprintf(file, "# TYPE process_cpu_seconds_total counter\nprocess_cpu_seconds_total %.6f\n",
            (double)used.tv_sec + (double)used.tv_nsec / 1e9);
}

// Puts the counters into their file. Who reads it has the old text or the new one.
static void write_counters(void) {
    char new[4096];
    if (!counters_path || snprintf(new, sizeof new, "%s.new", counters_path) >= (int)sizeof new) return;
    FILE *file = fopen(new, "we");
    if (!file) return;
    tell_all(file);
    bool is_whole = !ferror(file);
    if (fclose(file) || !is_whole || rename(new, counters_path)) unlink(new);
}

static void end_reader(struct reader *reader) {
    close(reader->socket);
    free(reader->text);
    *reader = (struct reader){.socket = -1};
}

enum { SOCKET, LISTENER, READER, SIGNALS, WATCH };

static void wait_for(int handle, uint32_t events, uint32_t what, uint32_t which, int how) {
    struct epoll_event event = {.events = events, .data.u64 = (uint64_t)what << 32 | which};
    if (epoll_ctl(poll_handle, how, handle, &event) && how == EPOLL_CTL_ADD) stop(1, "epoll", strerror(errno));
}

static void greet_reader(int listener) {
    int handle = accept4(listener, NULL, NULL, SOCK_NONBLOCK | SOCK_CLOEXEC);
    if (handle < 0) return;
    for (uint32_t k = 0; k < READERS; k++) {
        if (readers[k].socket >= 0) continue;
        readers[k] = (struct reader){.socket = handle, .since = now()};
        wait_for(handle, EPOLLIN, READER, k, EPOLL_CTL_ADD);
        return;
    }
    close(handle);
}

// What it asks for is read up to an empty line, and not looked at: there is one text.
static void serve_reader(struct reader *reader) {
    ssize_t done;
    if (!reader->text) {
        done = read(reader->socket, reader->request + reader->asked, REQUEST - 1 - reader->asked);
        if (done < 0 && (errno == EAGAIN || errno == EINTR)) return;
        if (done <= 0) return end_reader(reader);
        reader->asked += (size_t)done;
        reader->request[reader->asked] = 0;
        if (!strstr(reader->request, "\r\n\r\n") && !strstr(reader->request, "\n\n")) {
            if (reader->asked == REQUEST - 1) end_reader(reader);
            return;
        }
        FILE *file = open_memstream(&reader->text, &reader->length);
        if (!file) return end_reader(reader);
        fprintf(file, "HTTP/1.0 200 OK\r\nContent-Type: text/plain; version=0.0.4\r\nConnection: close\r\n\r\n");
        tell_all(file);
        if (fclose(file) || !reader->text) return end_reader(reader);
        wait_for(reader->socket, EPOLLOUT, READER, (uint32_t)(reader - readers), EPOLL_CTL_MOD);
    }
    done = send(reader->socket, reader->text + reader->done, reader->length - reader->done, MSG_NOSIGNAL);
    if (done < 0 && (errno == EAGAIN || errno == EINTR)) return;
    if (done >= 0) reader->done += (size_t)done;
    if (done < 0 || reader->done == reader->length) end_reader(reader);
}

static int listen_at(uint32_t *port) {
    struct sockaddr_in place = {.sin_family = AF_INET, .sin_port = htons((uint16_t)*port), .sin_addr.s_addr = htonl(INADDR_LOOPBACK)};
    socklen_t size = sizeof place;
    int handle = socket(AF_INET, SOCK_STREAM | SOCK_NONBLOCK | SOCK_CLOEXEC, 0), yes = 1;
    if (handle < 0 || setsockopt(handle, SOL_SOCKET, SO_REUSEADDR, &yes, sizeof yes) ||
        bind(handle, (struct sockaddr *)&place, sizeof place) || listen(handle, READERS) ||
        getsockname(handle, (struct sockaddr *)&place, &size))
        stop(1, "--metrics", strerror(errno));
    *port = ntohs(place.sin_port);
    wait_for(handle, EPOLLIN, LISTENER, 0, EPOLL_CTL_ADD);
    return handle;
}

// ---- the whole

static void open_node(uint32_t place) {
    struct node *node = &nodes[place];
    const struct wire *wire = &wires[node->number = first_node + place];
    char name[32];
    int bytes = 1 << 20;
    snprintf(name, sizeof name, "node %" PRIu32, node->number);
    if (!wire->router.sin_port) stop(1, name, "it has no wire");
    node->socket = socket(AF_INET, SOCK_DGRAM | SOCK_NONBLOCK | SOCK_CLOEXEC, 0);
    if (node->socket < 0 || bind(node->socket, (const struct sockaddr *)&wire->router, sizeof wire->router)) stop(1, name, strerror(errno));
    // The system may give less; then bursts are lost sooner, and counted.
    setsockopt(node->socket, SOL_SOCKET, SO_RCVBUF, &bytes, sizeof bytes);
    wait_for(node->socket, EPOLLIN, SOCKET, place, EPOLL_CTL_ADD);
}

// Reads the wires again, which leaves sockets as they are, and forgets all tables.
static void start_anew(void) {
    uint32_t count = read_wires();
    if (count) wire_count = count;
    for (uint32_t k = 0; k < node_count; k++) forget(&nodes[k]);
    make_all_due();
}

// Whether the signal says that it should go on.
static bool read_signal(int handle) {
    struct signalfd_siginfo signal;
    while (read(handle, &signal, sizeof signal) == sizeof signal) {
        if (signal.ssi_signo != SIGHUP) return false;
        start_anew();
    }
    return true;
}

static void each_second(void) {
    static time_t last;
    time_t second = now();
    if (second == last) return;
    last = second;
    watch();
    write_counters();
    for (int k = 0; k < READERS; k++)
        if (readers[k].socket >= 0 && second - readers[k].since > 5) end_reader(&readers[k]);
}

static void run(int signals, int listener) {
    struct epoll_event events[256];
    for (;;) {
        int count = epoll_wait(poll_handle, events, 256, due_count ? 0 : 1000);
        for (int k = 0; k < count; k++) {
            uint32_t which = (uint32_t)events[k].data.u64;
            switch (events[k].data.u64 >> 32) {
            case SOCKET: serve(&nodes[which]); break;
            case LISTENER: greet_reader(listener); break;
            case READER: if (readers[which].socket >= 0) serve_reader(&readers[which]); break;
            case WATCH: read_watch(); break;
            case SIGNALS: if (!read_signal(signals)) return;
            }
        }
        load_some();
        each_second();
    }
}

static void usage(void) {
    fprintf(stderr, "usage: router --nodes A-B --wires FILE --tables FOLDER [--metrics PORT] [--counters FILE]\n");
    exit(2);
}

int main(int count, char **words) {
    const char *range = NULL, *metrics = NULL;
    uint32_t last, port = 0;
    int listener = -1;
    struct rlimit limit;
    sigset_t set;
    for (int k = 1; k < count; k += 2) {
        const char **into = !strcmp(words[k], "--nodes") ? &range : !strcmp(words[k], "--wires") ? &wires_path
                          : !strcmp(words[k], "--tables") ? &tables_path : !strcmp(words[k], "--metrics") ? &metrics
                          : !strcmp(words[k], "--counters") ? &counters_path : NULL;
        if (!into || *into || k + 1 == count) usage();
        *into = words[k + 1];
    }
    if (!range || !wires_path || !tables_path) usage();
    if (!number_of(&range, strchr(range, '-') ? '-' : 0, NODES, &first_node)) usage();
    last = first_node;
    if (*range && !number_of(&range, 0, NODES, &last)) usage();
    if (last < first_node || (metrics && !number_of(&metrics, 0, 65536, &port))) usage();
    node_count = last - first_node + 1;

    // A socket a node, and some beside.
    if (!getrlimit(RLIMIT_NOFILE, &limit) && limit.rlim_cur < limit.rlim_max) {
        limit.rlim_cur = limit.rlim_max;
        setrlimit(RLIMIT_NOFILE, &limit);
    }
    if (!(wire_count = read_wires())) stop(1, wires_path, "no wires are known");
    nodes = room(node_count * sizeof *nodes);
    for (int k = 0; k < READERS; k++) readers[k].socket = -1;
    // Who reads what it says may go away.
    signal(SIGPIPE, SIG_IGN);
    sigemptyset(&set);
    sigaddset(&set, SIGHUP);
    sigaddset(&set, SIGINT);
    sigaddset(&set, SIGTERM);
    sigprocmask(SIG_BLOCK, &set, NULL);
    int signals = signalfd(-1, &set, SFD_NONBLOCK | SFD_CLOEXEC);
    poll_handle = epoll_create1(EPOLL_CLOEXEC);
    watch_handle = inotify_init1(IN_NONBLOCK | IN_CLOEXEC);
    if (signals < 0 || poll_handle < 0 || watch_handle < 0) stop(1, "the system", strerror(errno));
    wait_for(signals, EPOLLIN, SIGNALS, 0, EPOLL_CTL_ADD);
    wait_for(watch_handle, EPOLLIN, WATCH, 0, EPOLL_CTL_ADD);
    for (uint32_t k = 0; k < node_count; k++) open_node(k);
    watch();
    if (watched < 0) stop(1, tables_path, strerror(errno));
    if (metrics) listener = listen_at(&port);
    while (due_count) load_some();
    printf("router nodes=%" PRIu32 "-%" PRIu32 " wires=%" PRIu32 " tables=%" PRIu64 " metrics=%" PRIu32 "\n", first_node, last, wire_count,
           counted.loaded, port);
    fflush(stdout);

    run(signals, listener);
    write_counters();
    for (uint32_t k = 0; k < node_count; k++) forget(&nodes[k]);
    free(nodes);
    free(wires);
    return 0;
}
