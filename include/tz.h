/* tz.h: forwards packets at a node, by the node's own table, from C.
 *
 * `tznode tables` writes the tables, a file a node; docs/FORMATS.md has the bytes of tables, addresses and packets. The functions are
 * proved (crates/tz_c); this header isn't, and no prover sees what the caller does. They keep nothing, allocate nothing and free nothing.
 *
 * What the caller has to keep:
 *   - A pointer is never null, also where its length is 0.
 *   - The bytes that a length names may all be read; what an answer goes to may be written.
 *   - What a call writes overlaps nothing else that it is given. So packet_in and packet_out are two buffers.
 *   - Nobody writes a buffer while a call reads it. Apart from that any threads may call at once, also over one table.
 *
 * Bytes may be anything. tz_table_check tests a whole table: its form, its digest and its order. The other calls take any bytes for a
 * table, and read nothing outside. Over a table that was checked they answer as its router does, over other bytes anything. So check each
 * table once, when it comes.
 *
 * An address, a packet and a table each name a generation, an address and a packet in their first eight bytes. No call compares them:
 * launch and hop by the table of the same generation. Then a packet that was launched to a node's own address arrives over at most three
 * times the shortest way. A packet of any bytes makes at most as many hops as there are nodes.
 *
 * A hop takes time by the logarithm of the table's entries, a launch by the members of its directory.
 *
 * Answers: 0 or more says what happened. Below 0 is a refusal, one of enum tz_refusal; a refused call has written nothing.
 */
#ifndef TZ_H
#define TZ_H

#include <stddef.h>
#include <stdint.h>

#ifdef __cplusplus
extern "C" {
#endif

#define TZ_ADDRESS_LENGTH 42
#define TZ_PACKET_LENGTH 43

/* The refusals, under the numbers of docs/FORMATS.md with a minus before them. */
enum tz_refusal {
    TZ_NO_TABLE = -1,          /* the six letters of a table don't stand in front */
    TZ_VERSION_NOT_KNOWN = -2, /* the table is of another version */
    TZ_CUT_SHORT = -3,         /* there are fewer bytes than the counts in them say */
    TZ_TOO_LONG = -4,          /* there are more bytes than the counts in them say */
    TZ_DAMAGED = -5,           /* the digest isn't that of the bytes before it */
    TZ_NOT_IN_ORDER = -6,      /* no table in order has these bytes */
    TZ_NO_NODE = -7,           /* a node isn't below the number of nodes */
    TZ_UNREACHABLE = -8,       /* no way leads to the destination */
    TZ_STRAY = -9,             /* the packet isn't one that this node can carry on */
    TZ_SPENT = -10,            /* the packet has no hop left */
    TZ_BAD_LENGTH = -11,       /* a packet isn't 43 bytes long, or an address not 42 */
    TZ_BAD_FLAG = -12,         /* an address's flag is neither 0 nor 1, or it is 0 and a later byte isn't */
    TZ_BAD_COUNT = -13,        /* there are more than 13 ports */
    TZ_BAD_PADDING = -14,      /* a place for a port that isn't used isn't 0 */
    TZ_NO_ROOM = -15,          /* the buffer for the answer isn't just as long as the answer */
    TZ_NO_PORT = -16           /* the node has no such port */
};

struct tz_info {
    uint64_t generation; /* the number of changes that made the network */
    uint32_t nodes;      /* how many nodes the network has */
    uint32_t node;       /* whose table it is */
    uint32_t ports;      /* how many neighbours the node has, a port each */
    uint32_t entries;    /* how many trees it is in */
    uint32_t members;    /* how many nodes its directory lists */
};

/* 0: these bytes are a table. TZ_NO_TABLE to TZ_NOT_IN_ORDER say what is wrong, the first in that order. */
int32_t tz_table_check(const uint8_t *table, size_t table_len);

/* 0: *info says what the table's head and counts say. */
int32_t tz_table_info(const uint8_t *table, size_t table_len, struct tz_info *info);

/* 0: *node is the neighbour behind the port. TZ_NO_PORT: it has no such port; ports count from 0. */
int32_t tz_neighbour(const uint8_t *table, size_t table_len, uint32_t port, uint32_t *node);

/* 0: address has the node's own 42 bytes, by which others send to it. address_len has to be 42, else TZ_NO_ROOM. */
int32_t tz_address(const uint8_t *table, size_t table_len, uint8_t *address, size_t address_len);

/* 0: packet has the 43 bytes that the node sends to this address; give them to tz_hop at the same node. packet_len has to be 43, else
 * TZ_NO_ROOM. TZ_UNREACHABLE: no way leads there. TZ_NO_NODE: the network has no such node. TZ_BAD_LENGTH, TZ_BAD_FLAG, TZ_BAD_COUNT,
 * TZ_BAD_PADDING: it is no address. */
int32_t tz_launch(const uint8_t *table, size_t table_len, const uint8_t *address, size_t address_len, uint8_t *packet, size_t packet_len);

/* What the node does with a packet that is there.
 * 1: it goes over *port to the neighbour *next, as the 43 bytes of packet_out.
 * 0: it has arrived; packet_out, *port and *next are as they were.
 * TZ_STRAY, TZ_SPENT, TZ_NO_NODE: it is dropped. TZ_BAD_LENGTH, TZ_BAD_COUNT, TZ_BAD_PADDING: it is no packet. out_len has to be 43, else
 * TZ_NO_ROOM. */
int32_t tz_hop(const uint8_t *table, size_t table_len, const uint8_t *packet_in, size_t in_len, uint8_t *packet_out, size_t out_len,
               uint32_t *port, uint32_t *next);

#ifdef __cplusplus
}
#endif

#endif
