/* The relay's engine: making a fresh relay, opening a connection, a message from one, closing one, and finding out whether one is dead; and
 * replaying the journal of its calls.
 *
 * Link libcrondelith.a, which host/build-archives builds; of a C library it needs memcpy and memmove. Each function is total: any bytes,
 * any numbers and any lengths get an answer. The three tables are 4,096, 5,120 and 144 bytes; who calls keeps them between calls and
 * writes nothing to them. Buffers must not overlap. A slice is a pointer and a length; an empty one may have any pointer.
 *
 * Beside the tables goes a map of the connections, a number of 64 bits that each call is handed and gives back: bit c, from the lowest, is 1
 * while connection c isn't closed. A done open sets the caller's bit; what ends the caller's connection, a close, a version answer of 0 or a
 * timeout, clears it; all other bits stay, and so do all of them in a refused call. A fresh relay's map is 0. So who hands each call the map
 * that the one before gave back, along with its tables, always has a map that agrees with the connection table. What a call answers, sends
 * and writes doesn't depend on it, and with one that doesn't agree just that bit is set or cleared.
 */
#ifndef CRONDELITH_H
#define CRONDELITH_H

#include <stddef.h>
#include <stdint.h>

#ifdef __cplusplus
extern "C" {
#endif

#define CRONDELITH_CONNECTIONS 4096u
#define CRONDELITH_LEASES 5120u
#define CRONDELITH_ALLOWANCES 144u
#define CRONDELITH_RANDOM 80u /* random bytes that a message is lent */
#define CRONDELITH_BUFFER 64u /* the least reply buffer; a relay buffer also holds as many bytes as the message */
#define CRONDELITH_NOBODY 255u

/* number: 0 done, or the first check that applies:
 *   1 a table has another size             6 not a message that peers send
 *   2 the time is 2^40 or more, or below   7 not permitted in the connection's state
 *     that of the last accepted call       8 needs a session
 *   3 connection 64 or more                9 costs more than the partner has left
 *   4 open: not closed; else: closed
 *   5 a buffer too short, or not 80 random bytes
 * A keepalive has 1 to 5, as a close has, but with both buffers at least CRONDELITH_BUFFER long. Making a fresh relay has 1, the first
 * half of 2, and then 6, if its term is neither 0 nor from 600 to 86,400. Times are whole seconds.
 * A refused call changes no byte and answers 0, 0, CRONDELITH_NOBODY, 0.
 * A done open, or a done message other than SessionEnd, costs 32, the bytes of the message and the bytes that it answers, `reply` and `relay`
 * together: 45 an open, 131,100 the longest send. Anything else is free. 9 compares with what the call would cost if it were done.
 */
typedef struct {
    uint32_t number;
    uint32_t reply;       /* bytes at the start of the reply buffer, for the caller's connection */
    uint32_t relay;       /* bytes at the start of the relay buffer, for the destination */
    uint32_t destination; /* a connection, or CRONDELITH_NOBODY */
    uint32_t disconnect;  /* 1: the host has to disconnect the caller */
    uint64_t map;         /* the map of the connections afterwards; that of before, if the call is refused */
    uint8_t record[16];   /* the call's record in the journal; on 1 to 3, and of a fresh start, sixteen zero bytes */
} crondelith_answer;

/* Leases are given, renewed and extended for `term` seconds from the time of the call, 600 to 86,400; 0 means 600. The tables keep the term, in
 * bytes 128 to 135 of the allowances, most significant first, and no other call changes it. Tables from before there was a term have 0 there,
 * and leases of 3,600 seconds; any other number out of that range counts as 600.
 */
crondelith_answer crondelith_fresh(uint8_t *connections, size_t connections_length, uint8_t *leases, size_t leases_length,
                                   uint8_t *allowances, size_t allowances_length, uint64_t map, uint64_t now, uint64_t term);

crondelith_answer crondelith_open(uint8_t *connections, size_t connections_length, uint8_t *leases, size_t leases_length,
                                  uint8_t *allowances, size_t allowances_length, uint64_t map, uint64_t now, uint64_t connection, uint8_t *reply,
                                  size_t reply_length);

/* Any message and any relay buffer that is long enough serve. A long send is fastest where the second byte of both, at which its data
 * begins, is at a multiple of 64, a line of the cache: elsewhere it takes up to 1.5 times as long. How far apart they lie doesn't count.
 */
crondelith_answer crondelith_message(uint8_t *connections, size_t connections_length, uint8_t *leases, size_t leases_length,
                                     uint8_t *allowances, size_t allowances_length, uint64_t map, uint64_t now, uint64_t connection,
                                     const uint8_t *message, size_t message_length, const uint8_t *random, size_t random_length,
                                     uint8_t *reply, size_t reply_length, uint8_t *relay, size_t relay_length);

crondelith_answer crondelith_close(uint8_t *connections, size_t connections_length, uint8_t *leases, size_t leases_length,
                                   uint8_t *allowances, size_t allowances_length, uint64_t map, uint64_t now, uint64_t connection, uint8_t *relay,
                                   size_t relay_length);

/* To be called for each connection, once a second or so: finds out whether its peer still answers. Costs nothing.
 * Connected peers are asked by a Keepalive (type 13) 30 seconds after the last message that they were sent, and any message from them that
 * is accepted answers it. Where one has not been answered for 60 seconds, the connection is closed as by crondelith_close: `relay` bytes may
 * be for `destination`, and disconnect is 1. Else, where none is unanswered and 30 seconds have passed, `reply` is the Keepalive to send.
 * Else nothing is sent, and of the tables only the clock changes.
 */
crondelith_answer crondelith_keepalive(uint8_t *connections, size_t connections_length, uint8_t *leases, size_t leases_length,
                                       uint8_t *allowances, size_t allowances_length, uint64_t map, uint64_t now, uint64_t connection,
                                       uint8_t *reply, size_t reply_length, uint8_t *relay, size_t relay_length);

/* Which number does a new connection get? From the map alone: how many connections the partner has, and the lowest of its numbers whose bit is 0,
 * or CRONDELITH_NOBODY exactly if it has none. number: 0, or 3 if there is no such partner (8 or more): then 0 and CRONDELITH_NOBODY.
 */
typedef struct {
    uint32_t number;
    uint32_t connections;
    uint32_t lowest;
} crondelith_partner_connections;

crondelith_partner_connections crondelith_connections_of(uint64_t map, uint64_t partner);

/* The map of a connection table, for tables that come without one. number: 0, or 1 if the table isn't 4,096 bytes: then the map is 0. */
typedef struct {
    uint32_t number;
    uint64_t map;
} crondelith_rebuilt;

crondelith_rebuilt crondelith_rebuild(const uint8_t *connections, size_t connections_length);

/* The journal is a file of the calls' records in their order, those of calls answered with 1 to 3 left out; a fresh start begins a new one. A
 * record, most significant byte first: time 8, connection 1, call 1 (0 open, 1 message, 2 close, 3 keepalive), the message's first byte or 0,
 * answer 1, charge 4: with 0 what the call was charged, with 9 what it would have cost, else 0.
 *
 * Replaying a journal from the time and the term of its fresh start gives the allowances that the relay had after the last record, or the place
 * of the first record that contradicts the rules: exactly if its connection or call number is out of range; its answer is 1 to 3 or above 9; its
 * time is 2^40 or more, or below that of the latest done record (at first the fresh start's); it has a charge though it is a close, a keepalive
 * or a SessionEnd (first byte 9), or though its answer is neither 0 nor 9; its answer is 0 and its charge above what its partner has at that
 * time; or its answer is 9 and its charge isn't. What is left at the end and is shorter than a record contradicts too, once all before is judged.
 *
 * number:       1, 2 or 6 as a fresh start with these allowances, time and term would be refused, before the journal is looked at; else 0.
 * contradicted: 1, and `place` is the byte at which the record, or what is left at the end, begins. Else both are 0.
 * The allowances are written, whole, exactly if number and contradicted are 0.
 */
typedef struct {
    uint32_t number;
    uint32_t contradicted;
    uint64_t place;
} crondelith_replayed;

crondelith_replayed crondelith_replay(uint8_t *allowances, size_t allowances_length, const uint8_t *journal, size_t journal_length, uint64_t now,
                                      uint64_t term);

/* The same by another way, to check it by: every partner's level is filled once for each second. It answers the same of every journal; of the
 * allowances it writes each level as it is at the time of the latest done record (at first the start), with that time beside it. At that time
 * and at any later one both give the same levels.
 */
crondelith_replayed crondelith_replay_plain(uint8_t *allowances, size_t allowances_length, const uint8_t *journal, size_t journal_length,
                                            uint64_t now, uint64_t term);

/* Why is a call turned away, or what decides it? These answer for the call that the function without 'explain_' in its name would be
 * asked for, from the same tables and with buffers of such lengths; they only read. Link libcrondelith_reasons.a.
 *
 * check:     the number that the call would be answered with.
 * request:   of a call that would be done, 1 for a lease request (type 2), 2 for an establish request (type 6); else 0.
 * condition: of a lease 0 if it is accepted, or the first condition that fails: 1 the connection holds a live lease, 2 every row of
 *            the partner is live, 3 a live row of the partner has the cookie that the random bytes begin with, 4 no candidate for
 *            the id is free. A cookie in the request changes nothing of this. Of an establish the status, 0 to 5. Else 0.
 * charged:   1 where checks 1 to 8 pass and the call is a charged one; else 0.
 * headroom:  where charged is 1, what the partner has at that time minus what the call costs: negative by what is missing exactly
 *            if check is 9. Else 0.
 */
typedef struct {
    uint32_t check;
    uint32_t request;
    uint32_t condition;
    uint32_t charged;
    int64_t headroom;
} crondelith_reason;

crondelith_reason crondelith_explain_open(const uint8_t *connections, size_t connections_length, const uint8_t *leases,
                                          size_t leases_length, const uint8_t *allowances, size_t allowances_length, uint64_t now,
                                          uint64_t connection, uint64_t reply_length);

crondelith_reason crondelith_explain_message(const uint8_t *connections, size_t connections_length, const uint8_t *leases,
                                             size_t leases_length, const uint8_t *allowances, size_t allowances_length, uint64_t now,
                                             uint64_t connection, const uint8_t *message, size_t message_length,
                                             const uint8_t *random, size_t random_length, uint64_t reply_length,
                                             uint64_t relay_length);

crondelith_reason crondelith_explain_close(const uint8_t *connections, size_t connections_length, const uint8_t *leases,
                                           size_t leases_length, const uint8_t *allowances, size_t allowances_length, uint64_t now,
                                           uint64_t connection, uint64_t relay_length);

crondelith_reason crondelith_explain_keepalive(const uint8_t *connections, size_t connections_length, const uint8_t *leases,
                                               size_t leases_length, const uint8_t *allowances, size_t allowances_length, uint64_t now,
                                               uint64_t connection, uint64_t reply_length, uint64_t relay_length);

#ifdef __cplusplus
}
#endif

#endif
