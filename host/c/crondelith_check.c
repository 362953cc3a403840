/* A scene over the compiled engine, through include/crondelith.h as a C program would call it: two connections of one partner lease
 * an id, hold a session, use up their allowance and leave, and each refusal from 1 to 9 comes. After power cuts others come back with
 * the cookie and have the id again, and one that no longer answers is found. The map goes from call to call. Before that, relays of
 * several terms lease an id each; the journal of all that is replayed. At last a partner takes all its numbers, maps disagree with the
 * tables, and journals contradict the rules. What must come back was worked out from the scope document and the requests by hand. Every
 * other case is compared in Rust (host/compare). */
#include <string.h>

#include "check.h"
#include "crondelith.h"

/* host/engine/src/relay.rs has the same numbers about its structs. */
_Static_assert(sizeof(crondelith_answer) == 48 && _Alignof(crondelith_answer) == 8, "crondelith_answer");
_Static_assert(offsetof(crondelith_answer, reply) == 4 && offsetof(crondelith_answer, relay) == 8, "crondelith_answer");
_Static_assert(offsetof(crondelith_answer, destination) == 12, "crondelith_answer");
_Static_assert(offsetof(crondelith_answer, disconnect) == 16, "crondelith_answer");
_Static_assert(offsetof(crondelith_answer, map) == 24 && offsetof(crondelith_answer, record) == 32, "crondelith_answer");
_Static_assert(sizeof ((crondelith_answer *)0)->record == 16, "crondelith_answer");
_Static_assert(sizeof(crondelith_partner_connections) == 12, "crondelith_partner_connections");
_Static_assert(_Alignof(crondelith_partner_connections) == 4, "crondelith_partner_connections");
_Static_assert(offsetof(crondelith_partner_connections, connections) == 4, "crondelith_partner_connections");
_Static_assert(offsetof(crondelith_partner_connections, lowest) == 8, "crondelith_partner_connections");
_Static_assert(sizeof(crondelith_rebuilt) == 16 && _Alignof(crondelith_rebuilt) == 8, "crondelith_rebuilt");
_Static_assert(offsetof(crondelith_rebuilt, map) == 8, "crondelith_rebuilt");
_Static_assert(sizeof(crondelith_replayed) == 16 && _Alignof(crondelith_replayed) == 8, "crondelith_replayed");
_Static_assert(offsetof(crondelith_replayed, contradicted) == 4, "crondelith_replayed");
_Static_assert(offsetof(crondelith_replayed, place) == 8, "crondelith_replayed");

static uint8_t connections[CRONDELITH_CONNECTIONS], leases[CRONDELITH_LEASES], allowances[CRONDELITH_ALLOWANCES];
static uint8_t reply[CRONDELITH_BUFFER], relay[65534];
static uint8_t longest[65534];

/* To a session its id (s), the caller's peer id (i) and key (k), the holder's peer id (p) and key (q); to a lease the first 24 bytes
 * are the cookie, and the next four the first candidate, 0x04000001, which is id 1. */
#define S "ssssssssssssssss"
#define I "iiiiiiii\4\0\0\1iiii"
#define K "kkkkkkkkkkkkkkkk"
#define P "pppppppppppppppp"
#define Q "qqqqqqqqqqqqqqqq"
static const uint8_t random_bytes[] = S I K P Q; /* and a 0 behind them */
#define COOKIE S "iiiiiiii"

/* Another cookie, and id 2 fourteen times. */
#define OTHER_COOKIE "another drawn cookie...."
#define ID_2 "\0\0\0\2"
#define IDS_2 ID_2 ID_2 ID_2 ID_2 ID_2 ID_2 ID_2 ID_2 ID_2 ID_2 ID_2 ID_2 ID_2 ID_2
static const uint8_t other_random_bytes[] = OTHER_COOKIE IDS_2;

#define ROW 40 /* the length of a lease's record */
static uint8_t expected_leases[CRONDELITH_LEASES];

/* The map that each call is handed, and the one that it has to give back. */
static uint64_t map, expected_map;

/* The journal since the last fresh start. */
#define RECORD 16
static uint8_t journal[RECORD * 200];
static size_t journal_length;

#define TABLES connections, sizeof connections, leases, sizeof leases, allowances, sizeof allowances, map

/* Calls answered with 1 to 3 have no record; those of all others go into the journal. */
static void note(const uint8_t *record, uint32_t number) {
    static const uint8_t none[RECORD];
    if (number >= 1 && number <= 3) {
        CHECK(memcmp(record, none, RECORD) == 0);
    } else if (journal_length < sizeof journal) {
        memcpy(journal + journal_length, record, RECORD);
        journal_length += RECORD;
    }
}

/* The last record that was noted. */
static void check_noted(const char *bytes) {
    CHECK(journal_length >= RECORD && memcmp(journal + journal_length - RECORD, bytes, RECORD) == 0);
}

static void check_answer(crondelith_answer answer, uint32_t number, uint32_t in_reply, uint32_t in_relay, uint32_t destination,
                         uint32_t disconnect) {
    CHECK(answer.number == number);
    CHECK(answer.reply == in_reply && answer.relay == in_relay);
    CHECK(answer.destination == destination && answer.disconnect == disconnect);
    CHECK(answer.map == expected_map);
    map = answer.map;
    note(answer.record, answer.number);
}

/* The map is this one, and agrees with the connection table. */
static void check_map(uint64_t by_hand) {
    crondelith_rebuilt rebuilt = crondelith_rebuild(connections, sizeof connections);
    CHECK(map == by_hand);
    CHECK(rebuilt.number == 0 && rebuilt.map == by_hand);
}

static crondelith_answer send_with(const uint8_t *random, uint64_t now, uint64_t connection, const void *message, size_t length) {
    return crondelith_message(TABLES, now, connection, message, length, random, CRONDELITH_RANDOM, reply, sizeof reply, relay,
                              sizeof relay);
}

static crondelith_answer send(uint64_t now, uint64_t connection, const void *message, size_t length) {
    return send_with(random_bytes, now, connection, message, length);
}

static void check_open(uint64_t now, uint64_t connection) {
    expected_map |= UINT64_C(1) << connection;
    check_answer(crondelith_open(TABLES, now, connection, reply, sizeof reply), 0, 13, 0, CRONDELITH_NOBODY, 0);
    CHECK(memcmp(reply, "\0SVSC 001.000", 13) == 0);
}

static void check_refused(crondelith_answer answer, uint32_t number) {
    check_answer(answer, number, 0, 0, CRONDELITH_NOBODY, 0);
}

/* Connection 8 asks for id 1, which connection 9 has. */
static void check_establish(uint64_t now) {
    check_answer(send(now, 8, "\6\0\0\0\1", 5), 0, 54, 49, 9, 0);
    CHECK(memcmp(reply, "\7\0\0\0\1\0" S I K, 54) == 0);
    CHECK(memcmp(relay, "\10" S P Q, 49) == 0);
}

/* The last of the allowances' records has the term where the others have a level. */
#define TERM (sizeof allowances - 16)

static uint64_t number_at(const uint8_t *bytes) {
    uint64_t number = 0;
    for (int place = 0; place < 8; place++) number = number << 8 | bytes[place];
    return number;
}

#define NO_RECORD "\0\0\0\0\0\0\0\0" "\0\0\0\0" "\0\0\0\0"

/* A table too short, and then a time too late, comes before the term. Nothing is written, and the map comes back, which is any. */
static void check_fresh_refusals(void) {
    static const uint64_t terms[] = {1, 599, 86401, UINT64_C(1) << 32, (UINT64_C(1) << 32) + 600, UINT64_MAX};
    static const uint64_t too_late = UINT64_C(1) << 40;
    map = expected_map = UINT64_C(0x80000000000000A5);
    for (size_t place = 0; place < sizeof terms / sizeof terms[0]; place++) {
        check_refused(crondelith_fresh(connections, sizeof connections - 1, leases, sizeof leases, allowances, sizeof allowances,
                                       map, too_late, terms[place]),
                      1);
        check_refused(crondelith_fresh(TABLES, too_late, terms[place]), 2);
        check_refused(crondelith_fresh(TABLES, too_late - 1, terms[place]), 6);
        check_noted(NO_RECORD);
    }
    check_refused(crondelith_fresh(TABLES, too_late, 600), 2);
    CHECK(connections[1] == 0 && leases[12] == 0 && number_at(allowances) == 0 && number_at(allowances + TERM) == 0);
}

static void check_fresh(uint64_t term, uint64_t stored) {
    expected_map = 0;
    check_answer(crondelith_fresh(TABLES, 100, term), 0, 0, 0, CRONDELITH_NOBODY, 0);
    CHECK(connections[0] == 0 && connections[1] == 255 && leases[12] == 255);
    CHECK(memcmp(allowances, "\0\0\0\0\0\4\0\0\0\0\0\0\0\0\0\144", 16) == 0);
    CHECK(number_at(allowances + TERM) == stored && number_at(allowances + TERM + 8) == 100);
    check_map(0);
    check_noted(NO_RECORD);
    journal_length = 0;
}

static void check_comes(uint64_t now, uint64_t connection) {
    check_open(now, connection);
    check_answer(send(now, connection, "\1\1", 2), 0, 0, 0, CRONDELITH_NOBODY, 0);
}

/* Connection 8 asks for a session under its own id: status 5 while the lease is live, then 1. */
static void check_own_id(uint64_t now, uint8_t status) {
    check_answer(send(now, 8, "\6\0\0\0\1", 5), 0, 6, 0, CRONDELITH_NOBODY, 0);
    CHECK(reply[5] == status);
}

/* Connection 8 leases id 1 at 102, in row 16, the partner's first, and extends the lease at 110. */
static void check_lasts(uint64_t leased_until, uint64_t extended_until) {
    const uint8_t *expiry = leases + ROW * 16;
    check_comes(102, 8);
    check_answer(send(102, 8, "\2\0", 2), 0, 38, 0, CRONDELITH_NOBODY, 0);
    CHECK(number_at(reply + 30) == leased_until && number_at(expiry) == leased_until);
    check_answer(send(110, 8, "\4" COOKIE, 25), 0, 10, 0, CRONDELITH_NOBODY, 0);
    CHECK(number_at(reply + 2) == extended_until && number_at(expiry) == extended_until);
    check_own_id(extended_until - 1, 5);
    check_own_id(extended_until, 1);
    check_map(0x100);
}

/* The tables have this number for the term, whoever stored it, and keep it. */
static void check_found(uint16_t number, uint64_t leased_until, uint64_t extended_until) {
    check_fresh(0, 600);
    allowances[TERM + 6] = (uint8_t)(number >> 8);
    allowances[TERM + 7] = (uint8_t)number;
    check_lasts(leased_until, extended_until);
    CHECK(number_at(allowances + TERM) == number);
}

static void check_terms(void) {
    check_fresh(0, 600);
    check_lasts(702, 710);
    check_fresh(600, 600);
    check_lasts(702, 710);
    check_fresh(86400, 86400);
    check_lasts(86502, 86510);
    check_found(0, 3702, 3710);
    check_found(599, 702, 710);
    check_found(601, 703, 711);
}

/* Connections 8 and 9, both of partner 1. */
static void check_opens(void) {
    check_refused(crondelith_open(TABLES, 100, UINT64_MAX, reply, sizeof reply), 3);
    check_refused(send(100, 8, "\15", 1), 4);
    check_refused(crondelith_open(TABLES, 100, 8, reply, sizeof reply - 1), 5);
    check_noted("\0\0\0\0\0\0\0\144" "\10\0\0\5" "\0\0\0\0");
    check_open(100, 8);
    check_noted("\0\0\0\0\0\0\0\144" "\10\0\0\0" "\0\0\0\55");
    check_map(0x100);
    check_open(100, 9);
    check_map(0x300);
    check_refused(send(100, 8, NULL, 0), 6);
    check_noted("\0\0\0\0\0\0\0\144" "\10\1\0\6" "\0\0\0\0");
    check_refused(send(100, 8, "\2\0", 2), 7);
    check_noted("\0\0\0\0\0\0\0\144" "\10\1\2\7" "\0\0\0\0");
    check_answer(send(101, 8, "\1\1", 2), 0, 0, 0, CRONDELITH_NOBODY, 0);
    check_answer(send(101, 9, "\1\1", 2), 0, 0, 0, CRONDELITH_NOBODY, 0);
    check_map(0x300);
}

/* Nobody has id 5 (status 1). Connection 9 leases id 1 until 3702, 8 establishes a session with it, and data goes both ways. */
static void check_session(void) {
    check_refused(send(101, 8, "\13hi", 3), 8);
    check_answer(send(101, 8, "\6\0\0\0\5", 5), 0, 6, 0, CRONDELITH_NOBODY, 0);
    CHECK(memcmp(reply, "\7\0\0\0\5\1", 6) == 0);
    check_answer(send(102, 9, "\2\0", 2), 0, 38, 0, CRONDELITH_NOBODY, 0);
    CHECK(memcmp(reply, "\3\1\0\0\0\1" COOKIE "\0\0\0\0\0\0\16\166", 38) == 0);
    check_establish(103);
    check_answer(send(104, 8, "\13hi", 3), 0, 0, 3, 9, 0);
    CHECK(memcmp(relay, "\14hi", 3) == 0);
    check_answer(send(104, 9, "\13ho", 3), 0, 0, 3, 8, 0);
    CHECK(memcmp(relay, "\14ho", 3) == 0);
}

/* The record of partner 1: level and moment. */
static void check_level(const char *bytes) {
    CHECK(memcmp(allowances + 16, bytes, 16) == 0);
}

/* The level is full at 110, and the longest send costs 131,100, what is received and what is sent on: one leaves 131,044. A send of
 * 65,506 bytes costs just that, so that at 112 the longest is refused, and at 113 leaves 65,508. Partner 2 has its own allowance. */
static void check_allowance(void) {
    memset(longest, 11, sizeof longest);
    check_answer(send(110, 8, longest, sizeof longest), 0, 0, 65534, 9, 0);
    CHECK(relay[0] == 12 && memcmp(relay + 1, longest + 1, sizeof longest - 1) == 0);
    check_level("\0\0\0\0\0\1\377\344" "\0\0\0\0\0\0\0\156");
    check_noted("\0\0\0\0\0\0\0\156" "\10\1\13\0" "\0\2\0\34");
    check_refused(send(110, 9, longest, sizeof longest), 9);
    check_noted("\0\0\0\0\0\0\0\156" "\11\1\13\11" "\0\2\0\34");
    check_refused(send(110, 9, longest, 65507), 9);
    check_answer(send(110, 9, longest, 65506), 0, 0, 65506, 8, 0);
    check_level("\0\0\0\0\0\0\0\0" "\0\0\0\0\0\0\0\156");
    check_refused(send(110, 8, "\15", 1), 9);
    check_open(110, 16);
    check_map(0x10300);
    expected_map = 0x300;
    check_answer(send(110, 16, "\1\0", 2), 0, 0, 0, CRONDELITH_NOBODY, 1);
    check_refused(send(112, 9, longest, sizeof longest), 9);
    check_answer(send(113, 9, longest, sizeof longest), 0, 0, 65534, 8, 0);
    check_level("\0\0\0\0\0\0\377\344" "\0\0\0\0\0\0\0\161");
    check_map(0x300);
}

/* Connection 8 ends the session, both meet again, which costs 140, and 9 closes in session, then 8. */
static void check_leave(void) {
    check_answer(send(113, 8, "\11", 1), 0, 0, 1, 9, 0);
    check_noted("\0\0\0\0\0\0\0\161" "\10\1\11\0" "\0\0\0\0");
    CHECK(relay[0] == 10);
    check_level("\0\0\0\0\0\0\377\344" "\0\0\0\0\0\0\0\161");
    check_establish(113);
    check_level("\0\0\0\0\0\0\377\130" "\0\0\0\0\0\0\0\161");
    check_map(0x300);
    relay[0] = 0;
    expected_map = 0x100;
    check_answer(crondelith_close(TABLES, 114, 9, relay, CRONDELITH_BUFFER), 0, 0, 1, 8, 0);
    check_noted("\0\0\0\0\0\0\0\162" "\11\2\0\0" "\0\0\0\0");
    CHECK(relay[0] == 10);
    check_map(0x100);
    expected_map = 0;
    check_answer(crondelith_close(TABLES, 114, 8, relay, CRONDELITH_BUFFER), 0, 0, 0, CRONDELITH_NOBODY, 0);
    check_refused(crondelith_close(TABLES, 114, 8, relay, CRONDELITH_BUFFER), 4);
    check_map(0);
    check_level("\0\0\0\0\0\0\377\130" "\0\0\0\0\0\0\0\161");
}

/* The lease table must be what is expected once the row has these bytes. */
static void check_row(int row, const char *bytes) {
    memcpy(expected_leases + ROW * row, bytes, ROW);
    CHECK(memcmp(leases, expected_leases, sizeof leases) == 0);
}

static void check_granted(crondelith_answer answer, const char *contents) {
    check_answer(answer, 0, 38, 0, CRONDELITH_NOBODY, 0);
    CHECK(reply[0] == 3 && reply[1] == 1 && memcmp(reply + 2, contents, 36) == 0);
}

/* Connection 9 left a live lease, id 1 until 3702, in row 16, the partner's first. At 120 connection 10 comes with its cookie: first
 * the drawn cookie is this one too, which is live; then it has the id until 3720. It is cut off, and at 9000 connection 11 has the id
 * until 12600, with the same drawn cookie, which is live no more. While 11 is open, 12 gets another row. */
static void check_cookie(void) {
    static const char request[] = "\2\1" COOKIE;
    for (size_t row = 0; row < sizeof leases; row += ROW) expected_leases[row + 12] = CRONDELITH_NOBODY;
    check_row(16, "\0\0\0\0\0\0\16\166\0\0\0\1\377\0\0\0" COOKIE);
    check_comes(120, 10);
    check_answer(send(120, 10, request, 26), 0, 2, 0, CRONDELITH_NOBODY, 0);
    CHECK(memcmp(reply, "\3\0", 2) == 0);
    check_row(16, "\0\0\0\0\0\0\16\166\0\0\0\1\377\0\0\0" COOKIE);
    check_granted(send_with(other_random_bytes, 120, 10, request, 26), "\0\0\0\1" COOKIE "\0\0\0\0\0\0\16\210");
    check_row(16, "\0\0\0\0\0\0\16\210\0\0\0\1\12\0\0\0" COOKIE);
    check_map(0x400);
    expected_map = 0;
    check_answer(crondelith_close(TABLES, 121, 10, relay, CRONDELITH_BUFFER), 0, 0, 0, CRONDELITH_NOBODY, 0);
    check_comes(9000, 11);
    check_row(16, "\0\0\0\0\0\0\16\210\0\0\0\1\377\0\0\0" COOKIE);
    check_granted(send(9000, 11, request, 26), "\0\0\0\1" COOKIE "\0\0\0\0\0\0\61\70");
    check_row(16, "\0\0\0\0\0\0\61\70\0\0\0\1\13\0\0\0" COOKIE);
    check_comes(9000, 12);
    check_granted(send_with(other_random_bytes, 9000, 12, request, 26), ID_2 OTHER_COOKIE "\0\0\0\0\0\0\61\70");
    check_row(17, "\0\0\0\0\0\0\61\70" ID_2 "\14\0\0\0" OTHER_COOKIE);
    check_map(0x1800);
}

#define CONNECTION 64 /* the length of a connection's record */

static crondelith_answer find_out(uint64_t now, uint64_t connection) {
    memset(reply, 200, sizeof reply);
    return crondelith_keepalive(TABLES, now, connection, reply, sizeof reply, relay, CRONDELITH_BUFFER);
}

/* The first 16 bytes of a connection's record; those of its session follow. */
static void check_record(int connection, const char *bytes) {
    CHECK(memcmp(connections + CONNECTION * connection, bytes, 16) == 0);
}

/* The clock is the last of the allowances. */
static void check_clock(const char *bytes) {
    CHECK(memcmp(allowances + sizeof allowances - 8, bytes, 8) == 0);
}

/* Nothing is sent and nothing written. */
static void check_quiet(uint64_t now, uint64_t connection) {
    static uint8_t before[CRONDELITH_CONNECTIONS];
    memcpy(before, connections, sizeof before);
    check_answer(find_out(now, connection), 0, 0, 0, CRONDELITH_NOBODY, 0);
    CHECK(reply[0] == 200 && memcmp(connections, before, sizeof before) == 0);
}

static void check_asked(uint64_t now, uint64_t connection) {
    check_answer(find_out(now, connection), 0, 1, 0, CRONDELITH_NOBODY, 0);
    CHECK(reply[0] == 13 && reply[1] == 200);
}

static void check_keepalive_refusals(void) {
    static uint8_t before[CRONDELITH_CONNECTIONS];
    memcpy(before, connections, sizeof before);
    check_refused(crondelith_keepalive(connections, sizeof connections, leases, sizeof leases - 1, allowances, sizeof allowances,
                                       map, 9030, 11, reply, sizeof reply, relay, CRONDELITH_BUFFER),
                  1);
    check_refused(find_out(8999, 11), 2);
    check_refused(find_out(UINT64_C(1) << 40, 11), 2);
    check_refused(find_out(9030, UINT64_MAX), 3);
    check_refused(find_out(9030, 13), 4);
    check_refused(crondelith_keepalive(TABLES, 9030, 11, reply, 63, relay, 64), 5);
    check_refused(crondelith_keepalive(TABLES, 9030, 11, reply, 64, relay, 63), 5);
    CHECK(memcmp(connections, before, sizeof before) == 0);
    check_clock("\0\0\0\0\0\0\43\50");
    check_map(0x1800);
}

/* Connection 11, which holds id 1, was last sent something at 9000, the reply to its lease. It is asked at 9030 and doesn't answer,
 * though 12 establishes a session with it at 9031 and sends it data at 9085. At 9090 it is closed, and 12 is told. */
static void check_dead(void) {
    check_record(11, "\2\377\0\0" "\0\0\0\43\50" "\0\0\0\0\0" "\0\0");
    check_quiet(9029, 11);
    check_clock("\0\0\0\0\0\0\43\105");
    check_asked(9030, 11);
    check_noted("\0\0\0\0\0\0\43\106" "\13\3\0\0" "\0\0\0\0");
    check_clock("\0\0\0\0\0\0\43\106");
    check_record(11, "\2\377\1\0" "\0\0\0\43\106" "\0\0\0\43\106" "\0\0");
    check_answer(send(9031, 12, "\6\0\0\0\1", 5), 0, 54, 49, 11, 0);
    check_record(11, "\2\14\1\0" "\0\0\0\43\107" "\0\0\0\43\106" "\0\0");
    check_record(12, "\2\13\0\0" "\0\0\0\43\107" "\0\0\0\0\0" "\0\0");
    check_answer(send(9085, 12, "\13hi", 3), 0, 0, 3, 11, 0);
    check_record(11, "\2\14\1\0" "\0\0\0\43\175" "\0\0\0\43\106" "\0\0");
    check_record(12, "\2\13\0\0" "\0\0\0\43\107" "\0\0\0\0\0" "\0\0");
    check_quiet(9089, 11);
    check_map(0x1800);
    relay[0] = 0;
    expected_map = 0x1000;
    check_answer(find_out(9090, 11), 0, 0, 1, 12, 1);
    CHECK(reply[0] == 200 && relay[0] == 10);
    check_record(11, "\0\377\0\0" "\0\0\0\0\0" "\0\0\0\0\0" "\0\0");
    check_record(12, "\2\377\0\0" "\0\0\0\43\202" "\0\0\0\0\0" "\0\0");
    CHECK(connections[CONNECTION * 12 + 16] == 0 && connections[CONNECTION * 12 + 63] == 0);
    check_row(16, "\0\0\0\0\0\0\61\70\0\0\0\1\377\0\0\0" COOKIE);
    check_refused(find_out(9090, 11), 4);
    check_map(0x1000);
}

/* Connection 12 is asked at 9120 and answers at 9121; it is asked again at 9150. */
static void check_alive(void) {
    check_asked(9120, 12);
    check_answer(send(9121, 12, "\15", 1), 0, 0, 0, CRONDELITH_NOBODY, 0);
    check_record(12, "\2\377\0\0" "\0\0\0\43\240" "\0\0\0\43\240" "\0\0");
    check_quiet(9149, 12);
    check_asked(9150, 12);
    check_record(12, "\2\377\1\0" "\0\0\0\43\276" "\0\0\0\43\276" "\0\0");
    /* The message at 9121 was the last to be charged: 33 of 262,144. */
    check_level("\0\0\0\0\0\3\377\337" "\0\0\0\0\0\0\43\241");
}

/* An awaiting connection is found like an open one: it is sent nothing after its version message at 9150. */
static void check_awaiting(void) {
    check_open(9150, 13);
    check_asked(9180, 13);
    check_record(13, "\1\377\1\0" "\0\0\0\43\334" "\0\0\0\43\334" "\0\0");
    check_map(0x3000);
    expected_map = 0x1000;
    check_answer(find_out(9240, 13), 0, 0, 0, CRONDELITH_NOBODY, 1);
    check_record(13, "\0\377\0\0" "\0\0\0\0\0" "\0\0\0\0\0" "\0\0");
    check_map(0x1000);
}

/* Both replays of these bytes must say this; the plain one's allowances are the second. */
static uint8_t replayed[CRONDELITH_ALLOWANCES], replayed_plain[CRONDELITH_ALLOWANCES];

static void check_replays(const void *bytes, size_t length, uint64_t start, uint64_t term, uint32_t contradicted, uint64_t place) {
    crondelith_replayed said = crondelith_replay(replayed, sizeof replayed, bytes, length, start, term);
    CHECK(said.number == 0 && said.contradicted == contradicted && said.place == place);
    said = crondelith_replay_plain(replayed_plain, sizeof replayed_plain, bytes, length, start, term);
    CHECK(said.number == 0 && said.contradicted == contradicted && said.place == place);
}

/* The journal of all this, from its start at 100 on, gives the allowances as they are. Partner 1 was last charged at 9150, for an open;
 * the clock is at 9240, when it has all again. */
static void check_journal(void) {
    check_replays(journal, journal_length, 100, 3600, 0, 0);
    CHECK(memcmp(replayed, allowances, sizeof allowances) == 0);
    CHECK(memcmp(replayed + 16, "\0\0\0\0\0\3\377\323" "\0\0\0\0\0\0\43\276", 16) == 0);
    CHECK(memcmp(replayed_plain + 16, "\0\0\0\0\0\4\0\0" "\0\0\0\0\0\0\44\30", 16) == 0);
    CHECK(memcmp(replayed_plain + TERM, allowances + TERM, 16) == 0);
    check_replays(journal, journal_length - 1, 100, 3600, 1, journal_length - RECORD);
    check_replays(journal, journal_length, 101, 3600, 1, 0);
    CHECK(memcmp(replayed, allowances, sizeof allowances) == 0);
}

/* At 10 connection 0's partner spends all, 262,144; at 13 it has 196,608 again, and at 11 65,536. */
#define SPENT_AT_10 "\0\0\0\0\0\0\0\12" "\0\1\13\0" "\0\4\0\0"
#define AT_11 "\0\0\0\0\0\0\0\13" "\0\1\13"
#define AT_13 "\0\0\0\0\0\0\0\15" "\0\1\13"

static void check_examples(void) {
    static const char opened[] = "\0\0\0\0\0\0\0\144" "\5\0\0\0" "\0\0\0\55"; /* and a 0 behind it */
    check_fresh(0, 600);
    check_replays(NULL, 0, 100, 0, 0, 0);
    CHECK(memcmp(replayed, allowances, sizeof allowances) == 0 && memcmp(replayed_plain, allowances, sizeof allowances) == 0);
    check_replays(NO_RECORD, 16, 100, 0, 1, 0);
    check_replays(NO_RECORD, 16, 0, 0, 0, 0);
    check_open(100, 5);
    check_noted(opened);
    check_replays(opened, 16, 100, 0, 0, 0);
    CHECK(memcmp(replayed, allowances, sizeof allowances) == 0);
    check_replays(opened, 17, 100, 0, 1, 16);
    check_replays(NO_RECORD "\0\0\0", 19, 100, 0, 1, 0);
    check_replays(SPENT_AT_10 AT_13 "\0\0\3\0\0", 32, 10, 0, 0, 0);
    check_replays(SPENT_AT_10 AT_13 "\0\0\3\0\1", 32, 10, 0, 1, 16);
    check_replays(SPENT_AT_10 AT_13 "\11\0\3\0\1", 32, 10, 0, 0, 0);
    check_replays(SPENT_AT_10 AT_13 "\11\0\3\0\0", 32, 10, 0, 1, 16);
    check_replays(SPENT_AT_10 AT_13 "\4\0\0\0\0" AT_11 "\0\0\1\0\0", 48, 10, 0, 0, 0);
    check_replays(SPENT_AT_10 AT_13 "\4\0\0\0\0" AT_11 "\0\0\1\0\1", 48, 10, 0, 1, 32);
    check_replays("\0\0\0\0\0\0\0\144" "\0\2\0\11" "\0\0\0\0", 16, 100, 0, 1, 0);
}

/* In the order 1, 2, 6, before the journal is looked at, and nothing is written. */
static void check_replay_refused(size_t length, uint64_t start, uint64_t term, uint32_t number) {
    static uint8_t table[CRONDELITH_ALLOWANCES + 1];
    memset(table, 200, sizeof table);
    crondelith_replayed said = crondelith_replay(table, length, (const uint8_t *)NO_RECORD, 3, start, term);
    CHECK(said.number == number && said.contradicted == 0 && said.place == 0);
    said = crondelith_replay_plain(table, length, (const uint8_t *)NO_RECORD, 3, start, term);
    CHECK(said.number == number && said.contradicted == 0 && said.place == 0);
    for (size_t place = 0; place < sizeof table; place++) CHECK(table[place] == 200);
}

static void check_replay_refusals(void) {
    static const uint64_t too_late = UINT64_C(1) << 40;
    check_replay_refused(CRONDELITH_ALLOWANCES - 1, too_late, 599, 1);
    check_replay_refused(CRONDELITH_ALLOWANCES + 1, 100, 0, 1);
    check_replay_refused(CRONDELITH_ALLOWANCES, too_late, 599, 2);
    check_replay_refused(CRONDELITH_ALLOWANCES, too_late - 1, 599, 6);
    check_replay_refused(CRONDELITH_ALLOWANCES, 100, 86401, 6);
}

static void check_partner(uint64_t in_map, uint64_t partner, uint32_t number, uint32_t count, uint32_t lowest) {
    crondelith_partner_connections found = crondelith_connections_of(in_map, partner);
    CHECK(found.number == number && found.connections == count && found.lowest == lowest);
}

static void check_partners(void) {
    static const uint64_t none[] = {8, 9, 255, 256, UINT64_C(1) << 32, (UINT64_C(1) << 32) + 1, UINT64_MAX};
    check_partner(0, 0, 0, 0, 0);
    check_partner(0xFB00, 1, 0, 7, 10);
    check_partner(0xFB00, 2, 0, 0, 16);
    check_partner(0xFF00, 0, 0, 0, 0);
    check_partner(0xFF00, 1, 0, 8, CRONDELITH_NOBODY);
    check_partner(UINT64_MAX >> 1, 7, 0, 7, 63);
    check_partner(UINT64_C(1) << 63, 7, 0, 1, 56);
    for (size_t place = 0; place < sizeof none / sizeof none[0]; place++) {
        check_partner(0, none[place], 3, 0, CRONDELITH_NOBODY);
        check_partner(UINT64_MAX, none[place], 3, 0, CRONDELITH_NOBODY);
    }
}

static void check_rebuilt(const uint8_t *table, size_t length, uint32_t number, uint64_t by_hand) {
    crondelith_rebuilt rebuilt = crondelith_rebuild(table, length);
    CHECK(rebuilt.number == number && rebuilt.map == by_hand);
}

/* States 1, 3, 255, 2 and 2 of connections 0, 5, 6, 9 and 63: 3 and 255 are closed. */
static void check_rebuilding(void) {
    static uint8_t table[CRONDELITH_CONNECTIONS + 1];
    check_rebuilt(table, CRONDELITH_CONNECTIONS, 0, 0);
    table[0] = 1;
    table[CONNECTION * 5] = 3;
    table[CONNECTION * 6] = 255;
    table[CONNECTION * 9] = table[CONNECTION * 63] = 2;
    check_rebuilt(table, CRONDELITH_CONNECTIONS, 0, UINT64_C(0x8000000000000201));
    check_rebuilt(table, CRONDELITH_CONNECTIONS - 1, 1, 0);
    check_rebuilt(table, CRONDELITH_CONNECTIONS + 1, 1, 0);
    check_rebuilt(NULL, 0, 1, 0);
}

/* The last partner's connections get the numbers 56 to 63, each the lowest that is left. 60 leaves, and the next one gets its number. */
static void check_numbers(void) {
    check_fresh(0, 600);
    for (uint32_t place = 0; place < 8; place++) {
        check_partner(map, 7, 0, place, 56 + place);
        check_open(100, 56 + place);
    }
    check_map(UINT64_C(0xFF00000000000000));
    check_partner(map, 7, 0, 8, CRONDELITH_NOBODY);
    check_partner(map, 6, 0, 0, 48);
    expected_map = UINT64_C(0xEF00000000000000);
    check_answer(crondelith_close(TABLES, 100, 60, relay, CRONDELITH_BUFFER), 0, 0, 0, CRONDELITH_NOBODY, 0);
    check_partner(map, 7, 0, 7, 60);
    check_open(101, 60);
    check_map(UINT64_C(0xFF00000000000000));
}

/* Maps that don't agree: just the caller's bit is set or cleared, which may be so already. Connection 9 is awaiting, and 0 closed at
 * first. */
static void check_disagreeing(void) {
    check_fresh(0, 600);
    check_open(100, 9);
    check_map(0x200);
    map = expected_map = UINT64_MAX;
    check_open(100, 0);
    expected_map = UINT64_MAX - 1;
    check_answer(crondelith_close(TABLES, 100, 0, relay, CRONDELITH_BUFFER), 0, 0, 0, CRONDELITH_NOBODY, 0);
    map = expected_map = 0x8000;
    check_answer(send(100, 9, "\1\1", 2), 0, 0, 0, CRONDELITH_NOBODY, 0);
    check_refused(send(100, 9, "\1\1", 2), 7);
    check_refused(crondelith_open(TABLES, 100, 9, reply, sizeof reply), 4);
    check_answer(crondelith_close(TABLES, 100, 9, relay, CRONDELITH_BUFFER), 0, 0, 0, CRONDELITH_NOBODY, 0);
    check_rebuilt(connections, sizeof connections, 0, 0);
}

int main(void) {
    check_fresh_refusals();
    check_terms();
    check_fresh(3600, 3600);
    check_opens();
    check_session();
    check_allowance();
    check_leave();
    check_cookie();
    check_keepalive_refusals();
    check_dead();
    check_alive();
    check_awaiting();
    CHECK(number_at(allowances + TERM) == 3600);
    check_journal();
    check_partners();
    check_rebuilding();
    check_numbers();
    check_disagreeing();
    check_examples();
    check_replay_refusals();
    printf("crondelith_check: %d failed\n", failures);
    return failures != 0;
}
