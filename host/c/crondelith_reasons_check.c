/* Explanations by the compiled engine, through include/crondelith.h as a C program would ask for them: each check, each condition of a
 * lease, each establish status, and headrooms above, at and below 0. Tables and reasons were worked out from the scope document and
 * the request by hand. Every other case is compared in Rust (host/compare). */
#include <string.h>

#include "check.h"
#include "crondelith.h"

/* host/engine/src/reasons.rs has the same numbers about its struct. */
_Static_assert(sizeof(crondelith_reason) == 24 && _Alignof(crondelith_reason) == 8, "crondelith_reason");
_Static_assert(offsetof(crondelith_reason, check) == 0 && offsetof(crondelith_reason, request) == 4, "crondelith_reason");
_Static_assert(offsetof(crondelith_reason, condition) == 8 && offsetof(crondelith_reason, charged) == 12, "crondelith_reason");
_Static_assert(offsetof(crondelith_reason, headroom) == 16, "crondelith_reason");

static struct {
    uint8_t connections[CRONDELITH_CONNECTIONS], leases[CRONDELITH_LEASES], allowances[CRONDELITH_ALLOWANCES];
} tables, before;

#define TABLES_OF(c, l, a) tables.connections, c, tables.leases, l, tables.allowances, a
#define TABLES TABLES_OF(CRONDELITH_CONNECTIONS, CRONDELITH_LEASES, CRONDELITH_ALLOWANCES)

/* For a lease: the cookie, and fourteen candidates, which are thirteen times id 1 and, as 0x04000002, id 2. */
#define COOKIE "the drawn cookie........"
#define ID_1 "\0\0\0\1"
#define IDS_1 ID_1 ID_1 ID_1 ID_1 ID_1 ID_1 ID_1 ID_1 ID_1 ID_1 ID_1 ID_1 ID_1
static const uint8_t random_bytes[] = COOKIE IDS_1 "\4\0\0\2"; /* and a 0 behind them */

/* Cookies of live rows: one that connection 9 holds, and one that nobody does. */
#define OF_9 "of connection 9........."
#define OF_NOBODY "of nobody..............."

static const uint8_t keepalive[] = {13};
static uint8_t longest[65534];

static void store(uint8_t *place, uint64_t number) {
    for (int byte = 7; byte >= 0; byte--, number >>= 8) place[byte] = (uint8_t)number;
}

static void set_connection(int connection, uint8_t state, uint8_t peer) {
    tables.connections[64 * connection] = state;
    tables.connections[64 * connection + 1] = peer;
}

/* A row that is live at 100 and no longer at 101. */
static void set_lease(int row, uint8_t id, uint8_t holder, const char *cookie) {
    uint8_t *lease = tables.leases + 40 * row;
    store(lease, 101);
    lease[11] = id;
    lease[12] = holder;
    memcpy(lease + 16, cookie, 24);
}

/* The allowance of partner 1. */
static void set_level(uint64_t level, uint64_t moment) {
    store(tables.allowances + 16, level);
    store(tables.allowances + 24, moment);
}

/* A fresh relay at 100. */
static void make_fresh(void) {
    memset(&tables, 0, sizeof tables);
    for (int connection = 0; connection < 64; connection++) set_connection(connection, 0, 255);
    for (int row = 0; row < 128; row++) tables.leases[40 * row + 12] = 255;
    for (int partner = 0; partner < 8; partner++) store(tables.allowances + 16 * partner, 262144);
    store(tables.allowances + 16 * 8, 600);
    for (int record = 0; record < 9; record++) store(tables.allowances + 16 * record + 8, 100);
}

/* Of partner 1, connections 8 and 9 are in a session, 10, 11 and 12 open and in none, 13 awaits the version answer, 14 is closed.
 * Connection 10 has leased id 1 with the cookie, 9 has id 3, and nobody id 4. Partner 2 has id 5. */
static void make_scene(void) {
    make_fresh();
    set_connection(8, 2, 9);
    set_connection(9, 2, 8);
    for (int connection = 10; connection < 13; connection++) set_connection(connection, 2, 255);
    set_connection(13, 1, 255);
    set_connection(16, 2, 255);
    set_lease(16, 1, 10, COOKIE);
    set_lease(17, 3, 9, OF_9);
    set_lease(18, 4, 255, OF_NOBODY);
    set_lease(32, 5, 16, "of partner 2............");
}

static void check_reason(crondelith_reason reason, uint32_t check, uint32_t request, uint32_t condition, uint32_t charged,
                         int64_t headroom) {
    CHECK(reason.check == check);
    CHECK(reason.request == request && reason.condition == condition);
    CHECK(reason.charged == charged && reason.headroom == headroom);
    CHECK(memcmp(&tables, &before, sizeof tables) == 0);
}

/* A check before 9 stops the call, so there is no headroom. */
static void check_stopped(crondelith_reason reason, uint32_t check) {
    check_reason(reason, check, 0, 0, 0, 0);
}

static crondelith_reason explain_keepalive(uint64_t now, size_t random_length, uint64_t reply_length, uint64_t relay_length) {
    return crondelith_explain_message(TABLES, now, 12, keepalive, 1, random_bytes, random_length, reply_length, relay_length);
}

static crondelith_reason explain(uint64_t connection, const void *message, size_t length) {
    before = tables;
    return crondelith_explain_message(TABLES, 100, connection, message, length, random_bytes, CRONDELITH_RANDOM, CRONDELITH_BUFFER,
                                      sizeof longest);
}

static crondelith_reason explain_open(uint64_t now) {
    before = tables;
    return crondelith_explain_open(TABLES, now, 14, CRONDELITH_BUFFER);
}

/* An open costs 45: 32, and the version message of 13 bytes. */
static void check_opens(void) {
    make_scene();
    check_reason(explain_open(100), 0, 0, 0, 1, 262099);
    check_reason(crondelith_explain_open(TABLES, 100, 14, UINT64_MAX), 0, 0, 0, 1, 262099);
    check_stopped(crondelith_explain_open(TABLES_OF(4096, 5119, 144), 100, 14, 64), 1);
    check_stopped(explain_open(UINT64_C(1) << 40), 2);
    check_stopped(explain_open(99), 2);
    check_stopped(crondelith_explain_open(TABLES, 100, UINT64_MAX, 64), 3);
    check_stopped(crondelith_explain_open(TABLES, 100, 13, 64), 4);
    check_stopped(crondelith_explain_open(TABLES, 100, 14, 63), 5);
    set_level(45, 100);
    check_reason(explain_open(100), 0, 0, 0, 1, 0);
    set_level(44, 100);
    check_reason(explain_open(100), 9, 0, 0, 1, -1);
    set_level(20, 100);
    check_reason(explain_open(100), 9, 0, 0, 1, -25);
    check_reason(explain_open(101), 0, 0, 0, 1, 65511);
}

/* A close is free. */
static void check_closes(void) {
    make_scene();
    set_level(0, 100);
    before = tables;
    check_stopped(crondelith_explain_close(TABLES_OF(4096, 5120, 145), 100, 8, 64), 1);
    check_stopped(crondelith_explain_close(TABLES, UINT64_MAX, 8, 64), 2);
    check_stopped(crondelith_explain_close(TABLES, 100, 64, 64), 3);
    check_stopped(crondelith_explain_close(TABLES, 100, 14, 64), 4);
    check_stopped(crondelith_explain_close(TABLES, 100, 8, 63), 5);
    check_reason(crondelith_explain_close(TABLES, 100, 8, 64), 0, 0, 0, 0, 0);
    check_reason(crondelith_explain_close(TABLES, 100, 13, UINT64_MAX), 0, 0, 0, 0, 0);
}

/* A keepalive is free, whatever is due: at 100 connection 8 is asked, 12 is dead, and to 9 nothing is sent. */
static void check_keepalives(void) {
    make_scene();
    set_level(0, 100);
    tables.connections[64 * 12 + 2] = 1;
    tables.connections[64 * 9 + 8] = 71;
    before = tables;
    check_stopped(crondelith_explain_keepalive(TABLES_OF(4095, 5120, 144), 100, 8, 64, 64), 1);
    check_stopped(crondelith_explain_keepalive(TABLES, UINT64_C(1) << 40, 8, 64, 64), 2);
    check_stopped(crondelith_explain_keepalive(TABLES, 99, 8, 64, 64), 2);
    check_stopped(crondelith_explain_keepalive(TABLES, 100, UINT64_MAX, 64, 64), 3);
    check_stopped(crondelith_explain_keepalive(TABLES, 100, 14, 64, 64), 4);
    check_stopped(crondelith_explain_keepalive(TABLES, 100, 8, 63, UINT64_MAX), 5);
    check_stopped(crondelith_explain_keepalive(TABLES, 100, 8, UINT64_MAX, 63), 5);
    check_reason(crondelith_explain_keepalive(TABLES, 100, 8, 64, 64), 0, 0, 0, 0, 0);
    check_reason(crondelith_explain_keepalive(TABLES, 100, 9, 64, 64), 0, 0, 0, 0, 0);
    check_reason(crondelith_explain_keepalive(TABLES, 100, 12, 64, 64), 0, 0, 0, 0, 0);
    check_reason(crondelith_explain_keepalive(TABLES, 100, 13, UINT64_MAX, UINT64_MAX), 0, 0, 0, 0, 0);
}

/* A message costs 32, its length and what is sent, data its length twice, but SessionEnd (type 9) nothing. */
static void check_messages(void) {
    make_scene();
    before = tables;
    check_stopped(crondelith_explain_message(TABLES_OF(0, 5120, 144), 100, 12, keepalive, 1, random_bytes, 80, 64, 64), 1);
    check_stopped(explain_keepalive(99, 80, 64, 64), 2);
    check_stopped(explain(64, "\15", 1), 3);
    check_stopped(explain(14, "\15", 1), 4);
    check_stopped(explain_keepalive(100, 79, 64, 64), 5);
    check_stopped(explain_keepalive(100, 80, 63, UINT64_MAX), 5);
    check_stopped(explain_keepalive(100, 80, UINT64_MAX, 63), 5);
    check_stopped(explain(12, NULL, 0), 6);
    check_stopped(explain(12, "\3\0", 2), 6);
    check_stopped(explain(13, "\2\0", 2), 7);
    check_stopped(explain(12, "\13hi", 3), 8);
    check_stopped(explain(12, "\11", 1), 8);
    check_reason(explain(8, "\11", 1), 0, 0, 0, 0, 0);
    check_reason(explain(13, "\1\0", 2), 0, 0, 0, 1, 262110);
    check_reason(explain_keepalive(100, 80, UINT64_MAX, UINT64_MAX), 0, 0, 0, 1, 262111);
    memset(longest, 11, sizeof longest);
    set_level(27, 98);
    check_reason(explain(8, longest, sizeof longest), 9, 0, 0, 1, -1);
    set_level(28, 98);
    check_reason(explain(8, longest, sizeof longest), 0, 0, 0, 1, 0);
    set_level(33, 100);
    check_reason(explain(8, "\13", 1), 9, 0, 0, 1, -1);
    check_reason(explain(8, "\15", 1), 0, 0, 0, 1, 0);
    check_reason(explain(13, "\1\1", 2), 9, 0, 0, 1, -1);
}

/* An extension costs 59, done 67. */
static void check_extensions(void) {
    make_scene();
    check_reason(explain(9, "\4" OF_9, 25), 0, 0, 0, 1, 262077);
    check_reason(explain(10, "\4" OF_9, 25), 0, 0, 0, 1, 262085);
    set_level(66, 100);
    check_reason(explain(9, "\4" OF_9, 25), 9, 0, 0, 1, -1);
    check_reason(explain(10, "\4" OF_9, 25), 0, 0, 0, 1, 7);
}

/* Connection 10 holds a live row; to 11 a row is left, but the drawn cookie is a live row's; with another one, id 2 is free. What the
 * request costs is all that its cookie changes: so much, and 36 more where it is granted, since that reply is longer. With just as much
 * as refusing costs, 11 is refused its lease if id 2 is live under another partner, and else can't pay for it. */
static void check_leases(const char *request, size_t length, int64_t refused) {
    int64_t headroom = 262144 - refused;
    make_scene();
    check_reason(explain(10, request, length), 0, 1, 1, 1, headroom);
    check_reason(explain(11, request, length), 0, 1, 3, 1, headroom);
    set_lease(16, 1, 10, "another cookie..........");
    check_reason(explain(11, request, length), 0, 1, 0, 1, headroom - 36);
    set_level((uint64_t)refused, 100);
    check_reason(explain(11, request, length), 9, 0, 0, 1, -36);
    set_lease(32, 2, 16, "of partner 2............");
    check_reason(explain(11, request, length), 0, 1, 4, 1, 0);
    set_level(262144, 100);
    check_reason(explain(11, request, length), 0, 1, 4, 1, headroom);
    for (int row = 19; row < 32; row++) set_lease(row, 6, 255, COOKIE);
    check_reason(explain(11, request, length), 0, 1, 2, 1, headroom);
    check_reason(explain(10, request, length), 0, 1, 1, 1, headroom);
    set_level(10, 100);
    check_reason(explain(10, request, length), 9, 0, 0, 1, 10 - refused);
}

/* An establish costs 43, done 140. */
static void check_establishes(void) {
    make_scene();
    check_reason(explain(11, "\6\0\0\0\1", 5), 0, 2, 0, 1, 262004);
    check_reason(explain(11, "\6\0\0\0\5", 5), 0, 2, 1, 1, 262101);
    check_reason(explain(11, "\6\0\0\0\4", 5), 0, 2, 2, 1, 262101);
    check_reason(explain(11, "\6\0\0\0\3", 5), 0, 2, 3, 1, 262101);
    check_reason(explain(9, "\6\0\0\0\3", 5), 0, 2, 4, 1, 262101);
    check_reason(explain(10, "\6\0\0\0\1", 5), 0, 2, 5, 1, 262101);
    set_level(139, 100);
    check_reason(explain(11, "\6\0\0\0\1", 5), 9, 0, 0, 1, -1);
    check_reason(explain(10, "\6\0\0\0\1", 5), 0, 2, 5, 1, 96);
    set_level(42, 100);
    check_reason(explain(10, "\6\0\0\0\1", 5), 9, 0, 0, 1, -1);
}

int main(void) {
    check_opens();
    check_closes();
    check_keepalives();
    check_messages();
    check_leases("\2\0", 2, 36);
    /* With the cookie of rows that come and go here, of a held row, and of one that is renewed if the lease is accepted. */
    check_leases("\2\1" COOKIE, 26, 60);
    check_leases("\2\1" OF_9, 26, 60);
    check_leases("\2\1" OF_NOBODY, 26, 60);
    check_extensions();
    check_establishes();
    printf("crondelith_reasons_check: %d failed\n", failures);
    return failures != 0;
}
