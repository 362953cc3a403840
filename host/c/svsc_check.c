/* Calls each function of include/svsc.h once, as a C program would, and checks what comes back. How the functions
 * behave is compared in Rust (host/compare); this shows that the header and the archive fit together. */
#include <string.h>

#include "check.h"
#include "svsc.h"

/* host/engine/src/svsc.rs has the same numbers about its structs. */
_Static_assert(sizeof(svsc_message) == 32 && offsetof(svsc_message, expiration) == 24, "svsc_message");
_Static_assert(offsetof(svsc_message, type) == 4 && offsetof(svsc_message, id) == 20, "svsc_message");
_Static_assert(sizeof(svsc_written) == 16 && offsetof(svsc_written, length) == 8, "svsc_written");

static uint8_t buffer[64];
static const uint8_t cookie[24] = "the cookie's 24 bytes..";
static const uint8_t session[16] = "session-id.....", peer[16] = "peer-id........", key[16] = "peer-key.......";

/* The buffer starts with a message of this type, flag and length. */
static svsc_message check_written(svsc_written written, uint32_t type, uint32_t flag, size_t length) {
    int before = failures;
    svsc_message message = svsc_read(buffer, written.length);
    CHECK(written.number == SVSC_DONE && written.length == length);
    CHECK(message.number == SVSC_DONE && message.type == type && message.flag == flag);
    if (failures != before) fprintf(stderr, "in a message of type %u with %zu bytes\n", (unsigned)type, length);
    return message;
}

/* The message in the buffer has this field of bytes. */
static void check_field(uint32_t field, size_t message_length, const uint8_t *expected, size_t length) {
    uint8_t copy[24];
    svsc_written written = svsc_field(buffer, message_length, field, copy, sizeof copy);
    CHECK(written.number == SVSC_DONE && written.length == length);
    CHECK(memcmp(copy, expected, length) == 0);
}

static void check_handshake(void) {
    svsc_message version = check_written(svsc_write_version(buffer, sizeof buffer, 1, 999), 0, 0, 13);
    CHECK(version.major == 1 && version.minor == 999);
    CHECK(memcmp(buffer, "\0SVSC 001.999", 13) == 0);
    check_written(svsc_write_version_answer(buffer, sizeof buffer, 1), 1, 1, 2);
}

static void check_leases(void) {
    svsc_message message;
    check_written(svsc_write_lease_request(buffer, sizeof buffer), 2, 0, 2);
    check_written(svsc_write_lease_request_with_cookie(buffer, sizeof buffer, cookie, sizeof cookie), 2, 1, 26);
    check_field(SVSC_COOKIE, 26, cookie, sizeof cookie);
    check_written(svsc_write_lease_refused(buffer, sizeof buffer), 3, 0, 2);
    message = check_written(svsc_write_lease_granted(buffer, sizeof buffer, 0xfffffffe, cookie, sizeof cookie, UINT64_MAX),
                            3, 1, 38);
    CHECK(message.id == 0xfffffffe && message.expiration == UINT64_MAX);
    check_written(svsc_write_extension_request(buffer, sizeof buffer, cookie, sizeof cookie), 4, 0, 25);
    check_written(svsc_write_extension_refused(buffer, sizeof buffer), 5, 0, 2);
    message = check_written(svsc_write_extension_granted(buffer, sizeof buffer, 3600), 5, 1, 10);
    CHECK(message.expiration == 3600);
}

static void check_sessions(void) {
    svsc_message message = check_written(svsc_write_establish_request(buffer, sizeof buffer, 5), 6, 0, 5);
    CHECK(message.id == 5);
    message = check_written(svsc_write_establish_refused(buffer, sizeof buffer, 5, 1), 7, 1, 6);
    CHECK(message.id == 5 && memcmp(buffer, "\7\0\0\0\5\1", 6) == 0);
    message = check_written(svsc_write_established(buffer, sizeof buffer, 5, session, sizeof session, peer, sizeof peer, key,
                                                   sizeof key),
                            7, 0, 54);
    CHECK(message.id == 5);
    check_written(svsc_write_establish_notification(buffer, sizeof buffer, session, sizeof session, peer, sizeof peer, key,
                                                    sizeof key),
                  8, 0, 49);
    check_field(SVSC_SESSION, 49, session, sizeof session);
    check_field(SVSC_PEER, 49, peer, sizeof peer);
    check_field(SVSC_KEY, 49, key, sizeof key);
    check_written(svsc_write_session_end(buffer, sizeof buffer), 9, 0, 1);
    check_written(svsc_write_session_end_notification(buffer, sizeof buffer), 10, 0, 1);
}

static void check_data(void) {
    check_written(svsc_write_data_send(buffer, sizeof buffer, cookie, sizeof cookie), 11, 0, 25);
    check_field(SVSC_DATA, 25, cookie, sizeof cookie);
    check_written(svsc_write_data_receive(buffer, sizeof buffer, cookie, 0), 12, 0, 1);
    check_written(svsc_write_keepalive(buffer, sizeof buffer), 13, 0, 1);
}

/* A field outside its range before a buffer too short, which stays as it was. */
static void check_refusals(void) {
    svsc_written written = svsc_write_version_answer(buffer, 0, 2);
    CHECK(written.number == SVSC_MALFORMED && written.length == 0);
    buffer[0] = 200;
    written = svsc_write_version_answer(buffer, 1, 1);
    CHECK(written.number == SVSC_SHORT && written.length == 0 && buffer[0] == 200);
    CHECK(svsc_read(buffer, 0).number == SVSC_MALFORMED && svsc_read(buffer, 1).number == SVSC_MALFORMED);
}

/* A field of bytes that are no message is refused; one that the message hasn't got is empty. */
static void check_no_field(void) {
    uint8_t copy[1] = {200};
    svsc_written written = svsc_field(buffer, 0, SVSC_DATA, copy, sizeof copy);
    CHECK(written.number == SVSC_MALFORMED && written.length == 0 && copy[0] == 200);
    check_written(svsc_write_keepalive(buffer, sizeof buffer), 13, 0, 1);
    written = svsc_field(buffer, 1, SVSC_DATA, copy, sizeof copy);
    CHECK(written.number == SVSC_DONE && written.length == 0 && copy[0] == 200);
}

int main(void) {
    check_handshake();
    check_leases();
    check_sessions();
    check_data();
    check_refusals();
    check_no_field();
    printf("svsc_check: %d failed\n", failures);
    return failures != 0;
}
