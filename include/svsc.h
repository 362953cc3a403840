/* The messages of the ScreenView server protocol (SVSC): a reader and a writer for each form.
 *
 * Link libsvsc.a, which host/build-archives builds; of a C library it needs memmove.
 * Each function is total: any bytes and any numbers get an answer.
 * Numbers in messages are most significant byte first. Buffers must not overlap.
 */
#ifndef SVSC_H
#define SVSC_H

#include <stddef.h>
#include <stdint.h>

#ifdef __cplusplus
extern "C" {
#endif

/* The numbers of an answer. */
#define SVSC_DONE 0u
#define SVSC_SHORT 5u     /* the buffer is too short */
#define SVSC_MALFORMED 6u /* not a message, or a field outside its range */

/* A message as numbers. A number that the message hasn't got is 0, and all but `number` are 0 where that is 6.
 * Fields of bytes stand at fixed places; svsc_field hands them out.
 *
 *   type                                  flag        numbers
 *    0 ProtocolVersion                                major, minor (0 to 999)
 *    1 version answer                     ok
 *    2 LeaseRequest                       has-cookie
 *    3 LeaseResponse                      accepted    id, expiration if accepted
 *    4 LeaseExtensionRequest
 *    5 LeaseExtensionResponse             extended    expiration if extended
 *    6 EstablishSessionRequest                        id
 *    7 EstablishSessionResponse           status      id
 *    8 EstablishSessionNotification
 *    9 SessionEnd
 *   10 SessionEndNotification
 *   11 SessionDataSend
 *   12 SessionDataReceive
 *   13 Keepalive
 */
typedef struct {
    uint32_t number; /* SVSC_DONE or SVSC_MALFORMED */
    uint32_t type;
    uint32_t flag;
    uint32_t major;
    uint32_t minor;
    uint32_t id;
    uint64_t expiration;
} svsc_message;

/* What a writer or svsc_field did: `length` bytes written from the buffer's start, its further bytes as they were. On
 * SVSC_MALFORMED and SVSC_SHORT, in this order, the length is 0 and no byte of the buffer has changed. */
typedef struct {
    uint32_t number;
    size_t length;
} svsc_written;

/* Fields of bytes. */
#define SVSC_COOKIE 0u  /* types 2 and 3 in their long form, 4: 24 bytes */
#define SVSC_SESSION 1u /* type 7 in its long form, and 8: 16 bytes */
#define SVSC_PEER 2u    /* the same */
#define SVSC_KEY 3u     /* the same */
#define SVSC_DATA 4u    /* types 11 and 12: 0 to 65,533 bytes */

svsc_message svsc_read(const uint8_t *message, size_t message_length);

/* Copies a field of bytes of a message into the buffer, as a writer writes. SVSC_MALFORMED where the bytes are no message;
 * a field that the message hasn't got has length 0. */
svsc_written svsc_field(const uint8_t *message, size_t message_length, uint32_t field, uint8_t *buffer, size_t buffer_length);

svsc_written svsc_write_version(uint8_t *buffer, size_t buffer_length, uint16_t major, uint16_t minor);
svsc_written svsc_write_version_answer(uint8_t *buffer, size_t buffer_length, uint8_t ok);
svsc_written svsc_write_lease_request(uint8_t *buffer, size_t buffer_length);
svsc_written svsc_write_lease_request_with_cookie(uint8_t *buffer, size_t buffer_length, const uint8_t *cookie, size_t cookie_length);
svsc_written svsc_write_lease_refused(uint8_t *buffer, size_t buffer_length);
svsc_written svsc_write_lease_granted(uint8_t *buffer, size_t buffer_length, uint32_t id, const uint8_t *cookie, size_t cookie_length, uint64_t expiration);
svsc_written svsc_write_extension_request(uint8_t *buffer, size_t buffer_length, const uint8_t *cookie, size_t cookie_length);
svsc_written svsc_write_extension_refused(uint8_t *buffer, size_t buffer_length);
svsc_written svsc_write_extension_granted(uint8_t *buffer, size_t buffer_length, uint64_t expiration);
svsc_written svsc_write_establish_request(uint8_t *buffer, size_t buffer_length, uint32_t id);
svsc_written svsc_write_establish_refused(uint8_t *buffer, size_t buffer_length, uint32_t id, uint8_t status);
svsc_written svsc_write_established(uint8_t *buffer, size_t buffer_length, uint32_t id, const uint8_t *session, size_t session_length, const uint8_t *peer, size_t peer_length, const uint8_t *key, size_t key_length);
svsc_written svsc_write_establish_notification(uint8_t *buffer, size_t buffer_length, const uint8_t *session, size_t session_length, const uint8_t *peer, size_t peer_length, const uint8_t *key, size_t key_length);
svsc_written svsc_write_session_end(uint8_t *buffer, size_t buffer_length);
svsc_written svsc_write_session_end_notification(uint8_t *buffer, size_t buffer_length);
svsc_written svsc_write_data_send(uint8_t *buffer, size_t buffer_length, const uint8_t *bytes, size_t bytes_length);
svsc_written svsc_write_data_receive(uint8_t *buffer, size_t buffer_length, const uint8_t *bytes, size_t bytes_length);
svsc_written svsc_write_keepalive(uint8_t *buffer, size_t buffer_length);

#ifdef __cplusplus
}
#endif

#endif
