/* Calls both functions of include/svsc_frames.h as a C program would, with request 9's examples, and checks what comes
 * back. How the functions behave is compared in Rust (host/compare); this shows that the header and the archive fit
 * together. */
#include <string.h>

#include "check.h"
#include "svsc_frames.h"

/* host/engine/src/frames.rs has the same numbers about its structs. */
_Static_assert(sizeof(svsc_frame_step) == 32 && offsetof(svsc_frame_step, used) == 8, "svsc_frame_step");
_Static_assert(offsetof(svsc_frame_step, complete) == 4 && offsetof(svsc_frame_step, length) == 16, "svsc_frame_step");
_Static_assert(offsetof(svsc_frame_step, taken) == 20 && offsetof(svsc_frame_step, size) == 24, "svsc_frame_step");
_Static_assert(sizeof(svsc_frame_written) == 8 && offsetof(svsc_frame_written, length) == 4, "svsc_frame_written");
_Static_assert(SVSC_FRAME_LIMIT == SVSC_FRAME_MESSAGE + 3, "the header of a frame has 3 bytes");

/* The first byte of the two buffers is 200, which no message here starts with, until something is written. */
static uint8_t message[SVSC_FRAME_MESSAGE], frame[SVSC_FRAME_LIMIT];
static uint8_t longest[SVSC_FRAME_MESSAGE + 1]; /* the longest message, and a byte more */

/* The bytes of a string literal as a chunk and its length. */
#define CHUNK(bytes) (const uint8_t *)(bytes), sizeof(bytes) - 1

static svsc_frame_step check_step(svsc_frame_step step, uint32_t number, uint64_t used, uint32_t taken, uint32_t size) {
    int before = failures;
    CHECK(step.number == number && step.used == used);
    CHECK(step.taken == taken && step.size == size);
    if (failures != before)
        fprintf(stderr, "answered %u, %u used, then (%u, %u)\n", (unsigned)step.number, (unsigned)step.used,
                (unsigned)step.taken, (unsigned)step.size);
    return step;
}

/* No message, and the buffer's first byte as it was. */
static void check_none(svsc_frame_step step, uint32_t number, uint64_t used, uint32_t taken, uint32_t size) {
    check_step(step, number, used, taken, size);
    CHECK(step.complete == 0 && step.length == 0 && message[0] == 200);
}

static void check_message(svsc_frame_step step, uint64_t used, const char *expected) {
    check_step(step, SVSC_FRAME_DONE, used, 0, 0);
    CHECK(step.complete == 1 && step.length == strlen(expected));
    CHECK(memcmp(message, expected, strlen(expected)) == 0);
    message[0] = 200;
}

static void check_streams(void) {
    check_none(svsc_frame_read(0, 0, message, sizeof message, CHUNK("\0\0\1")), SVSC_FRAME_REFUSED, 2, 0, 1);
    check_none(svsc_frame_read(0, 0, message, sizeof message, CHUNK("\0\1\2\x7a")), SVSC_FRAME_REFUSED, 3, 0, 1);
    check_message(svsc_frame_read(0, 0, message, sizeof message, CHUNK("\0\1\1\0\1\1")), 3, "");
    check_message(svsc_frame_read(0, 0, message, sizeof message, CHUNK("\0\3\1hi!")), 5, "hi");
    check_none(svsc_frame_read(0, 0, message, sizeof message, CHUNK("")), SVSC_FRAME_DONE, 0, 0, 0);
}

static void check_states(void) {
    static const uint32_t none[][2] = {{2, 0}, {5, 3}, {7, 3}, {0, 1}};
    check_none(svsc_frame_read(1, 0, message, sizeof message, CHUNK("\0")), SVSC_FRAME_REFUSED, 1, 0, 1);
    check_message(svsc_frame_read(3, 2, message, sizeof message, CHUNK("ab")), 1, "a");
    check_none(svsc_frame_read(4, 3, message, sizeof message, CHUNK("")), SVSC_FRAME_DONE, 0, 4, 3);
    for (size_t i = 0; i < sizeof none / sizeof none[0]; i++) {
        uint32_t taken = none[i][0], size = none[i][1];
        check_none(svsc_frame_read(taken, size, message, sizeof message, CHUNK("ab")), SVSC_FRAME_REFUSED, 0, 0, 1);
        check_none(svsc_frame_read(taken, size, message, sizeof message - 1, CHUNK("ab")), SVSC_FRAME_SHORT, 0, taken, size);
    }
}

/* A stream byte by byte, each step's state handed to the next. */
static void check_bytes(void) {
    static const uint8_t stream[] = {0, 3, 1, 'h', 'i'};
    static const uint32_t states[][2] = {{0, 0}, {1, 0}, {2, 3}, {3, 3}, {4, 3}};
    for (size_t i = 0; i + 1 < sizeof stream; i++)
        check_step(svsc_frame_read(states[i][0], states[i][1], message, sizeof message, stream + i, 1), SVSC_FRAME_DONE, 1,
                   states[i + 1][0], states[i + 1][1]);
    check_message(svsc_frame_read(4, 3, message, sizeof message, stream + 4, 1), 1, "hi");
}

static void check_refused(svsc_frame_written written, uint32_t number) {
    CHECK(written.number == number && written.length == 0);
    CHECK(frame[0] == 200);
}

static void check_writes(void) {
    svsc_frame_written written;
    svsc_frame_step step;
    check_refused(svsc_frame_write(frame, 65536, longest, 65534), SVSC_FRAME_SHORT);
    check_refused(svsc_frame_write(frame, sizeof frame, longest, 65535), SVSC_FRAME_REFUSED);
    check_refused(svsc_frame_write(frame, 0, longest, 65535), SVSC_FRAME_REFUSED);
    written = svsc_frame_write(frame, sizeof frame, longest, 65534);
    CHECK(written.number == SVSC_FRAME_DONE && written.length == SVSC_FRAME_LIMIT);
    CHECK(memcmp(frame, "\xff\xff\1", 3) == 0 && memcmp(frame + 3, longest, 65534) == 0);
    step = check_step(svsc_frame_read(0, 0, message, sizeof message, frame, written.length), SVSC_FRAME_DONE, 65537, 0, 0);
    CHECK(step.complete == 1 && step.length == 65534 && memcmp(message, longest, 65534) == 0);
    written = svsc_frame_write(frame, 3, longest, 0);
    CHECK(written.number == SVSC_FRAME_DONE && written.length == 3 && memcmp(frame, "\0\1\1", 3) == 0);
}

int main(void) {
    message[0] = frame[0] = 200;
    for (size_t i = 0; i < sizeof longest; i++) longest[i] = (uint8_t)(i % 251);
    check_streams();
    check_states();
    check_bytes();
    check_writes();
    printf("svsc_frames_check: %d failed\n", failures);
    return failures != 0;
}
