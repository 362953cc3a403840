/* Reads SVSC messages from standard input, frame by frame, and prints each as a line: how a support box uses
 * include/svsc_frames.h and include/svsc.h.
 *
 *   host/build-archives
 *   cc -std=c11 -Iinclude -o support_box examples/support_box.c build/lib/libsvsc_frames.a build/lib/libsvsc.a
 *
 * Cookies and keys are not printed: they are secrets of the peers that they were given to. */
#include <errno.h>
#include <inttypes.h>
#include <stdbool.h>
#include <stdio.h>
#include <string.h>
#include <unistd.h>

#include "svsc.h"
#include "svsc_frames.h"

enum { OK = 0, FAILED = 1, WRONG_ARGUMENTS = 2 };

static const char help[] =
    "Usage: support_box < STREAM\n"
    "\n"
    "Reads SVSC messages, framed as on a TCP connection, from standard input and prints each as a line.\n"
    "Cookies and keys are left out.\n"
    "\n"
    "The exit status is 0 if the stream ended after a whole frame, 1 if it is no stream of frames, ended\n"
    "within one, or couldn't be read or printed, and 2 if the arguments are wrong.\n";

/* A stream as far as it has been read: the reader's state and its message, and how many bytes were taken. */
struct stream {
    uint32_t taken, size;
    uint8_t message[SVSC_FRAME_MESSAGE];
    uint64_t place;
};

static size_t data_length(const uint8_t *bytes, size_t length) {
    static uint8_t data[SVSC_FRAME_MESSAGE];
    return svsc_field(bytes, length, SVSC_DATA, data, sizeof data).length;
}

/* The numbers that a message has beside its type. */
static void print_numbers(svsc_message message, const uint8_t *bytes, size_t length) {
    switch (message.type) {
    case 0: printf(": version %" PRIu32 ".%" PRIu32, message.major, message.minor); break;
    case 1: printf("%s", message.flag ? ": ok" : ": not ok"); break;
    case 2: printf("%s", message.flag ? ": with a cookie" : ": without a cookie"); break;
    case 3:
        if (message.flag)
            printf(": accepted, id %" PRIu32 ", expires at %" PRIu64, message.id, message.expiration);
        else
            printf(": refused");
        break;
    case 5:
        if (message.flag)
            printf(": extended, expires at %" PRIu64, message.expiration);
        else
            printf(": refused");
        break;
    case 6: printf(": id %" PRIu32, message.id); break;
    case 7: printf(": status %" PRIu32 ", id %" PRIu32, message.flag, message.id); break;
    case 11:
    case 12: printf(": %zu bytes of data", data_length(bytes, length)); break;
    default: break;
    }
}

static void print_message(const uint8_t *bytes, size_t length) {
    static const char *const names[] = {
        "ProtocolVersion",
        "VersionAnswer",
        "LeaseRequest",
        "LeaseResponse",
        "LeaseExtensionRequest",
        "LeaseExtensionResponse",
        "EstablishSessionRequest",
        "EstablishSessionResponse",
        "EstablishSessionNotification",
        "SessionEnd",
        "SessionEndNotification",
        "SessionDataSend",
        "SessionDataReceive",
        "Keepalive",
    };
    svsc_message message = svsc_read(bytes, length);
    if (message.number != SVSC_DONE || message.type >= sizeof names / sizeof names[0]) {
        printf("not a message: %zu bytes\n", length);
        return;
    }
    printf("%s", names[message.type]);
    print_numbers(message, bytes, length);
    printf("\n");
}

/* Takes a chunk of the stream and prints the messages that are whole with it. False if this is no stream of frames. */
static bool take_chunk(struct stream *stream, const uint8_t *chunk, size_t length) {
    while (length > 0) {
        svsc_frame_step step =
            svsc_frame_read(stream->taken, stream->size, stream->message, sizeof stream->message, chunk, length);
        stream->taken = step.taken;
        stream->size = step.size;
        stream->place += step.used;
        if (step.number != SVSC_FRAME_DONE) return false;
        if (step.complete) print_message(stream->message, step.length);
        chunk += step.used;
        length -= step.used;
    }
    return true;
}

static bool is_within_frame(const struct stream *stream) { return stream->taken != 0 || stream->size != 0; }

/* Whether standard output has all that was printed. If not, it is told why. */
static bool is_printed(void) {
    if (fflush(stdout) == 0 && !ferror(stdout)) return true;
    fprintf(stderr, "support_box: standard output: %s\n", strerror(errno));
    return false;
}

/* Standard input, to its end. The messages of each chunk are printed before the next is awaited. */
static int print_stream(void) {
    static struct stream stream;
    uint8_t chunk[4096];
    ssize_t count;
    while ((count = read(STDIN_FILENO, chunk, sizeof chunk)) != 0) {
        if (count < 0 && errno == EINTR) continue;
        if (count < 0) {
            fprintf(stderr, "support_box: standard input, after byte %" PRIu64 ": %s\n", stream.place, strerror(errno));
            return FAILED;
        }
        bool is_taken = take_chunk(&stream, chunk, (size_t)count);
        if (!is_printed()) return FAILED;
        if (!is_taken) {
            fprintf(stderr, "support_box: no frame, as byte %" PRIu64 " shows: its length is 0, or its type isn't 1\n",
                    stream.place);
            return FAILED;
        }
    }
    if (is_within_frame(&stream)) {
        fprintf(stderr, "support_box: the stream ends within a frame, after byte %" PRIu64 "\n", stream.place);
        return FAILED;
    }
    return OK;
}

int main(int count, char **arguments) {
    if (count == 2 && strcmp(arguments[1], "--help") == 0) {
        fputs(help, stdout);
        return is_printed() ? OK : FAILED;
    }
    if (count != 1) {
        fprintf(stderr, "support_box: it has no arguments; --help says what it does\n");
        return WRONG_ARGUMENTS;
    }
    return print_stream();
}
