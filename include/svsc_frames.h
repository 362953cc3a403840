/* Frames of the ScreenView paper's section 3.1, in which messages go over a TCP stream: a length of two bytes, most
 * significant first, that counts the type and the message; the type, 1; the message, of up to 65,534 bytes.
 *
 * Link libsvsc_frames.a, which host/build-archives builds; of a C library it needs memmove.
 * Each function is total: any bytes and any numbers get an answer. Buffers must not overlap.
 *
 * Messages aren't judged: one that is empty, or none of the protocol's, is given and taken. svsc_read of svsc.h reads them.
 */
#ifndef SVSC_FRAMES_H
#define SVSC_FRAMES_H

#include <stddef.h>
#include <stdint.h>

#ifdef __cplusplus
extern "C" {
#endif

/* The numbers of an answer. */
#define SVSC_FRAME_DONE 0u
#define SVSC_FRAME_SHORT 5u   /* the buffer is too short */
#define SVSC_FRAME_REFUSED 6u /* no frame: the length is 0, or the type isn't 1; or a message too long for a frame */

/* The longest message, which is what a reader's buffer must hold, and the longest frame. */
#define SVSC_FRAME_MESSAGE 65534u
#define SVSC_FRAME_LIMIT 65537u

/* A step of reading. */
typedef struct {
    uint32_t number;
    uint32_t complete; /* 1: a message stands in the buffer, from its start; else 0 */
    uint64_t used;     /* so many bytes of the chunk were taken: those behind them are for the next step */
    uint32_t length;   /* of that message; 0 if there is none */
    uint32_t taken;    /* the reader's state from now on */
    uint32_t size;
} svsc_frame_step;

/* Reads on in a stream. The reader's state is two numbers, 0 and 0 at the stream's start, and the bytes of a message that
 * isn't complete, which stay in the buffer: hand all three to the next step as this one left them.
 *
 * A step takes bytes up to the end of one frame at most, so after a message what is left of the chunk is offered again, until
 * a step gives no message.
 *
 *   SVSC_FRAME_SHORT    the buffer holds fewer than 65,534 bytes: nothing is taken, and the state stays
 *   SVSC_FRAME_REFUSED  the last byte taken shows that this is no stream of frames, or the state is one that no step gives and
 *                       nothing is taken. It stays refused: the state is 0 and 1 from now on, and nothing is taken any more
 *
 * No byte of the buffer changes in a step that answers another number than SVSC_FRAME_DONE. */
svsc_frame_step svsc_frame_read(uint32_t taken, uint32_t size, uint8_t *message, size_t message_length, const uint8_t *chunk,
                                size_t chunk_length);

/* What the writer did: `length` bytes written from the buffer's start, its further bytes as they were. */
typedef struct {
    uint32_t number;
    uint32_t length;
} svsc_frame_written;

/* Writes a message's frame, its length and 3 bytes. SVSC_FRAME_REFUSED for a message above 65,534 bytes, then
 * SVSC_FRAME_SHORT; the length is 0 then, and no byte of the buffer has changed. */
svsc_frame_written svsc_frame_write(uint8_t *frame, size_t frame_length, const uint8_t *message, size_t message_length);

#ifdef __cplusplus
}
#endif

#endif
