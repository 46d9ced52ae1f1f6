/* The calls of the engine for C. `tools/archive` makes the archive, target/staticlib/libboundary.a; examples/run shows how it is linked.
 *
 * A slice is a pointer and its length: in words where it is of uint32_t, in bytes where it is of uint8_t. Slices must not overlap. No pointer may
 * be null, not even of an empty slice, and words stand at multiples of 4 bytes.
 *
 * saved    the saved state, VALMTHOSH_SAVED_WORDS: PCSR0, int_hi, int_lo, slot count, packets taken, packets faulted, Send RAM pointer, Receive RAM
 *          pointer, NQR place, NQR length, AQR place, AQR length, NBQR place, NBQR length, last sender
 * send     Send RAM, VALMTHOSH_SEND_WORDS
 * receive  Receive RAM, VALMTHOSH_RECEIVE_WORDS
 * bytes    data memory, 0 to VALMTHOSH_DATA_BYTES_MOST
 * notices  notice memory, VALMTHOSH_NOTICE_WORDS (a block) to VALMTHOSH_NOTICE_MEMORY_WORDS_MOST, a multiple of a block's
 * answer   VALMTHOSH_ANSWER_WORDS or more; the first three become the reply's number, the value, and the interrupts summed (1 AQR is no longer empty,
 *          2 NQR is no longer empty, 4 NBQR became empty)
 *
 * Each call returns the reply's number. Any content is allowed, so all can begin as zeros: then write 0x80000000 to register 0x000, a reset.
 * A saved slice of another length, or an answer that is shorter, returns VALMTHOSH_SIZES with nothing written, not the answer either.
 * Of a C library the archive asks for memset alone.
 */
#ifndef VALMTHOSH_H
#define VALMTHOSH_H

#include <stddef.h>
#include <stdint.h>

#ifdef __cplusplus
extern "C" {
#endif

/* Lengths, in words or bytes as they say. */
#define VALMTHOSH_SAVED_WORDS 15
#define VALMTHOSH_ANSWER_WORDS 3
#define VALMTHOSH_SEND_WORDS 1024
#define VALMTHOSH_RECEIVE_WORDS 2048
#define VALMTHOSH_DATA_BYTES_MOST 32768
#define VALMTHOSH_NOTICE_MEMORY_WORDS_MOST 2048
#define VALMTHOSH_NOTICE_WORDS 8        /* a block, and the room of a take */
#define VALMTHOSH_PACKET_BYTES_MOST 168 /* the room of a send */

/* The registers' numbers. From DESCRIPTORS on descriptor words, 64 of them, stand 4 apart; the pages show the 64 words of their RAM
 * around its pointer. */
enum valmthosh_register {
    VALMTHOSH_PCSR0 = 0x000,
    VALMTHOSH_PCSR1 = 0x004,
    VALMTHOSH_NLHR = 0x008,
    VALMTHOSH_SLOT_COUNT = 0x00C,
    VALMTHOSH_NQR = 0x014,
    VALMTHOSH_AQR = 0x018,
    VALMTHOSH_NBQR = 0x01C,
    VALMTHOSH_PACKETS_TAKEN = 0x020,
    VALMTHOSH_PACKETS_FAULTED = 0x024,
    VALMTHOSH_SEND_POINTER = 0x040,
    VALMTHOSH_SEND_WORD = 0x044,
    VALMTHOSH_SEND_WORD_STEP = 0x048,
    VALMTHOSH_RECEIVE_POINTER = 0x080,
    VALMTHOSH_RECEIVE_WORD = 0x084,
    VALMTHOSH_RECEIVE_WORD_STEP = 0x088,
    VALMTHOSH_DESCRIPTORS = 0x100,
    VALMTHOSH_SEND_PAGE = 0x200,
    VALMTHOSH_RECEIVE_PAGE = 0x300
};

/* A fault's status: the step of receipt that failed. */
enum valmthosh_status {
    VALMTHOSH_BAD_FIELDS = 0x0080,
    VALMTHOSH_BAD_INCARNATION = 0x0100,
    VALMTHOSH_BAD_BODY_CHECK = 0x0200,
    VALMTHOSH_BAD_HEADER_CHECK = 0x0400,
    VALMTHOSH_BAD_LENGTH = 0x0800,
    VALMTHOSH_BAD_OFFSET = 0x1000,
    VALMTHOSH_BAD_NODE = 0x2000,
    VALMTHOSH_BAD_SLOT = 0x4000,
    VALMTHOSH_SLOT_NOT_VALID = 0x8000
};

/* The replies. All but DONE and FAULT are refusals: nothing was changed, but for the stalled mark that FABRIC sets. */
enum valmthosh_reply {
    VALMTHOSH_DONE = 0,
    VALMTHOSH_OFF = 1,
    VALMTHOSH_NO_REGISTER = 2,
    VALMTHOSH_READ_ONLY = 3,
    VALMTHOSH_BAD_VALUE = 4,
    VALMTHOSH_ACTIVE = 5,
    VALMTHOSH_FULL = 6,
    VALMTHOSH_NO_PACKET = 7,
    VALMTHOSH_STALLED = 8,
    VALMTHOSH_FAULT = 9,
    VALMTHOSH_SHORT = 10,
    VALMTHOSH_QUIET = 11,
    VALMTHOSH_EMPTY = 12,
    VALMTHOSH_SIZES = 13,
    VALMTHOSH_UNSOUND = 14,
    VALMTHOSH_FABRIC = 15
};

/* Writes a value to a register. */
uint32_t valmthosh_write(uint32_t *saved, size_t saved_length, uint32_t *send, size_t send_length, uint32_t *receive, size_t receive_length,
                         const uint8_t *bytes, size_t bytes_length, uint32_t *notices, size_t notices_length, uint32_t register_number,
                         uint32_t value, uint32_t *answer, size_t answer_length);

/* Reads a register; the value is its word. */
uint32_t valmthosh_read(uint32_t *saved, size_t saved_length, const uint32_t *send, size_t send_length, const uint32_t *receive,
                        size_t receive_length, const uint8_t *bytes, size_t bytes_length, const uint32_t *notices, size_t notices_length,
                        uint32_t register_number, uint32_t *answer, size_t answer_length);

/* Receives a packet; the value is 0, or a fault's status. */
uint32_t valmthosh_receive(uint32_t *saved, size_t saved_length, const uint32_t *send, size_t send_length, uint32_t *receive,
                           size_t receive_length, uint8_t *bytes, size_t bytes_length, uint32_t *notices, size_t notices_length,
                           const uint8_t *packet, size_t packet_length, uint32_t *answer, size_t answer_length);

/* Sends the next packet into a room of VALMTHOSH_PACKET_BYTES_MOST or more, if the fabric is ready (1; anything else is not ready); the value is the
 * packet's length. */
uint32_t valmthosh_send(uint32_t *saved, size_t saved_length, uint32_t *send, size_t send_length, uint32_t *receive, size_t receive_length,
                        const uint8_t *bytes, size_t bytes_length, uint32_t *notices, size_t notices_length, uint32_t ready, uint8_t *room,
                        size_t room_length, uint32_t *answer, size_t answer_length);

/* Takes the oldest notice of a list into a room of VALMTHOSH_NOTICE_WORDS or more; the value is the notice's word 0. */
uint32_t valmthosh_take(uint32_t *saved, size_t saved_length, const uint32_t *send, size_t send_length, uint32_t *receive,
                        size_t receive_length, const uint8_t *bytes, size_t bytes_length, uint32_t *notices, size_t notices_length,
                        uint32_t list, uint32_t *room, size_t room_length, uint32_t *answer, size_t answer_length);

#ifdef __cplusplus
}
#endif

#endif
