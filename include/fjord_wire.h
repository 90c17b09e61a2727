/*
 * The fjord session wire for C: decoders and encoders of messages, descriptors, frames and varints, the display slot, and the receiver.
 *
 * Every function takes any numbers and any slices; nothing is required of a caller but that the memory is there. A slice is a pointer and a
 * length in its own elements; an empty one may have a null pointer. Memory that a call writes (text, rows, nodes, out, slot, hold, receiver,
 * answer) may not overlap other memory of the same call. A call that refuses writes only its answer. An accepted decoder leaves zeros in text, rows and
 * nodes behind the message, an accepted encoder zeros in out behind what it wrote.
 *
 * The answer. Every call writes all sixteen numbers; what it does not give is 0.
 *
 *   0, 1, 2   the refusal: its number (0: none) and its two details
 *   3         bytes used of what was read (fjord_decode_desc, fjord_decode_frame, fjord_get_u64, fjord_offer), or the length written (fjord_encode,
 *             fjord_encode_desc, fjord_encode_frame, fjord_put_u64)
 *   4, 5, 6   a frame's kind, stream and length (fjord_decode_header, fjord_decode_frame, and fjord_offer for the frame that it hands out)
 *   7         the message's number, 1 to 12, or 0 for an opaque payload, also if it was refused (fjord_decode, and fjord_offer for its frame)
 *   8 to 13   the message's fields; of fjord_get_u64 the value, at 8
 *   14, 15    0
 *
 * The result is the refusal's number, the same as answer 0, and so 0 if the call accepts; only fjord_offer's differs (see there).
 *
 * The refusals, with their details:
 *    1  the bytes end early
 *    2  a varint of over 64 bits
 *    3  a varint that is not the shortest
 *    4  not UTF-8
 *    5  a length out of range (declared, available)
 *    6  an unknown descriptor tag (the tag)
 *    7  an unknown discriminant (the number read)
 *    8  a bad fact id (the id)
 *    9  a wrong field (1 mode, 2 version, 3 error code, 4 control op, 5 control flag, 6 already complete, 7 full scan)
 *   10  bytes left over (how many)
 *   11  an unknown predicate (4294967295)
 *   12  too long (declared, the most)
 *   13  a bad digest flag (the byte)
 *   14  a bad listing predicate (the number read)
 *   15  nested too deep (the limit)
 *   16  a buffer too small (1 text, 2 rows, 3 nodes, 4 hold, 5 out; the length needed, in the buffer's elements)
 *   17  a receiver in no possible state, or another hold
 *   18  a kind table of another length than 256 (the length)
 *   19  no such message (1 a text past the text's end, 2 too few rows, 3 nodes not laid out as a message's, 4 a number that no such message has)
 *
 * The fields of each message, in order; a text is two of them, its start and its length in text. Those that a message lacks are 0.
 *    1 startup         version, database (2), mode, fingerprint, count of claims
 *    2 ready           version, fingerprint, predicates
 *    3 error           code, text (2)
 *    4 complete        first, second
 *    5 ids             count
 *    6 types           count
 *    7 control         op, database (2), flag, schema (2)
 *    8 control reply   op, and: 1 created: instance (2); 2 finished: fingerprint, facts, bytes, flag; 3 removed: nothing
 *    9 profile         count of steps
 *   10 page            limit, cursor (2), query (2)
 *   11 fetch           flag, digest (0 without one), count of ids
 *   12 listing digest  predicate, digest
 *    0 opaque          payload (2)
 */
#ifndef FJORD_WIRE_H
#define FJORD_WIRE_H

#include <stddef.h>
#include <stdint.h>

#ifdef __cplusplus
extern "C" {
#endif

/* A receiver: plain data that the host keeps and may copy. Compare two by their fields, since there is padding behind `header`. */
typedef struct {
    uint8_t table[256];   /* the kind table: 1 to 12 name a message, any other entry is opaque */
    uint8_t header[9];    /* header bytes held */
    uint64_t header_len;  /* how many */
    uint64_t payload_len; /* how many bytes of the payload the hold has */
    uint64_t hold_len;    /* the hold's length at the opening */
    uint64_t stop;        /* the refusal that stopped it, or 0 while it runs */
    uint64_t stop_a;      /* and its details */
    uint64_t stop_b;
} fjord_receiver;

/* Decodes a payload as the message that `entry` names, 1 to 12; any other number takes it as opaque, which only a short text refuses. */
uint64_t fjord_decode(uint64_t entry, const uint8_t *payload, size_t payload_len, uint8_t *text, size_t text_len, uint64_t *rows,
                      size_t rows_len, uint64_t *nodes, size_t nodes_len, uint64_t answer[16]);

/* Decodes the descriptor at the start of a payload; bytes after it are ignored. */
uint64_t fjord_decode_desc(const uint8_t *payload, size_t payload_len, uint8_t *text, size_t text_len, uint64_t *rows, size_t rows_len,
                           uint64_t *nodes, size_t nodes_len, uint64_t answer[16]);

/* Encodes message `number`, 1 to 12. Fields past the message's own are not read, nor a fetch's digest if its flag is 0. */
uint64_t fjord_encode(uint64_t number, const uint64_t fields[6], const uint8_t *text, size_t text_len, const uint64_t *rows,
                      size_t rows_len, const uint64_t *nodes, size_t nodes_len, uint8_t *out, size_t out_len, uint64_t answer[16]);

/* Encodes the descriptor whose root is the first node. */
uint64_t fjord_encode_desc(const uint8_t *text, size_t text_len, const uint64_t *nodes, size_t nodes_len, uint8_t *out, size_t out_len,
                           uint64_t answer[16]);

/* Writes a frame: nine header bytes and the payload. */
uint64_t fjord_encode_frame(uint8_t kind, uint32_t stream, const uint8_t *payload, size_t payload_len, uint8_t *out, size_t out_len,
                            uint64_t answer[16]);

/* Reads the nine header bytes of a frame. */
uint64_t fjord_decode_header(const uint8_t *bytes, size_t len, uint64_t answer[16]);

/* Reads the frame at the start of the bytes. */
uint64_t fjord_decode_frame(const uint8_t *bytes, size_t len, uint64_t answer[16]);

/* Reads the varint at the start of the bytes. */
uint64_t fjord_get_u64(const uint8_t *bytes, size_t len, uint64_t answer[16]);

/* Writes a varint alone. */
uint64_t fjord_put_u64(uint64_t value, uint8_t *out, size_t out_len, uint64_t answer[16]);

/* Puts the text of `length` bytes from `start` on into a slot: as many of its bytes as the slot has, then spaces. */
uint64_t fjord_put_slot(const uint8_t *text, size_t text_len, uint64_t start, uint64_t length, uint8_t *slot, size_t slot_len,
                        uint64_t answer[16]);

/* Opens a receiver over a hold, which it clears. The kind table must have 256 entries. */
uint64_t fjord_open(fjord_receiver *receiver, const uint8_t *table, size_t table_len, uint8_t *hold, size_t hold_len, uint64_t answer[16]);

/*
 * Offers the next bytes of a run, with the hold of the opening. It reads to the end of the first frame, to a stop, or to the end of the piece, and
 * returns which:
 *   0  it wants more; the piece is used up
 *   1  a frame is handed out: its kind, stream, length and message, or why the message was refused; offer what is left of the piece
 *   2  it stops, with the refusal in the answer; the bytes used go through the ninth header byte
 *   3  the offer is refused, by 17 or, after a stop, by the refusal that stopped it; nothing is used or altered
 */
uint64_t fjord_offer(fjord_receiver *receiver, const uint8_t *piece, size_t piece_len, uint8_t *hold, size_t hold_len, uint8_t *text,
                     size_t text_len, uint64_t *rows, size_t rows_len, uint64_t *nodes, size_t nodes_len, uint64_t answer[16]);

#ifdef __cplusplus
}
#endif

#endif
