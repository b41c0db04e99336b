/*
 * yotnaghez.h: a FastCGI 1.0 receiver that is proved, for programs in C11 and C++11.
 *
 * It is the application's end of a FastCGI connection: bytes from a web server go in, events come out, and calls turn
 * answers into bytes for the web server. It opens no sockets, allocates nothing, keeps no pointer and has no memory
 * of its own, so two threads may use it at once for two connections. Link with target/staticlib/libexport_calls.a, which
 * `tools/static-library export_calls` writes. docs/BINDINGS.md begins with a station in ten minutes, docs/CALLS.md has
 * every call, and docs/RULES.md has the rules behind the answers.
 *
 * There are two layers, and most programs want the second one alone:
 *
 *   1. The calls, yot_start to yot_correct, in this file. The state of a connection is a struct that goes from call to
 *      call by value. The memory that belongs to it (store, gathered, waits, marks, queue) is lent to each call.
 *   2. A connection in one struct, yot_connection with the functions yot_conn_..., in yotnaghez_connection.h. It holds
 *      the state and all of its memory.
 *
 * All numbers and structs are in yotnaghez_types.h. This file includes both others.
 *
 * Rules for all calls:
 *
 *   - Every call answers, whatever it is given. A refusal has a number (YOT_REFUSAL_...), and a refused call changes
 *     nothing: it answers the state as it was given, its other numbers are 0, and every lent buffer keeps every byte.
 *     A refusal of 0 means that the call was not refused.
 *   - A state, event, reader or stream that holds an unknown code is refused by 9, before anything else is looked at.
 *   - A buffer is a pointer and a length. The pointer may be null if the length is 0. An array that has its size in a
 *     declaration must have that size.
 *   - What is lent to one call must not overlap, unless the call only reads both.
 *   - Ids are those of the web server's records, 1 to 65,535.
 *   - The bytes behind the last field of a struct are not set, so compare fields and not memory.
 */
#ifndef YOTNAGHEZ_H
#define YOTNAGHEZ_H

#include "yotnaghez_types.h"

#ifdef __cplusplus
extern "C" {
#endif

/* ---- Calls that read the connection ----------------------------------------------------------------------------- */

/* An open connection with no requests. Zeroes the store, the gathered bytes and the numbers of what waits.
 * Refusal 2. */
yot_started yot_start(uint8_t *store, size_t store_len, uint8_t gathered[YOT_QUERY], uint16_t waits[YOT_WAITS]);

/* One step over a piece of what came in. It may use only a part of the piece; feed the rest again.
 * Refusals 2, 9, 1. */
yot_stepped yot_step(yot_state state, uint8_t *store, size_t store_len, uint8_t gathered[YOT_QUERY],
                     uint16_t waits[YOT_WAITS], const uint8_t *piece, size_t piece_len);

/* As many steps as it takes to come to an event or to the end of the piece.
 * Refusals 2, 9, 1. */
yot_stepped yot_next_event(yot_state state, uint8_t *store, size_t store_len, uint8_t gathered[YOT_QUERY],
                           uint16_t waits[YOT_WAITS], const uint8_t *piece, size_t piece_len);

/* ---- Calls that ask --------------------------------------------------------------------------------------------- */

/* Where the value of a parameter lies in the store.
 * Refusals 2, 9, 1, 3, 4. */
yot_place yot_value(yot_state state, const uint16_t waits[YOT_WAITS], const uint8_t *store, size_t store_len,
                    uint16_t id, const uint8_t *name, size_t name_len);

/* Where the whole list of a request's parameters lies in the store.
 * Refusals 2, 9, 1, 3, 4. */
yot_place yot_list(yot_state state, const uint16_t waits[YOT_WAITS], const uint8_t *store, size_t store_len,
                   uint16_t id);

/* The pair of number k of the list, counted from 0.
 * Refusals 2, 9, 1, 3, 4, 7. */
yot_pair yot_pair_at(yot_state state, const uint16_t waits[YOT_WAITS], const uint8_t *store, size_t store_len,
                     uint16_t id, size_t k);

/* What is read at a place of the list. Begin with place 0 and go on with `next` while `kind` is YOT_PAIR_IS.
 * Refusals 2, 9, 1, 3, 4. */
yot_pair yot_pair_from(yot_state state, const uint16_t waits[YOT_WAITS], const uint8_t *store, size_t store_len,
                       uint16_t id, size_t place);

/* What a request is.
 * Refusals 9, 1, 3. */
yot_request_info yot_request(yot_state state, const uint16_t waits[YOT_WAITS], uint16_t id);

/* How many requests are active.
 * Refusals 9, 1. */
yot_count yot_active_count(yot_state state, const uint16_t waits[YOT_WAITS]);

/* ---- Output that waits, and the pump ---------------------------------------------------------------------------- */

/* Bytes for YOT_STDOUT or YOT_STDERR come to wait: all of them, or none if there is no room for all.
 * Refusals 2, 9, 1, 3, 4, 5, 10. */
yot_queued yot_queue_output(yot_state state, uint16_t waits[YOT_WAITS], uint8_t marks[YOT_QUEUE], uint8_t *queue,
                            size_t queue_len, uint16_t id, uint8_t stream, const uint8_t *bytes, size_t bytes_len);

/* The end of YOT_STDOUT or YOT_STDERR comes to wait. It needs no room.
 * Refusals 9, 1, 3, 4, 5. */
yot_queued yot_queue_end(yot_state state, uint16_t waits[YOT_WAITS], uint8_t marks[YOT_QUEUE], uint16_t id,
                         uint8_t stream);

/* The end of a request comes to wait, with an application status. It ends the streams that are owed an end, and needs
 * no room. The request keeps its id until the pump has written its END.
 * Refusals 9, 1, 3, 5. */
yot_queued yot_queue_finish(yot_state state, uint16_t waits[YOT_WAITS], uint8_t marks[YOT_QUEUE], uint16_t id,
                            uint32_t status);

/* Writes at most `allowance` records of what waits, in turns: one of each request that waits, then the next. The
 * buffer needs YOT_PUMPED bytes for each record that is allowed. Nothing waits once an allowance of 1 or more writes
 * no record.
 * Refusals 2, 9, 1, 6. */
yot_pumped yot_pump(yot_state state, uint8_t *store, size_t store_len, uint16_t waits[YOT_WAITS],
                    uint8_t marks[YOT_QUEUE], uint8_t *queue, size_t queue_len, size_t allowance, uint8_t *out,
                    size_t out_len);

/* ---- Output straight into a buffer, while nothing of the request waits ------------------------------------------ */

/* Bytes for YOT_STDOUT or YOT_STDERR, in records of at most YOT_CHUNK content bytes.
 * Refusals 9, 1, 3, 4, 5, 6, 10. */
yot_written yot_write_output(yot_state state, const uint16_t waits[YOT_WAITS], uint16_t id, uint8_t stream,
                             const uint8_t *bytes, size_t bytes_len, uint8_t *out, size_t out_len);

/* The end of YOT_STDOUT or YOT_STDERR: eight bytes.
 * Refusals 9, 1, 3, 4, 5, 6, 10. */
yot_written yot_end_output(yot_state state, const uint16_t waits[YOT_WAITS], uint16_t id, uint8_t stream, uint8_t *out,
                           size_t out_len);

/* The end of a request, with an application status: at most 32 bytes. Without KEEP_CONN the connection closes.
 * Refusals 2, 9, 1, 3, 5, 6, 10. */
yot_finished yot_finish(yot_state state, uint16_t waits[YOT_WAITS], uint8_t *store, size_t store_len, uint16_t id,
                        uint32_t status, uint8_t *out, size_t out_len);

/* ---- Calls that take no connection ------------------------------------------------------------------------------ */

/* The reply that an event owes the web server, to be sent at once; no bytes for an event that owes none.
 * Refusal 6. */
yot_wrote yot_owed_reply(yot_event event, uint8_t *out, size_t out_len);

/* A name-value pair.
 * Refusals 8, 6. */
yot_wrote yot_write_pair(uint8_t *out, size_t out_len, const uint8_t *name, size_t name_len, const uint8_t *value,
                         size_t value_len);

/* ---- Readings in a body, and their correction ------------------------------------------------------------------- */

/* A reader at the start of a body. */
yot_reader yot_new_reader(void);

/* Reads on in a body, to the end of the bytes or to the first reading. Go on with the bytes that were not used. Here a
 * refusal has used the bytes up to it, and the reader keeps it to the end of the body.
 * Refusals 31, 32, 33. */
yot_read yot_read_reading(yot_reader reader, const uint8_t *bytes, size_t bytes_len);

/* The body ends.
 * Refusals 34, or the one that stands. */
yot_ended yot_end_body(yot_reader reader);

/* Writes a reading: 3 to 12 bytes.
 * Refusals 33, 6. */
yot_wrote yot_write_reading(uint8_t *out, size_t out_len, uint32_t log, int32_t tenths, uint32_t raw);

/* A raw count corrected by a thawed and a frozen card.
 * Refusals 41, 42, 43, 44. */
yot_corrected yot_correct(yot_card thawed, yot_card frozen, int32_t tenths, uint32_t raw);

#ifdef __cplusplus
}
#endif

#include "yotnaghez_connection.h"

#endif
