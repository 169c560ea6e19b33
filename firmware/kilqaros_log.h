/* The message log, as the radio firmware sees it. Both functions are proved in
 * crates/message_log_c/src/lib.rt; link libmessage_log.a, as firmware/run does.
 *
 * `bytes` points at `length` bytes that nobody else touches during the call. It is not null, even
 * where the length is 0.
 */
#ifndef KILQAROS_LOG_H
#define KILQAROS_LOG_H

#include <stddef.h>
#include <stdint.h>

/* The length of a log that has room for `capacity` entries, of which there are 1 to 2,048. */
#define KILQAROS_LOG_LENGTH(capacity) (4 + 27 * (size_t)(capacity))

/* What counting answers where the bytes are no log. */
#define KILQAROS_NO_LOG 65535

/* Makes the bytes an empty log with this capacity, and answers 0. Where the length is not that of
 * such a log, or the capacity is not from 1 to 2,048, answers 2 and touches nothing. */
uint8_t kilqaros_log_clear(uint8_t *bytes, size_t length, uint16_t capacity);

/* How many entries the log has, or KILQAROS_NO_LOG. */
uint16_t kilqaros_log_count(const uint8_t *bytes, size_t length);

#endif
