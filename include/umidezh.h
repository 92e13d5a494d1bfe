/*
 * Action records, for C.
 *
 * A sequence is records of 16 bytes, no header: byte 0 kind, 1 desk, 2 other,
 * 3 entry, then three little-endian 32-bit numbers a, b, c. Fields not named
 * for a kind are 0.
 *
 *   kind  action                    fields used
 *   0     delay                     a = ticks
 *   1     announce                  desk, entry
 *   2     pass on                   desk
 *   3     accept                    desk
 *   4     receive                   desk, other = source, entry
 *   5     crash                     desk
 *   6     misbehave: reset timers   desk
 *   7     misbehave: false note     desk, other = destination, entry,
 *                                   a = time-out
 *   8     opening                   desk = n, other = f, entry = U,
 *                                   a = M, b = P, c = A
 *
 * Both calls look at the form only, and desks and entries from 0 to 255 are
 * read as they stand. They write nothing, keep no pointer and may be called
 * from several threads at once. `length` is in bytes and may be any number for
 * which that many bytes can be read from the pointer; where it is 0 the pointer
 * may be null.
 *
 * Link with librecords.a.
 */
#ifndef UMIDEZH_H
#define UMIDEZH_H

#include <stddef.h>
#include <stdint.h>

#ifdef __cplusplus
extern "C" {
#endif

/* What umidezh_check_record answers. */
#define UMIDEZH_WELL_FORMED 0
/* Unknown kind, or a field that is not used and not 0. */
#define UMIDEZH_MALFORMED 3
/* Not sixteen bytes. It is looked at first. */
#define UMIDEZH_WRONG_LENGTH 16

/* Checks a single record: 0, 3 or 16. An opening is well formed by itself. */
uint8_t umidezh_check_record(const uint8_t *record, size_t length);

/*
 * How many records of the sequence are well formed before the first that
 * isn't. Fewer than sixteen bytes left at the end are not counted.
 */
size_t umidezh_count_records(const uint8_t *sequence, size_t length);

#ifdef __cplusplus
}
#endif

#endif
