/* The frame check of ibermarc21, for load programs. Link with librecord.a (tools/c-archive). */
#ifndef IBERMARC21_H
#define IBERMARC21_H

#include <stddef.h>
#include <stdint.h>

#ifdef __cplusplus
extern "C" {
#endif

/*
 * Checks the frame of the record in `length` bytes from `record` on.
 *
 * Answers 0 where the frame holds, and else
 *
 *     refusal number * 100,000 + place
 *
 * with a number from 18 to 22 and a place from 0 to 99,999: the number is the answer / 100000, and the place the
 * answer % 100000. It reads no byte outside the `length` given, writes nothing and allocates nothing.
 *
 * `record` must not be NULL, even where `length` is 0, and the bytes must not change during the call.
 */
uint64_t ibermarc21_frame_check(const uint8_t *record, size_t length);

#ifdef __cplusplus
}
#endif

#endif
