/* kadwunge.h: what a host in C or C++ calls of the static library libhost.a.
 *
 * Every function takes every value of its arguments: there is nothing that a caller must check first. Of a pointer with a length it
 * takes that many bytes, which must be there; where a call has two of them, they must not overlap.
 * Link with libhost.a. Of the C library it uses memcpy and memset alone.
 */
#ifndef KADWUNGE_H
#define KADWUNGE_H

#include <stddef.h>
#include <stdint.h>

#ifdef __cplusplus
extern "C" {
#endif

/* The order of two frame stamps, the first against the second.
 *
 * Takes     any two stamps.
 * Returns   -1 where the first is less (earlier), 0 where they are equal, 1 where it is greater (later). The order is the sign
 *           of the signed 16-bit difference, so it holds across the wrap: 32767 is less than -32768. Of two stamps that are
 *           exactly 32768 apart each is less than the other.
 * Refuses   nothing.
 */
int32_t kadwunge_stamp_order(int16_t first, int16_t second);

/* The stamp of the frame at a time, its fraction cut toward zero.
 *
 * Takes     a time in seconds and the timestep, the length of a frame in seconds.
 * Returns   the stamp, -32768 to 32767: seconds / timestep, wrapped into that range modulo 65536, cut toward zero.
 * Refuses   65537 where the timestep is not from 1/1024 to 1 (a NaN is not); else
 *           65538 where the seconds are not finite or lie beyond 2^32 in size.
 */
int32_t kadwunge_frame_stamp(double seconds, double timestep);

/* The mean of clock samples, its extremes dropped.
 *
 * Takes     the samples needed, 1 to 32, and the rate of outliers to be expected, 0 to 1. From these follow the samples to discard at
 *           each extreme, d = needed * rate / 2, at least 1, rounded up, and the samples to store, needed + 2 * d.
 *           The samples to store, as bytes: 8 for each, an IEEE 754 binary64 with its low byte first, in the order in which they came.
 *           A buffer of 8 bytes for the answer.
 * Returns   0, and the mean in the answer buffer as 8 bytes, low byte first. The samples are sorted, equal ones staying in the order in
 *           which they came, d of them are dropped at each end, and the others are summed from +0.0 upward and divided by their number.
 * Refuses   1 where needed or rate is out of range (a NaN is); else
 *           8 where the sample bytes are not 8 times the samples to store, a sample is not finite or lies beyond 2^33 in size, or the
 *           answer buffer is not of 8 bytes.
 *           Then every byte of the answer buffer, of whatever length, is set to 0.
 */
uint32_t kadwunge_mean_of_samples(uint32_t needed, double rate, const uint8_t *samples, size_t samples_length, uint8_t *answer,
                                  size_t answer_length);

/* The frames of a span of time. */
typedef struct kadwunge_span_frames {
    uint64_t frames;    /* whole frames */
    uint64_t remainder; /* what is left over, in parts: p of them are a microsecond, and q * 1000000 a frame */
    uint32_t refusal;   /* 0, or 31 */
    uint32_t spare;     /* 0 */
} kadwunge_span_frames;

/* The whole frames of a span of time at a rate such as 60000 over 1001 frames a second, and what is left over. Nothing is rounded.
 *
 * Takes     a span in microseconds, 0 to 2^40 (some 12.7 days), and the rate p over q frames a second, each 1 to 65535.
 * Returns   frames and remainder, the only two numbers with
 *               span * p = frames * q * 1000000 + remainder   and   remainder < q * 1000000.
 *           In C write (uint64_t)q * 1000000, since q * 1000000 alone has 32 bits; in 64 bits nothing of this overflows. There are at
 *           most 72056494526 frames. They end remainder / p microseconds, in general a fraction, before the span does. The refusal and
 *           the spare word are 0.
 * Refuses   31, in the field refusal, where the span, p or q is out of its range. Frames, remainder and the spare word are 0 then; a span
 *           that is accepted may have 0 frames and remainder 0 too, so look at the refusal first.
 */
kadwunge_span_frames kadwunge_frames_of_span(uint64_t span, uint32_t p, uint32_t q);

#ifdef __cplusplus
}
#endif

#endif
