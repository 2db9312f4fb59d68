/* Compares the host's calls, as C links them, with an implementation of their meanings written here in C alone.
 * Prints a line for each group: "ok NAME: N values compared, 0 differences", or "FAIL ..." with the first differences above it.
 * A group that compared nothing fails. */
#include "kadwunge.h"

#include <math.h>
#include <stdio.h>
#include <stdlib.h>
#include <string.h>

static uint64_t state = 0x9e3779b97f4a7c15u;

static uint64_t next_random(void)
{
    state ^= state << 13;
    state ^= state >> 7;
    state ^= state << 17;
    return state;
}

static double of_bits(uint64_t bits)
{
    double x;
    memcpy(&x, &bits, sizeof x);
    return x;
}

/* The signed difference, brought into -32768 to 32767, and its sign. */
static int expected_order(int first, int second)
{
    int d = first - second;
    if (d > 32767)
        d -= 65536;
    if (d < -32768)
        d += 65536;
    return (d > 0) - (d < 0);
}

/* The frame stamp by C's fmod; the comparisons are written so that a NaN fails them. */
static int expected_stamp(double seconds, double timestep)
{
    if (!(timestep >= 1.0 / 1024.0 && timestep <= 1.0))
        return 65537;
    if (!(fabs(seconds) <= 4294967296.0))
        return 65538;
    double r = fmod(seconds / timestep + 32768.0, 65536.0);
    if (r < 0.0)
        r += 65536.0;
    r -= 32768.0;
    if (r >= 32767.0)
        return 32767;
    return (int)r;
}

static void to_bytes(uint8_t *at, double x)
{
    uint64_t bits;
    memcpy(&bits, &x, sizeof bits);
    for (int i = 0; i < 8; i++)
        at[i] = (uint8_t)(bits >> (8 * i));
}

static double from_bytes(const uint8_t *at)
{
    uint64_t bits = 0;
    for (int i = 7; i >= 0; i--)
        bits = bits << 8 | at[i];
    return of_bits(bits);
}

/* The samples that a mean discards at each extreme. */
static size_t to_discard(uint32_t needed, double rate)
{
    double half = needed * rate / 2.0;
    return half > 1.0 ? (size_t)ceil(half) : 1;
}

static size_t to_store(uint32_t needed, double rate)
{
    return needed + 2 * to_discard(needed, rate);
}

/* The mean: again and again the first of the smallest samples is taken out; those between the extremes are summed. */
static uint32_t expected_mean(uint32_t needed, double rate, const uint8_t *samples, size_t length, uint8_t *answer, size_t room)
{
    double values[64], sum = 0.0;
    memset(answer, 0, room);
    if (needed < 1 || needed > 32 || !(rate >= 0.0 && rate <= 1.0))
        return 1;
    size_t discard = to_discard(needed, rate), store = to_store(needed, rate);
    if (length != 8 * store || room != 8)
        return 8;
    for (size_t i = 0; i < store; i++) {
        values[i] = from_bytes(samples + 8 * i);
        if (!(fabs(values[i]) <= 8589934592.0))
            return 8;
    }
    for (size_t taken = 0; taken < store; taken++) {
        size_t least = 0;
        for (size_t i = 1; i < store - taken; i++)
            if (values[i] < values[least])
                least = i;
        if (taken >= discard && taken < store - discard)
            sum += values[least];
        memmove(values + least, values + least + 1, (store - taken - least - 1) * sizeof *values);
    }
    to_bytes(answer, sum / (double)(store - 2 * discard));
    return 0;
}

/* Frames and remainder by long division of the product, a bit at a time from the highest: no '/' and no '%'. */
static kadwunge_span_frames expected_span(uint64_t span, uint32_t p, uint32_t q)
{
    kadwunge_span_frames want = {0, 0, 0, 0};
    if (span > 1099511627776u || p < 1 || p > 65535 || q < 1 || q > 65535) {
        want.refusal = 31;
        return want;
    }
    uint64_t product = 0, divisor = 0;
    for (int bit = 0; bit < 16; bit++) {
        product += p >> bit & 1 ? span << bit : 0;
        divisor += q >> bit & 1 ? (uint64_t)1000000 << bit : 0;
    }
    for (int bit = 63; bit >= 0; bit--) {
        want.frames <<= 1;
        want.remainder = want.remainder << 1 | (product >> bit & 1);
        if (want.remainder >= divisor) {
            want.remainder -= divisor;
            want.frames |= 1;
        }
    }
    return want;
}

static uint64_t compared, differences;
static int failed;

static void finish(const char *name)
{
    int good = differences == 0 && compared > 0;
    if (!good)
        failed = 1;
    printf("%s %s: %llu values compared, %llu differences\n", good ? "ok" : "FAIL", name, (unsigned long long)compared,
           (unsigned long long)differences);
    compared = differences = 0;
}

static void check_order(int16_t a, int16_t b)
{
    int got = kadwunge_stamp_order(a, b), want = expected_order(a, b);
    compared++;
    if (got != want && differences++ < 5)
        printf("  order %d %d: %d, expected %d\n", a, b, got, want);
}

static void check_stamp(double seconds, double timestep)
{
    int got = kadwunge_frame_stamp(seconds, timestep), want = expected_stamp(seconds, timestep);
    compared++;
    if (got != want && differences++ < 5)
        printf("  stamp %a %a: %d, expected %d\n", seconds, timestep, got, want);
}

/* Every byte of the answer is compared: it has no gaps. */
_Static_assert(sizeof(kadwunge_span_frames) == 24, "the words of a kadwunge_span_frames");

static void check_span(uint64_t span, uint32_t p, uint32_t q)
{
    kadwunge_span_frames got = kadwunge_frames_of_span(span, p, q), want = expected_span(span, p, q);
    compared++;
    if (memcmp(&got, &want, sizeof got) != 0 && differences++ < 5)
        printf("  span %llu %u %u: %u %llu %llu, expected %u %llu %llu\n", (unsigned long long)span, (unsigned)p, (unsigned)q,
               (unsigned)got.refusal, (unsigned long long)got.frames, (unsigned long long)got.remainder, (unsigned)want.refusal,
               (unsigned long long)want.frames, (unsigned long long)want.remainder);
}

/* The answer buffer and 16 bytes on either side of it are filled before the call, and all of them are compared after it. */
static void check_mean(uint32_t needed, double rate, const uint8_t *samples, size_t length, size_t room)
{
    uint8_t got[64], want[64];
    memset(got, 0xa5, sizeof got);
    memset(want, 0xa5, sizeof want);
    uint32_t code = kadwunge_mean_of_samples(needed, rate, samples, length, got + 16, room);
    uint32_t right = expected_mean(needed, rate, samples, length, want + 16, room);
    compared++;
    if ((code != right || memcmp(got, want, sizeof got) != 0) && differences++ < 5)
        printf("  mean %u %a of %zu bytes, answer of %zu: %u, expected %u\n", (unsigned)needed, rate, length, room, (unsigned)code,
               (unsigned)right);
}

/* Every stamp against those that differ from it by 0, a quarter or half of the space, or nearly so; and a grid of all stamps. */
static void orders(void)
{
    for (int a = -32768; a <= 32767; a++)
        for (int around = 0; around < 65536; around += 16384)
            for (int d = -20; d <= 20; d++)
                check_order((int16_t)a, (int16_t)(uint16_t)(a + around + d));
    finish("C stamp order, differences around 0, a quarter and half of the space");
    for (int a = -32768; a <= 32767; a += 37)
        for (int b = -32768; b <= 32767; b += 41)
            check_order((int16_t)a, (int16_t)b);
    finish("C stamp order, grid");
}

/* Values at and next to each limit, zeros, subnormals, infinities and NaN patterns. */
static void stamp_limits(void)
{
    double base[] = {0.0,     0.5,   1.0,     1.5,      2.0,      1.0 / 1024.0, 1.0 / 3.0,    32766.5,      32767.0,    32767.5,
                     32768.0, 65535, 65536.0, 4096.125, 4294967295.5, 4294967296.0, 8589934592.0, 1e300, 0x1p-1022,  0x1p-1074,
                     INFINITY, 32768.0 - 0x1p-38, 32768.0 - 0x1p-37, 1.0 / 60.0, 3600.0};
    double values[1024];
    int n = 0;
    for (size_t i = 0; i < sizeof base / sizeof *base; i++)
        for (int s = -1; s <= 1; s += 2) {
            values[n++] = s * base[i];
            values[n++] = nextafter(s * base[i], INFINITY);
            values[n++] = nextafter(s * base[i], -INFINITY);
        }
    values[n++] = of_bits(0x7ff8000000000000u);
    values[n++] = of_bits(0xfff8000000000001u);
    values[n++] = of_bits(0x7ff0000000000001u);
    values[n++] = of_bits(0xffffffffffffffffu);
    for (int i = 0; i < n; i++)
        for (int j = 0; j < n; j++)
            check_stamp(values[i], values[j]);
    finish("C frame stamp, limits");
}

static void stamp_random(void)
{
    for (int i = 0; i < 2000000; i++) {
        uint64_t r = next_random();
        double timestep = (double)(next_random() % 1050 + 1) / 1024.0;
        check_stamp(of_bits(r), timestep);
        check_stamp((double)(int64_t)r / 4.0e9, timestep);
        check_stamp((double)(int64_t)(r >> 20) / 4096.0 - 16384.0, of_bits(0x3f50000000000000u + next_random() % 0x00a0000000000000u));
    }
    finish("C frame stamp, random");
}

/* A sample: of any size within the limit, small whole, of a zero's sign, or tiny. */
static double some_sample(void)
{
    uint64_t r = next_random();
    switch (r >> 61) {
    case 0:
        return (double)(int64_t)(r << 3) / 0x1p30;
    case 1:
    case 2:
        return (double)(r % 9) - 4.0;
    case 3:
        return r % 2 ? 0.0 : -0.0;
    case 4:
        return of_bits(r % 8 | (r & 0x100) << 55);
    case 5:
        return r % 2 ? 0x1p33 : -0x1p33;
    default:
        return (double)(int64_t)(r << 3) / 0x1p60;
    }
}

static void fill(uint8_t *bytes, size_t count)
{
    for (size_t i = 0; i < count; i++)
        to_bytes(bytes + 8 * i, some_sample());
}

/* Values that are no samples, and those next to them that are. */
static const uint64_t edges[] = {
    0x7ff8000000000000u, 0x7ff8000000000001u, 0x7ff0000000000001u, 0xfff0000000000001u, 0xffffffffffffffffu, 0x7fffffffffffffffu,
    0x7ff0000000000000u, 0xfff0000000000000u, 0x7fefffffffffffffu, 0xffefffffffffffffu, 0x4200000000000001u, 0xc200000000000001u,
    0x4200000000000000u, 0xc200000000000000u, 0x41ffffffffffffffu, 0xc1ffffffffffffffu, 0x0000000000000000u, 0x8000000000000000u,
    0x0000000000000001u, 0x8000000000000001u};
#define EDGES (sizeof edges / sizeof *edges)

/* Needed and rate at and next to their limits, with as many bytes as are to be stored and up to 9 fewer or more. */
static void mean_limits(void)
{
    static const uint32_t needs[] = {0, 1, 2, 3, 16, 31, 32, 33, 64, 65535, 0x20000001, 0x7fffffff, 0xffffffff};
    double rates[] = {0.0, -0.0, 1.0, 0.5, 0.0625, 0x1p-1074, nextafter(0.0, -1.0), nextafter(1.0, 2.0), nextafter(1.0, 0.0),
                      nextafter(0.0625, 1.0), nextafter(0.0625, 0.0), 2.0, -1.0, INFINITY, -INFINITY, of_bits(0x7ff8000000000000u),
                      of_bits(0xfff8000000000001u), of_bits(0x7ff0000000000001u)};
    static const size_t rooms[] = {0, 1, 7, 8, 9, 16, 32};
    uint8_t bytes[8 * 64 + 16];
    for (size_t i = 0; i < sizeof needs / sizeof *needs; i++)
        for (size_t j = 0; j < sizeof rates / sizeof *rates; j++) {
            int passes = needs[i] >= 1 && needs[i] <= 32 && rates[j] >= 0.0 && rates[j] <= 1.0;
            int whole = passes ? (int)(8 * to_store(needs[i], rates[j])) : 24;
            for (int length = 0; length <= whole + 9; length += length < whole - 9 ? 1 + whole / 8 : 1)
                for (size_t k = 0; k < sizeof rooms / sizeof *rooms; k++) {
                    fill(bytes, sizeof bytes / 8);
                    check_mean(needs[i], rates[j], bytes, (size_t)length, rooms[k]);
                }
        }
    finish("C mean of samples, limits of needed, rate and lengths");
    for (uint32_t needed = 1; needed <= 32; needed++)
        for (int rate = 0; rate <= 4; rate++) {
            size_t count = to_store(needed, rate / 4.0);
            for (size_t at = 0; at < count; at++)
                for (size_t e = 0; e < EDGES; e++) {
                    fill(bytes, count);
                    for (int b = 0; b < 8; b++)
                        bytes[8 * at + b] = (uint8_t)(edges[e] >> (8 * b));
                    check_mean(needed, rate / 4.0, bytes, 8 * count, 8);
                }
        }
    finish("C mean of samples, a sample at the limits in every place");
}

static void mean_random(void)
{
    uint8_t bytes[8 * 64];
    for (int i = 0; i < 400000; i++) {
        uint32_t needed = (uint32_t)(next_random() % 32 + 1);
        double rate = (double)(next_random() >> 11) / 0x1p53;
        if (next_random() % 4 == 0)
            rate = (double)(next_random() % 33) / 32.0;
        size_t count = to_store(needed, rate);
        fill(bytes, count);
        check_mean(needed, rate, bytes, 8 * count, 8);
    }
    finish("C mean of samples, random");
}

/* Spans and rates at their limits and next to them, and film rates, each with each. */
static void span_limits(void)
{
    static const uint64_t spans[] = {0, 1, 15, 16, 999999, 1000000, 1000001, 1000999999, 1001000000, 1001000001, 3600000000u, 65534999999u,
                                     65535000000u, 1036800000000u, 1099511627775u, 1099511627776u, 1099511627777u, UINT64_MAX / 65535,
                                     UINT64_MAX / 2, UINT64_MAX};
    static const uint32_t parts[] = {0, 1, 2, 24, 25, 999, 1000, 1001, 24000, 30000, 60000, 65534, 65535, 65536, 131072, 0x7fffffff,
                                     0xffffffff};
    for (size_t i = 0; i < sizeof spans / sizeof *spans; i++)
        for (size_t j = 0; j < sizeof parts / sizeof *parts; j++)
            for (size_t k = 0; k < sizeof parts / sizeof *parts; k++)
                check_span(spans[i], parts[j], parts[k]);
    finish("C frames of a span, limits");
}

/* Random spans and rates; and the first span that has some number of frames, with its neighbours. */
static void span_random(void)
{
    for (int i = 0; i < 500000; i++) {
        uint64_t r = next_random();
        uint32_t p = (uint32_t)(next_random() % 65535 + 1), q = (uint32_t)(next_random() % 65535 + 1);
        check_span(r >> (r & 63), p, q);
        check_span(r >> 24, (uint32_t)(r % 65537), q);
        uint64_t frames = r % ((uint64_t)1099511 * p / q + 1), first = (frames * q * 1000000 + p - 1) / p;
        for (uint64_t d = 0; d < 3; d++)
            check_span(first + d - 1, p, q);
    }
    finish("C frames of a span, random");
}

int main(void)
{
    orders();
    stamp_limits();
    stamp_random();
    mean_limits();
    mean_random();
    span_limits();
    span_random();
    return failed;
}
