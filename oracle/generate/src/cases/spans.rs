//! Request 1 of 02: each call with its answer worked out by hand.

use crate::text::{span_line, Out};

const TWO_40: u64 = 1 << 40;
const HOUR: u64 = 3_600_000_000;
const TWELVE_DAYS: u64 = 12 * 24 * HOUR;

fn worked(out: &mut Out, by_hand: &str, span: u64, p: u64, q: u64) {
    out.comment(by_hand);
    out.call(&span_line(span, p, q));
}

/// Film rates over long spans, and a span of exactly 60,000 frames with its neighbours.
fn film(out: &mut Out) {
    worked(out, "0 x 60,000 = 0: 0 frames, 0 left", 0, 60_000, 1_001);
    worked(
        out,
        "an hour: 3,600,000,000 x 60,000 = 216,000,000 x 10^6; 215,784 x 1,001 = 215,999,784: 215,784 frames, 216 x 10^6 left",
        HOUR,
        60_000,
        1_001,
    );
    worked(
        out,
        "12 days: 1,036,800,000,000 x 60,000 = 62,208,000,000 x 10^6; 62,145,854 x 1,001 = 62,207,999,854: \
         62,145,854 frames, 146 x 10^6 left",
        TWELVE_DAYS,
        60_000,
        1_001,
    );
    worked(
        out,
        "an hour: 3,600,000,000 x 24,000 = 86,400,000 x 10^6; 86,313 x 1,001 = 86,399,313: 86,313 frames, 687 x 10^6 left",
        HOUR,
        24_000,
        1_001,
    );
    worked(
        out,
        "12 days: 1,036,800,000,000 x 24,000 = 24,883,200,000 x 10^6; 24,858,341 x 1,001 = 24,883,199,341: \
         24,858,341 frames, 659 x 10^6 left",
        TWELVE_DAYS,
        24_000,
        1_001,
    );
    worked(
        out,
        "1,001 seconds: 1,001,000,000 x 60,000 = 60,000 x 1,001 x 10^6: 60,000 frames, 0 left",
        1_001_000_000,
        60_000,
        1_001,
    );
    worked(
        out,
        "a microsecond less, which is 60,000 less: 59,999 frames, 1,001,000,000 - 60,000 = 1,000,940,000 left",
        1_000_999_999,
        60_000,
        1_001,
    );
    worked(
        out,
        "a microsecond more: 60,000 frames, 60,000 left",
        1_001_000_001,
        60_000,
        1_001,
    );
}

/// The slowest rate, the fastest one, and the longest span under these and three others.
fn limits(out: &mut Out) {
    worked(
        out,
        "a frame takes 65,535 seconds: 1 frame, 0 left",
        65_535_000_000,
        1,
        65_535,
    );
    worked(
        out,
        "a microsecond less: 0 frames, 65,535,000,000 - 1 left, the largest remainder that there is",
        65_534_999_999,
        1,
        65_535,
    );
    worked(
        out,
        "2^40 = 1,099,511,627,776; 16 x 65,535,000,000 = 1,048,560,000,000: 16 frames, 50,951,627,776 left",
        TWO_40,
        1,
        65_535,
    );
    worked(out, "1 x 65,535: 0 frames, 65,535 left", 1, 65_535, 1);
    worked(out, "15 x 65,535: 0 frames, 983,025 left", 15, 65_535, 1);
    worked(
        out,
        "16 x 65,535 = 1,048,560: 1 frame, 48,560 left",
        16,
        65_535,
        1,
    );
    worked(
        out,
        "2^40 x 65,535 = 2^56 - 2^40 = 72,056,494,526,300,160: 72,056,494,526 frames, 300,160 left, the most frames that there are",
        TWO_40,
        65_535,
        1,
    );
    worked(
        out,
        "2^40 = 1,099,511 x 10^6 + 627,776: 1,099,511 frames, 627,776 left",
        TWO_40,
        1,
        1,
    );
    worked(
        out,
        "the same rate: 1,099,511 frames, 627,776 x 65,535 = 41,141,300,160 left",
        TWO_40,
        65_535,
        65_535,
    );
    worked(
        out,
        "the longest span: 2^40 x 60,000 = 65,970,697,666,560,000; \
         65,904,792 x 1,001,000,000 = 65,970,696,792,000,000: 65,904,792 frames, 874,560,000 left",
        TWO_40,
        60_000,
        1_001,
    );
}

/// Every way to be out of range, alone and together.
fn refused(out: &mut Out) {
    worked(out, "2^40 + 1: 31, 0 frames, 0 left", TWO_40 + 1, 60_000, 1_001);
    worked(out, "2^64 - 1: 31, 0 frames, 0 left", u64::MAX, 1, 1);
    worked(out, "p is 0: 31, 0 frames, 0 left", HOUR, 0, 1_001);
    worked(out, "p is 65,536: 31, 0 frames, 0 left", HOUR, 65_536, 1_001);
    worked(out, "q is 0: 31, 0 frames, 0 left", HOUR, 60_000, 0);
    worked(out, "q is 65,536: 31, 0 frames, 0 left", HOUR, 60_000, 65_536);
    worked(out, "p is 0, of a span of 0: 31, 0 frames, 0 left", 0, 0, 1);
    worked(out, "q is 0, of a span of 0: 31, 0 frames, 0 left", 0, 1, 0);
    worked(
        out,
        "p is 2^32 - 1, the largest number of 32 bits: 31, 0 frames, 0 left",
        HOUR,
        4_294_967_295,
        1,
    );
    worked(
        out,
        "p is 2^32 + 1 and not cut to 1: 31, 0 frames, 0 left",
        HOUR,
        4_294_967_297,
        1,
    );
    worked(
        out,
        "q is 2^32 + 1 and not cut to 1: 31, 0 frames, 0 left",
        HOUR,
        1,
        4_294_967_297,
    );
    worked(out, "all of them: 31, 0 frames, 0 left", TWO_40 + 1, 0, 65_536);
}

pub fn spans(out: &mut Out) {
    film(out);
    limits(out);
    refused(out);
}

pub fn bad_call_span(out: &mut Out) {
    out.call("span 18446744073709551615 1 1");
    out.call("span 18446744073709551616 1 1");
}
