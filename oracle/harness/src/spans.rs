//! Request 1 of 02, written from its text: it is in no part of the Rust client.

/// "a span of 0 to 2^40 microseconds"
const SPAN_MAX: u64 = 1 << 40;

/// "a rate p over q frames a second, each 1 to 65,535"
fn rate_part_passes(part: u64) -> bool {
    (1..=65_535).contains(&part)
}

/// "return whole frames and the remainder r", or "31, a span or rate part out of range, the only check".
pub fn frames_of_span(span: u64, p: u64, q: u64) -> Result<(u128, u128), u32> {
    if span > SPAN_MAX || !rate_part_passes(p) || !rate_part_passes(q) {
        return Err(31);
    }
    let (span, p, q) = (u128::from(span), u128::from(p), u128::from(q));
    let frames = span * p / (q * 1_000_000);
    let r = span * p % (q * 1_000_000);
    // "Span x p = frames x q x 1,000,000 + r, and r is below q x 1,000,000."
    assert!(span * p == frames * q * 1_000_000 + r && r < q * 1_000_000);
    Ok((frames, r))
}
