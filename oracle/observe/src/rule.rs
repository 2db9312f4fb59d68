//! The rule of a command buffer, from the paragraph "src/command.rs" of 01: entries are ordered
//! by stamp, then arrival; an insert is taken only inside the range; moving the midpoint keeps
//! exactly the entries in the new range; a drain takes those with signed difference <= 0.
//! Entries are listed oldest first.

/// One waiting command with its stamp.
pub type Entry<C> = (i16, C);

/// "The accepted range around M is differences -16,383 to 16,382."
pub fn in_range(stamp: i16, midpoint: i16) -> bool {
    (-16_383..=16_382).contains(&stamp.wrapping_sub(midpoint))
}

/// The entries after an insert, and whether the buffer took the command.
pub fn inserted<C: Clone>(
    entries: &[Entry<C>],
    midpoint: i16,
    stamp: i16,
    command: &C,
) -> (Vec<Entry<C>>, bool) {
    let mut after = entries.to_vec();
    if !in_range(stamp, midpoint) {
        return (after, false);
    }
    let place = after
        .iter()
        .position(|(other, _)| other.wrapping_sub(midpoint) > stamp.wrapping_sub(midpoint))
        .unwrap_or(after.len());
    after.insert(place, (stamp, command.clone()));
    (after, true)
}

/// The entries kept and those dropped when the midpoint moves.
pub fn moved<C: Clone>(entries: &[Entry<C>], midpoint: i16) -> (Vec<Entry<C>>, Vec<Entry<C>>) {
    entries
        .iter()
        .cloned()
        .partition(|(stamp, _)| in_range(*stamp, midpoint))
}

/// The entries taken by a drain up to `newest`, and those left in the buffer.
pub fn drained<C: Clone>(entries: &[Entry<C>], newest: i16) -> (Vec<Entry<C>>, Vec<Entry<C>>) {
    entries
        .iter()
        .cloned()
        .partition(|(stamp, _)| stamp.wrapping_sub(newest) <= 0)
}
