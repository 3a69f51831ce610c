//! All that this crate knows of a log's layout.

/// The most bytes of a log.
pub(crate) const MOST_BYTES: usize = 4_194_304;

/// The worker count in the header of an accepted log.
pub(crate) fn worker_count(accepted: &[u8]) -> usize {
    usize::from(u16::from_le_bytes([accepted[2], accepted[3]]))
}
