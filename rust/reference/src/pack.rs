//! The packed log (document 02, note 2).

use crate::log::{accept, number, refuse_if, Log, MAX_LOG};

/// The packed log to the first bytes of `out`, and its length to the first word of `written`.
pub fn pack(log: &[u8], out: &mut [u8], written: &mut [u64]) -> u32 {
    number(try_pack(log, out, written))
}

fn try_pack(log: &[u8], out: &mut [u8], written: &mut [u64]) -> Result<(), u32> {
    let log = accept(log)?;
    let length = header_length(&log) + sections_length(&log);
    refuse_room(length, out, written)?;
    write_packed(&log, &mut out[..length]);
    written[0] = length as u64;
    Ok(())
}

/// Refuses what is lent for a log of this length to be written.
pub(crate) fn refuse_room(length: usize, out: &[u8], written: &[u64]) -> Result<(), u32> {
    refuse_if(length > MAX_LOG, 26)?;
    refuse_if(out.len() < length, 25)?;
    refuse_if(written.is_empty(), 14)
}

/// The length of a log's header, in bytes.
pub(crate) fn header_length(log: &Log) -> usize {
    8 + 20 * log.size()
}

/// The bytes of all events and checkpoints, those of each worker counted for itself.
fn sections_length(log: &Log) -> usize {
    log.workers
        .iter()
        .map(|worker| size_of_val(worker.events) + size_of_val(worker.checkpoints))
        .sum()
}

/// Writes the packed log to all bytes of `out`.
fn write_packed(log: &Log, out: &mut [u8]) {
    let length = out.len() as u32;
    let (header, mut rest) = out.split_at_mut(header_length(log));
    let (start, entries) = header.split_at_mut(8);
    put_start(start, log.form.number, log.size(), length);
    for (worker, entry) in log.workers.iter().zip(entries.as_chunks_mut::<20>().0) {
        let events = worker.events.as_flattened();
        let checkpoints = worker.checkpoints.as_flattened();
        let event_offset = length - rest.len() as u32;
        let numbers = [
            worker.count(),
            event_offset,
            worker.checkpoints.len() as u32,
            event_offset + events.len() as u32,
            worker.role,
        ];
        put_entry(entry, numbers);
        rest = put(put(rest, events), checkpoints);
    }
}

/// Writes the first 8 bytes of a log: form, worker count, length.
pub(crate) fn put_start(start: &mut [u8], form: u16, size: usize, length: u32) {
    start[..2].copy_from_slice(&form.to_le_bytes());
    start[2..4].copy_from_slice(&(size as u16).to_le_bytes());
    start[4..].copy_from_slice(&length.to_le_bytes());
}

/// Writes the five numbers of a worker's entry.
pub(crate) fn put_entry(entry: &mut [u8; 20], numbers: [u32; 5]) {
    for (field, number) in entry.as_chunks_mut::<4>().0.iter_mut().zip(numbers) {
        *field = number.to_le_bytes();
    }
}

/// Copies a section to the first of these bytes; gives the others.
pub(crate) fn put<'a>(bytes: &'a mut [u8], section: &[u8]) -> &'a mut [u8] {
    let (to, others) = bytes.split_at_mut(section.len());
    to.copy_from_slice(section);
    others
}
