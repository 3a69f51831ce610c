//! The interval log (document 02, note 9). Interval k of a worker is its state after k of its receives.

use crate::log::{accept, number, refuse_if, Log, Worker};
use crate::pack::{header_length, put, put_entry, put_start, refuse_room};

/// The form of an interval log.
const FORM: u16 = 3;

/// The interval log to the first bytes of `out`, and its length to the first word of `written`.
pub fn intervals(log: &[u8], out: &mut [u8], written: &mut [u64]) -> u32 {
    number(try_intervals(log, out, written))
}

fn try_intervals(log: &[u8], out: &mut [u8], written: &mut [u64]) -> Result<(), u32> {
    let log = accept(log)?;
    let counted: Vec<Vec<u32>> = log.workers.iter().map(receives_up_to).collect();
    let workers = log.workers.iter().zip(&counted);
    let kept: Vec<Vec<[u32; 2]>> = workers
        .map(|(worker, own)| in_intervals(worker, own))
        .collect();
    refuse_if(kept.iter().any(|checkpoints| is_crowded(checkpoints)), 28)?;
    let sections = counted.iter().zip(&kept);
    let sections = sections.map(|(own, kept)| 12 * receives(own) as usize + 8 * kept.len());
    let length = header_length(&log) + sections.sum::<usize>();
    refuse_room(length, out, written)?;
    write_intervals(&log, &counted, &kept, &mut out[..length]);
    written[0] = length as u64;
    Ok(())
}

/// How many receives are among the first 0, 1, 2 and so on events of a worker.
fn receives_up_to(worker: &Worker) -> Vec<u32> {
    let mut counted = Vec::with_capacity(worker.events.len() + 1);
    let mut receives = 0;
    counted.push(receives);
    counted.extend(worker.events.iter().map(|record| {
        receives += u32::from(record[0] != 1);
        receives
    }));
    counted
}

/// The receives of a worker.
fn receives(counted: &[u32]) -> u32 {
    counted[counted.len() - 1]
}

/// The interval and the identifier of each checkpoint of a worker that is not withdrawn.
fn in_intervals(worker: &Worker, counted: &[u32]) -> Vec<[u32; 2]> {
    worker
        .checkpoints()
        .filter(|checkpoint| !checkpoint.withdrawn)
        .map(|checkpoint| [counted[checkpoint.index as usize], checkpoint.identifier])
        .collect()
}

/// Whether two of these checkpoints of a worker fall into one interval: there are fewer intervals than checkpoints.
fn is_crowded(checkpoints: &[[u32; 2]]) -> bool {
    let mut intervals: Vec<u32> = checkpoints.iter().map(|&[interval, _]| interval).collect();
    intervals.sort_unstable();
    intervals.dedup();
    intervals.len() < checkpoints.len()
}

/// Writes the interval log to all bytes of `out`.
fn write_intervals(log: &Log, counted: &[Vec<u32>], kept: &[Vec<[u32; 2]>], out: &mut [u8]) {
    let length = out.len() as u32;
    let (header, mut rest) = out.split_at_mut(header_length(log));
    let (start, entries) = header.split_at_mut(8);
    put_start(start, FORM, log.size(), length);
    let entries = entries.as_chunks_mut::<20>().0.iter_mut();
    for (((worker, entry), own), kept) in log.workers.iter().zip(entries).zip(counted).zip(kept) {
        let offset = length - rest.len() as u32;
        let behind = offset + 12 * receives(own);
        let numbers = [
            receives(own),
            offset,
            kept.len() as u32,
            behind,
            worker.role,
        ];
        put_entry(entry, numbers);
        let (events, others) = rest.split_at_mut(12 * receives(own) as usize);
        write_receives(worker, counted, events.as_chunks_mut().0);
        let records = kept
            .as_flattened()
            .iter()
            .flat_map(|word| word.to_le_bytes());
        rest = put(others, &records.collect::<Vec<u8>>());
    }
}

/// Writes the receives of a worker: each names the receives that its sender has before the send.
fn write_receives(worker: &Worker, counted: &[Vec<u32>], out: &mut [[u8; 12]]) {
    let records = worker.events.iter().filter(|record| record[0] != 1);
    for (record, to) in records.zip(out) {
        *to = *record;
        let [_, peer, _, _, send @ .., _, _, _, _] = *record;
        let before = u32::from_le_bytes(send) as usize - 1;
        to[4..8].copy_from_slice(&counted[usize::from(peer)][before].to_le_bytes());
    }
}
