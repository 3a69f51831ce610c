//! Damaged logs.

use crate::description::{get, put, set_form, MAX_WORKERS};
use crate::random::Random;

/// The log with one to three faults, or what were meant to be faults.
pub fn damaged(log: &[u8], random: &mut Random) -> Vec<u8> {
    let mut log = log.to_vec();
    for _ in 0..random.pick(&[1, 1, 1, 2, 3]) {
        match random.below(13) {
            0 => flip(&mut log, random),
            1 => edit_start(&mut log, random),
            2 => edit_entry(&mut log, random),
            3 => resize(&mut log, random),
            4 => edit_checkpoint(&mut log, random),
            5 => swap_events(&mut log, random),
            6 => change_form(&mut log, random),
            7 | 8 => repeat_receive(&mut log, random),
            _ => edit_event(&mut log, random),
        }
    }
    log
}

/// Bytes that were never a log, some of them with a start that is as it should be.
pub fn garbage(random: &mut Random) -> Vec<u8> {
    let length = random.pick(&[0, 1, 7, 8, 9, 27, 28, 29, 48, 100, 500, 2_000]);
    let mut log = random.bytes(length);
    if length >= 8 && random.chance(800) {
        set_form(&mut log, random.pick(&[1, 2]));
        let n = random.within(0, 5) as u8;
        log[2..4].copy_from_slice(&[n, 0]);
        put(&mut log, 4, length as u32);
        let entries = length.saturating_sub(8) / 20;
        for entry in (0..entries.min(usize::from(n))).map(|w| 8 + 20 * w) {
            if random.chance(700) {
                put(&mut log, entry, random.below(5) as u32);
                put(&mut log, entry + 4, random.below(length + 2) as u32);
                put(&mut log, entry + 8, random.below(5) as u32);
                put(&mut log, entry + 12, random.below(length + 2) as u32);
                put(&mut log, entry + 16, random.below(4) as u32);
            }
        }
    }
    log
}

fn flip(log: &mut [u8], random: &mut Random) {
    if !log.is_empty() {
        let at = random.below(log.len());
        log[at] ^= 1 << random.below(8);
    }
}

/// Form, worker count or length field.
fn edit_start(log: &mut [u8], random: &mut Random) {
    if log.len() < 8 {
        return;
    }
    let number = random.pick(&[0, 1, 2, 3, MAX_WORKERS, MAX_WORKERS + 1, 256, 257, 65_535]) as u16;
    match random.below(4) {
        0 => set_form(log, number),
        1 | 2 => log[2..4].copy_from_slice(&number.to_le_bytes()),
        _ => {
            let length = get(log, 4);
            let other = random.pick(&[length.wrapping_add(1), length.wrapping_sub(1), 0, u32::MAX]);
            put(log, 4, other);
        }
    }
}

/// Another form, most often one that there is.
fn change_form(log: &mut [u8], random: &mut Random) {
    if log.len() >= 2 {
        set_form(log, random.pick(&[1, 1, 2, 2, 2, 2, 3, 0x101, 0x201]));
    }
}

/// The place of any worker's entry that lies in the log.
fn any_entry(log: &[u8], random: &mut Random) -> Option<usize> {
    let n = usize::from(*log.get(2)?).min(MAX_WORKERS);
    let entries = (log.len().checked_sub(8)? / 20).min(n);
    (entries > 0).then(|| 8 + 20 * random.below(entries))
}

/// The place of any record that lies in the log, and its index.
fn any_record(
    log: &[u8],
    random: &mut Random,
    count_field: usize,
    size: usize,
) -> Option<(usize, usize)> {
    let entry = any_entry(log, random)?;
    record_of(log, random, entry + count_field, size)
}

/// The place of any record that lies in the log, of the section whose count is at this place, and its index.
fn record_of(
    log: &[u8],
    random: &mut Random,
    count_field: usize,
    size: usize,
) -> Option<(usize, usize)> {
    let count = get(log, count_field) as usize;
    let offset = get(log, count_field + 4) as usize;
    if count == 0 || count > 65_535 {
        return None;
    }
    let index = random.below(count);
    let at = offset + size * index;
    (at + size <= log.len()).then_some((at, index))
}

fn edit_entry(log: &mut [u8], random: &mut Random) {
    let Some(entry) = any_entry(log, random) else {
        return;
    };
    let field = entry + 4 * random.below(5);
    let before = get(log, field);
    let length = log.len() as u32;
    let number = random.pick(&[
        0,
        1,
        3,
        4,
        before.wrapping_add(1),
        before.wrapping_sub(1),
        before.wrapping_add(12),
        8 + 20 * u32::from(log[2]),
        7 + 20 * u32::from(log[2]),
        length,
        length + 1,
        1_024,
        1_025,
        65_535,
        65_536,
        u32::MAX,
        u32::MAX - 11,
    ]);
    put(log, field, number);
}

/// A shorter or longer log, with its length field set or left.
fn resize(log: &mut Vec<u8>, random: &mut Random) {
    let length = match random.below(4) {
        0 => random.below(log.len() + 1),
        1 => log.len().saturating_sub(random.within(1, 12)),
        2 => log.len() + random.within(1, 12),
        _ => random.below(12),
    };
    log.resize(length, 0);
    if length >= 8 && random.chance(700) {
        put(log, 4, length as u32);
    }
}

fn edit_checkpoint(log: &mut [u8], random: &mut Random) {
    let Some((at, _)) = any_record(log, random, 8, 8) else {
        return;
    };
    let field = at + random.pick(&[0, 4]);
    let before = get(log, field);
    let number = random.pick(&[
        0,
        1,
        before.wrapping_add(1),
        before.wrapping_sub(1),
        before.wrapping_add(5),
        65_536,
        u32::MAX,
    ]);
    put(log, field, number);
}

fn swap_events(log: &mut [u8], random: &mut Random) {
    let Some((a, _)) = any_record(log, random, 0, 12) else {
        return;
    };
    let Some((b, _)) = any_record(log, random, 0, 12) else {
        return;
    };
    if a.abs_diff(b) >= 12 {
        for k in 0..12 {
            log.swap(a + k, b + k);
        }
    }
}

/// Makes an event of a worker a receive of the send that another one of its events names. Its stamp and most often its kind stay.
fn repeat_receive(log: &mut [u8], random: &mut Random) {
    let Some(entry) = any_entry(log, random) else {
        return;
    };
    for _ in 0..10 {
        let from = record_of(log, random, entry, 12);
        let to = record_of(log, random, entry, 12);
        let (Some((from, _)), Some((to, _))) = (from, to) else {
            return;
        };
        if from != to && log[from] != 1 {
            log[to] = random.pick(&[log[to].max(2), 2, 3]);
            log.copy_within(from + 1..from + 8, to + 1);
            return;
        }
    }
}

fn edit_event(log: &mut [u8], random: &mut Random) {
    let Some((at, index)) = any_record(log, random, 0, 12) else {
        return;
    };
    match random.below(8) {
        0 => log[at] = random.pick(&[0, 1, 2, 3, 4, 255]),
        1 => log[at + 1] = random.pick(&[0, 1, 2, 3, log[2], log[2].wrapping_sub(1), 255]),
        2 => log[at + random.pick(&[2, 3])] = random.pick(&[1, 128]),
        3 | 4 => {
            let before = get(log, at + 4);
            let near = before.wrapping_add(random.below(6) as u32);
            let number = random.pick(&[
                0,
                1,
                2,
                near,
                before.wrapping_add(1),
                before.wrapping_sub(1),
                65_535,
                u32::MAX,
            ]);
            put(log, at + 4, number);
        }
        _ => {
            let before = get(log, at + 8);
            let previous = if index > 0 && at >= 12 {
                get(log, at - 4)
            } else {
                0
            };
            let number = random.pick(&[
                0,
                previous,
                previous.wrapping_add(1),
                before.wrapping_sub(1),
                before.wrapping_sub(2),
                before.wrapping_add(1),
                u32::MAX,
            ]);
            put(log, at + 8, number);
        }
    }
}
