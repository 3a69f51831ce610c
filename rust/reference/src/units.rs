//! Unit tables (document 02, note 7).

use crate::log::{number, refuse_if, Log};

/// The built-in table, that of document 01: role by role, and for each a send, a receive without data, a receive with data.
pub const BUILT_IN: [u32; 12] = [2, 3, 5, 2, 4, 6, 3, 8, 9, 2, 5, 7];

/// A table that loads, by role and by kind: send, receive without data, receive with data.
pub(crate) type Units = [[u64; 3]; 4];

/// The table in these words, or 27.
pub(crate) fn loaded(table: &[u32]) -> Result<Units, u32> {
    let (rows, rest) = table.as_chunks::<3>();
    let rows: [[u32; 3]; 4] = rows.try_into().map_err(|_| 27u32)?;
    refuse_if(!rest.is_empty(), 27)?;
    let outside = |word: &u32| !(1..=1_000).contains(word);
    refuse_if(rows.as_flattened().iter().any(outside), 27)?;
    Ok(rows.map(|row| row.map(u64::from)))
}

/// 0 for a table that loads, else 27.
pub fn load_table(table: &[u32]) -> u32 {
    number(loaded(table).map(|_| ()))
}

/// The built-in table, to 12 words.
pub fn built_in_table(table: &mut [u32]) -> u32 {
    number(try_built_in_table(table))
}

fn try_built_in_table(table: &mut [u32]) -> Result<(), u32> {
    refuse_if(table.len() < BUILT_IN.len(), 14)?;
    table[..BUILT_IN.len()].copy_from_slice(&BUILT_IN);
    Ok(())
}

/// The units of the events that a plan replays: those after the start and within the cut of each worker.
pub(crate) fn units(log: &Log, table: &Units, words: &[u32]) -> u64 {
    let workers = log.workers.iter().zip(words.as_chunks::<3>().0);
    workers
        .map(|(worker, &[cut, start, _])| {
            let row = table[worker.role as usize];
            let kinds = worker.events(start, cut).map(|event| event.kind);
            kinds.map(|kind| row[usize::from(kind) - 1]).sum::<u64>()
        })
        .sum()
}
