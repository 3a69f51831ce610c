//! The plan and covering sets.

use crate::causality::{figure2, scratch_words, workers_word};
use crate::log::{accept, breakpoint, number, refuse_if, Checkpoint, Log};
use crate::units::{loaded, units};

/// The starts of the latest startable choice.
///
/// At first each worker has its latest checkpoint within the cut. A replayed receive that is lost puts its sender's start back below
/// the send, which opens more events of the sender, whose receives may be lost, until no worker is left to look at.
fn starts(log: &Log, cut: &[u32]) -> Vec<Checkpoint> {
    let n = log.size();
    let mut starts: Vec<Checkpoint> = (0..n).map(|w| log.workers[w].latest(cut[w])).collect();
    let mut opened = cut.to_vec();
    let mut waiting: Vec<usize> = (0..n).collect();
    let mut is_waiting = vec![true; n];
    while let Some(w) = waiting.pop() {
        is_waiting[w] = false;
        let start = starts[w].index;
        for event in log.workers[w].events(start, opened[w]) {
            if event.is_lost(|sender| starts[sender].index) {
                let sender = event.other();
                starts[sender] = log.workers[sender].latest(event.send - 1);
                if !is_waiting[sender] {
                    is_waiting[sender] = true;
                    waiting.push(sender);
                }
            }
        }
        opened[w] = start;
    }
    starts
}

/// The plan of a breakpoint, to 3 × n words; visits, events, units by the table and workers word, to four totals.
pub fn plan(
    log: &[u8],
    worker: u32,
    event: u32,
    table: &[u32],
    words: &mut [u32],
    scratch: &mut [u32],
    totals: &mut [u64],
) -> u32 {
    number(try_plan(log, worker, event, table, words, scratch, totals))
}

fn try_plan(
    log: &[u8],
    worker: u32,
    event: u32,
    table: &[u32],
    words: &mut [u32],
    scratch: &mut [u32],
    totals: &mut [u64],
) -> Result<(), u32> {
    let (log, i) = breakpoint(log, worker, event)?;
    let n = log.size();
    refuse_if(words.len() < 3 * n || totals.len() < 4, 14)?;
    refuse_if(scratch.len() < scratch_words(n), 15)?;
    let table = loaded(table)?;
    write_plan(&log, i, event, words, totals);
    totals[2] = units(&log, &table, words);
    Ok(())
}

/// Writes the plan of event `event` of worker `i` and its totals but for the units.
pub(crate) fn write_plan(log: &Log, i: usize, event: u32, words: &mut [u32], totals: &mut [u64]) {
    let (cut, visits) = figure2(log, i, event);
    let starts = starts(log, &cut);
    let mut events = 0;
    for (w, start) in starts.iter().enumerate() {
        words[3 * w] = cut[w];
        words[3 * w + 1] = start.index;
        words[3 * w + 2] = start.identifier;
        events += u64::from(cut[w] - start.index);
    }
    totals[0] = visits;
    totals[1] = events;
    totals[3] = workers_word(&cut);
}

/// 1 or 0 to the first word of `yes`: whether the identifier covers.
pub fn covers(log: &[u8], identifier: u32, yes: &mut [u32]) -> u32 {
    number(try_covers(log, identifier, yes))
}

fn try_covers(log: &[u8], identifier: u32, yes: &mut [u32]) -> Result<(), u32> {
    let log = accept(log)?;
    refuse_if(yes.is_empty(), 14)?;
    yes[0] = u32::from(is_covering(&log, identifier));
    Ok(())
}

/// Whether every worker has a checkpoint with the identifier, none of them withdrawn, and no receive after its worker's one is lost from
/// them. For 0 the initial states are meant.
fn is_covering(log: &Log, identifier: u32) -> bool {
    let set: Option<Vec<u32>> = log
        .workers
        .iter()
        .map(|worker| worker.index_of(identifier))
        .collect();
    let Some(set) = set else {
        return false;
    };
    log.workers.iter().zip(&set).all(|(worker, &index)| {
        worker
            .events(index, worker.count())
            .all(|event| !event.is_lost(|sender| set[sender]))
    })
}
