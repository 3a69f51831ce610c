//! Dependency vectors, the lower cut, the upper line and the cut test.

use crate::log::{accept, breakpoint, number, refuse_if, Log};

/// The dependency vector of an event, to n words.
pub fn vector(log: &[u8], worker: u32, event: u32, words: &mut [u32]) -> u32 {
    number(try_vector(log, worker, event, words))
}

fn try_vector(log: &[u8], worker: u32, event: u32, words: &mut [u32]) -> Result<(), u32> {
    let (log, i) = breakpoint(log, worker, event)?;
    let n = log.size();
    refuse_if(words.len() < n, 14)?;
    let row = &mut words[..n];
    row.fill(0);
    extend(&log, i, 0, event, row);
    row[i] = event;
    Ok(())
}

/// Brings a worker's row of largest named sends from event `from` to event `to`.
fn extend(log: &Log, worker: usize, from: u32, to: u32, row: &mut [u32]) {
    for event in log.workers[worker].events(from, to) {
        if event.is_receive() {
            let component = &mut row[event.other()];
            *component = event.send.max(*component);
        }
    }
}

/// The visits of Figure 2: for each worker the cut, and the row of the largest sends that its events up to the cut name. A row
/// grows with the worker's cut, so each event is read once.
struct Figure2<'a> {
    log: &'a Log<'a>,
    cut: Vec<u32>,
    read: Vec<u32>,
    rows: Vec<u32>,
    visits: u64,
}

impl Figure2<'_> {
    /// A visit to event `event` of worker `worker`. It leads only to smaller stamps, so never to another event of a worker that is
    /// being visited: the depth is at most n, and the row stays as it is while its components are gone through.
    fn visit(&mut self, worker: usize, event: u32) {
        let n = self.log.size();
        self.visits += 1;
        let row = worker * n..(worker + 1) * n;
        extend(
            self.log,
            worker,
            self.read[worker],
            event,
            &mut self.rows[row.clone()],
        );
        self.read[worker] = event;
        for peer in 0..n {
            let component = self.rows[row.start + peer];
            if component > self.cut[peer] {
                self.cut[peer] = component;
                self.visit(peer, component);
            }
        }
    }
}

/// The lower cut of a breakpoint event and the number of visits.
pub(crate) fn figure2(log: &Log, i: usize, event: u32) -> (Vec<u32>, u64) {
    let n = log.size();
    let mut state = Figure2 {
        log,
        cut: vec![0; n],
        read: vec![0; n],
        rows: vec![0; n * n],
        visits: 0,
    };
    state.cut[i] = event;
    state.visit(i, event);
    (state.cut, state.visits)
}

/// Bit w is set exactly when cut w is above 0.
pub(crate) fn workers_word(cut: &[u32]) -> u64 {
    cut.iter()
        .enumerate()
        .map(|(w, &c)| u64::from(c > 0) << w)
        .sum()
}

/// The scratch words that a lower cut or a plan of a log of n workers needs: 2 × n, or one where n is 1.
pub fn scratch_words(n: usize) -> usize {
    if n == 1 {
        1
    } else {
        2 * n
    }
}

/// The lower cut of a breakpoint, to n words; visits and workers word, to two totals.
pub fn lower_cut(
    log: &[u8],
    worker: u32,
    event: u32,
    words: &mut [u32],
    scratch: &mut [u32],
    totals: &mut [u64],
) -> u32 {
    number(try_lower_cut(log, worker, event, words, scratch, totals))
}

fn try_lower_cut(
    log: &[u8],
    worker: u32,
    event: u32,
    words: &mut [u32],
    scratch: &mut [u32],
    totals: &mut [u64],
) -> Result<(), u32> {
    let (log, i) = breakpoint(log, worker, event)?;
    let n = log.size();
    refuse_if(words.len() < n || totals.len() < 2, 14)?;
    refuse_if(scratch.len() < scratch_words(n), 15)?;
    let (cut, visits) = figure2(&log, i, event);
    words[..n].copy_from_slice(&cut);
    totals[0] = visits;
    totals[1] = workers_word(&cut);
    Ok(())
}

/// For each worker how many events are known to lie before the line, and whether the next one is known to lie behind it.
struct Line<'a> {
    log: &'a Log<'a>,
    passed: Vec<u32>,
    stopped: Vec<bool>,
}

impl Line<'_> {
    /// Passes the events of `worker` up to `target` that the breakpoint event did not happen before. Where a receive names a send
    /// that hasn't been looked at, the sender is brought up to it first.
    fn pass(&mut self, worker: usize, target: u32) {
        let mut waiting = vec![(worker, target)];
        while let Some(&(w, target)) = waiting.last() {
            if self.stopped[w] || self.passed[w] >= target {
                waiting.pop();
                continue;
            }
            let event = self.log.workers[w].event(self.passed[w] + 1);
            let sender = event.other();
            if !event.is_receive() || event.send <= self.passed[sender] {
                self.passed[w] += 1;
            } else if self.stopped[sender] {
                self.stopped[w] = true;
            } else {
                waiting.push((sender, event.send));
            }
        }
    }
}

/// The upper line of a breakpoint, to n words.
pub fn upper_line(log: &[u8], worker: u32, event: u32, words: &mut [u32]) -> u32 {
    number(try_upper_line(log, worker, event, words))
}

fn try_upper_line(log: &[u8], worker: u32, event: u32, words: &mut [u32]) -> Result<(), u32> {
    let (log, i) = breakpoint(log, worker, event)?;
    let n = log.size();
    refuse_if(words.len() < n, 14)?;
    let mut line = Line {
        log: &log,
        passed: vec![0; n],
        stopped: vec![false; n],
    };
    // The breakpoint event itself counts as behind the line here, so that a receive of it stops.
    line.passed[i] = event - 1;
    line.stopped[i] = true;
    for w in 0..n {
        line.pass(w, log.workers[w].count());
    }
    line.passed[i] = event;
    words[..n].copy_from_slice(&line.passed);
    Ok(())
}

/// 1 or 0 to the first word of `yes`: whether n words are a consistent cut.
pub fn cut_test(log: &[u8], words: &[u32], yes: &mut [u32]) -> u32 {
    number(try_cut_test(log, words, yes))
}

fn try_cut_test(log: &[u8], words: &[u32], yes: &mut [u32]) -> Result<(), u32> {
    let log = accept(log)?;
    let n = log.size();
    refuse_if(words.len() < n || yes.is_empty(), 14)?;
    let cut = &words[..n];
    let workers = || log.workers.iter().zip(cut);
    refuse_if(workers().any(|(worker, &c)| c > worker.count()), 16)?;
    let consistent = workers().all(|(worker, &c)| {
        worker
            .events(0, c)
            .all(|event| !event.is_receive() || event.send <= cut[event.other()])
    });
    yes[0] = u32::from(consistent);
    Ok(())
}
