//! The replay machine.

use crate::causality::scratch_words;
use crate::log::{accept, breakpoint, number, refuse_if, Log};
use crate::restore::write_plan;
use crate::units::{loaded, units};

/// The plan words as cuts and starts, with the positions, of one log.
struct Machine<'a> {
    log: &'a Log<'a>,
    plan: &'a [u32],
    positions: &'a mut [u32],
}

impl Machine<'_> {
    fn cut(&self, worker: usize) -> u32 {
        self.plan[3 * worker]
    }

    fn start(&self, worker: usize) -> u32 {
        self.plan[3 * worker + 1]
    }

    /// 16: whether some worker is without start ≤ position ≤ cut ≤ count.
    fn is_disordered(&self) -> bool {
        self.log.workers.iter().enumerate().any(|(w, worker)| {
            self.start(w) > self.positions[w]
                || self.positions[w] > self.cut(w)
                || self.cut(w) > worker.count()
        })
    }

    /// One step: 0, 12, 21, 22 or 23.
    fn step(&mut self, worker: u32) -> u32 {
        let w = worker as usize;
        if w >= self.log.size() {
            return 12;
        }
        if self.positions[w] >= self.cut(w) {
            return 21;
        }
        let event = self.log.workers[w].event(self.positions[w] + 1);
        if event.kind == 2 && event.send > self.positions[event.other()] {
            return 22;
        }
        if event.is_lost(|sender| self.start(sender)) {
            return 23;
        }
        self.positions[w] += 1;
        0
    }
}

/// One step of a worker.
pub fn step(log: &[u8], plan: &[u32], positions: &mut [u32], worker: u32) -> u32 {
    try_step(log, plan, positions, worker).unwrap_or_else(|number| number)
}

fn try_step(log: &[u8], plan: &[u32], positions: &mut [u32], worker: u32) -> Result<u32, u32> {
    let log = accept(log)?;
    let n = log.size();
    refuse_if(worker as usize >= n, 12)?;
    refuse_if(plan.len() < 3 * n || positions.len() < n, 14)?;
    let mut machine = Machine {
        log: &log,
        plan,
        positions,
    };
    refuse_if(machine.is_disordered(), 16)?;
    Ok(machine.step(worker))
}

/// A step for each number of `workers`: the answers of the steps, and the positions after the last.
pub fn steps(
    log: &[u8],
    plan: &[u32],
    positions: &mut [u32],
    workers: &[u32],
    answers: &mut [u32],
) -> u32 {
    number(try_steps(log, plan, positions, workers, answers))
}

fn try_steps(
    log: &[u8],
    plan: &[u32],
    positions: &mut [u32],
    workers: &[u32],
    answers: &mut [u32],
) -> Result<(), u32> {
    let log = accept(log)?;
    let n = log.size();
    refuse_if(
        plan.len() < 3 * n || positions.len() < n || answers.len() < workers.len(),
        14,
    )?;
    let mut machine = Machine {
        log: &log,
        plan,
        positions,
    };
    refuse_if(machine.is_disordered(), 16)?;
    for (answer, &worker) in answers.iter_mut().zip(workers) {
        *answer = machine.step(worker);
    }
    Ok(())
}

/// The plan of a breakpoint, to 3 × n words and four totals, and a step for each number of `workers` from its starts: for each step
/// its answer and the n positions after it, to `steps`; the positions after the last, to `positions`. The units are by the table.
#[allow(clippy::too_many_arguments)]
pub fn restore_and_replay(
    log: &[u8],
    worker: u32,
    event: u32,
    workers: &[u32],
    table: &[u32],
    words: &mut [u32],
    scratch: &mut [u32],
    positions: &mut [u32],
    steps: &mut [u32],
    totals: &mut [u64],
) -> u32 {
    number(try_restore_and_replay(
        log,
        (worker, event),
        (workers, table),
        (words, totals),
        scratch,
        positions,
        steps,
    ))
}

fn try_restore_and_replay(
    log: &[u8],
    (worker, event): (u32, u32),
    (workers, table): (&[u32], &[u32]),
    (words, totals): (&mut [u32], &mut [u64]),
    scratch: &[u32],
    positions: &mut [u32],
    steps: &mut [u32],
) -> Result<(), u32> {
    let (log, i) = breakpoint(log, worker, event)?;
    let n = log.size();
    let stepped = workers.len() as u128 * (n as u128 + 1);
    refuse_if(words.len() < 3 * n || totals.len() < 4, 14)?;
    refuse_if(positions.len() < n || (steps.len() as u128) < stepped, 14)?;
    refuse_if(scratch.len() < scratch_words(n), 15)?;
    let table = loaded(table)?;
    write_plan(&log, i, event, words, totals);
    totals[2] = units(&log, &table, words);
    for (w, position) in positions[..n].iter_mut().enumerate() {
        *position = words[3 * w + 1];
    }
    let mut machine = Machine {
        log: &log,
        plan: words,
        positions,
    };
    for (row, &worker) in steps.chunks_exact_mut(n + 1).zip(workers) {
        row[0] = machine.step(worker);
        row[1..].copy_from_slice(&machine.positions[..n]);
    }
    Ok(())
}
