//! The calls of both sides, the exported functions and the reference, and what they give for the same arguments.

use crate::compare::{event, length, table, worker, State, MOST_BYTES};
use crate::description::{
    interval_length, packed_length, scratch, worker_count, MARK, MAX_LOG, MAX_WORKERS, TABLE_WORDS,
};
use crate::random::Random;
use reference::{Log, BUILT_IN};
use restore_planner::calls;

/// A call that writes a line of n words for an event.
pub type Line = fn(&[u8], u32, u32, &mut [u32]) -> u32;
/// The lower cut.
pub type LowerCut = fn(&[u8], u32, u32, &mut [u32], &mut [u32], &mut [u64]) -> u32;
/// The loading of a unit table.
pub type LoadTable = fn(&[u32]) -> u32;
/// The built-in table.
pub type BuiltInTable = fn(&mut [u32]) -> u32;
/// The plan, with a unit table.
pub type Plan = fn(&[u8], u32, u32, &[u32], &mut [u32], &mut [u32], &mut [u64]) -> u32;
/// The cut test.
pub type CutTest = fn(&[u8], &[u32], &mut [u32]) -> u32;
/// The covering test.
pub type Covers = fn(&[u8], u32, &mut [u32]) -> u32;
/// One step.
pub type Step = fn(&[u8], &[u32], &mut [u32], u32) -> u32;
/// A list of steps.
pub type Steps = fn(&[u8], &[u32], &mut [u32], &[u32], &mut [u32]) -> u32;
/// A plan with a list of steps, and with a unit table.
pub type RestoreAndReplay = fn(
    &[u8],
    u32,
    u32,
    &[u32],
    &[u32],
    &mut [u32],
    &mut [u32],
    &mut [u32],
    &mut [u32],
    &mut [u64],
) -> u32;

/// A call that writes a log: its packing, or its conversion to an interval log.
pub type Write = fn(&[u8], &mut [u8], &mut [u64]) -> u32;

/// The calls of one side.
#[derive(Clone, Copy, Debug)]
#[allow(missing_docs)]
pub struct Calls {
    pub log_refusal: fn(&[u8]) -> u32,
    pub vector: Line,
    pub upper_line: Line,
    pub lower_cut: LowerCut,
    pub load_table: LoadTable,
    pub built_in_table: BuiltInTable,
    pub plan: Plan,
    pub cut_test: CutTest,
    pub covers: Covers,
    pub step: Step,
    pub steps: Steps,
    pub restore_and_replay: RestoreAndReplay,
    pub pack: Write,
    pub intervals: Write,
}

/// The exported functions.
pub const EXPORTED: Calls = Calls {
    log_refusal: calls::log_refusal,
    vector: calls::vector,
    upper_line: calls::upper_line,
    lower_cut: calls::lower_cut,
    load_table: calls::load_table,
    built_in_table: calls::built_in_table,
    plan: calls::plan,
    cut_test: calls::cut_test,
    covers: calls::covers,
    step: calls::step,
    steps: calls::steps,
    restore_and_replay: calls::restore_and_replay,
    pack: calls::pack,
    intervals: calls::intervals,
};

/// The reference.
pub const REFERENCE: Calls = Calls {
    log_refusal: reference::log_refusal,
    vector: reference::vector,
    upper_line: reference::upper_line,
    lower_cut: reference::lower_cut,
    load_table: reference::load_table,
    built_in_table: reference::built_in_table,
    plan: reference::plan,
    cut_test: reference::cut_test,
    covers: reference::covers,
    step: reference::step,
    steps: reference::steps,
    restore_and_replay: reference::restore_and_replay,
    pack: reference::pack,
    intervals: reference::intervals,
};

/// Calls that do nothing.
pub const EMPTY: Calls = Calls {
    log_refusal: |_| 0,
    vector: |_, _, _, _| 0,
    upper_line: |_, _, _, _| 0,
    lower_cut: |_, _, _, _, _, _| 0,
    load_table: |_| 0,
    built_in_table: |_| 0,
    plan: |_, _, _, _, _, _, _| 0,
    cut_test: |_, _, _| 0,
    covers: |_, _, _| 0,
    step: |_, _, _, _| 0,
    steps: |_, _, _, _, _| 0,
    restore_and_replay: |_, _, _, _, _, _, _, _, _, _| 0,
    pack: |_, _, _| 0,
    intervals: |_, _, _| 0,
};

impl Calls {
    /// The words and the totals of the plan of an event, with a unit table; or the refusal.
    pub fn planned(
        &self,
        log: &[u8],
        (worker, event): (u32, u32),
        table: &[u32],
    ) -> Result<(Vec<u32>, [u64; 4]), u32> {
        let n = worker_count(log).min(MAX_WORKERS);
        let (mut words, mut scratch, mut totals) = (vec![0; 3 * n], scratch(log), [0; 4]);
        let number = (self.plan)(
            log,
            worker,
            event,
            table,
            &mut words,
            &mut scratch,
            &mut totals,
        );
        match number {
            0 => Ok((words, totals)),
            refusal => Err(refusal),
        }
    }
}

/// The names of the calls.
pub const NAMES: [&str; 14] = [
    "log_refusal",
    "vector",
    "upper_line",
    "lower_cut",
    "load_table",
    "built_in_table",
    "plan",
    "cut_test",
    "covers",
    "step",
    "steps",
    "restore_and_replay",
    "pack",
    "intervals",
];

/// What the calls on a log are given.
#[derive(Clone, Debug)]
pub struct Arguments {
    /// The breakpoint: worker and event. The worker makes the step.
    pub at: (u32, u32),
    /// The identifier that is asked for.
    pub identifier: u32,
    /// The plan and the positions of steps.
    pub state: State,
    /// The cut that is tested: the plan's.
    pub cut: Vec<u32>,
    /// The workers of a list of steps.
    pub list: Vec<u32>,
    /// The unit table.
    pub table: Vec<u32>,
    /// How many words are lent for a line, for a plan, as totals, for the steps of the list and for the built-in table. A lower cut is lent
    /// two totals fewer.
    pub lent: [usize; 5],
    /// How many bytes and words are lent for the packed log.
    pub packed: (usize, usize),
    /// How many bytes and words are lent for the interval log.
    pub converted: (usize, usize),
}

/// What a call is lent to write.
#[derive(Clone, Debug, Default)]
pub struct Lent {
    /// A line, a plan, a unit table or the answer of a test.
    pub words: Vec<u32>,
    /// Scratch.
    pub scratch: Vec<u32>,
    /// The positions of steps.
    pub positions: Vec<u32>,
    /// The answers of a list of steps, or the answers with the positions after each.
    pub steps: Vec<u32>,
    /// Totals, or the length of a log that is written.
    pub totals: Vec<u64>,
    /// A packed log or an interval log.
    pub out: Vec<u8>,
}

impl Arguments {
    /// Arguments for a log, with the built-in table and with as many words and bytes as are needed.
    pub fn new(at: (u32, u32), state: State, list: Vec<u32>, log: &Log) -> Arguments {
        let n = log.size();
        Arguments {
            at,
            identifier: 0,
            cut: state.plan.chunks(3).map(|w| w[0]).collect(),
            state,
            table: BUILT_IN.to_vec(),
            lent: [n, 3 * n, 4, list.len() * (n + 1), TABLE_WORDS],
            packed: (packed_length(log).min(MAX_LOG), 1),
            converted: (interval_length(log).min(MAX_LOG), 1),
            list,
        }
    }

    /// Arguments of any value for a log, most often such that they are not refused.
    pub fn any(random: &mut Random, log: &[u8], accepted: &Log) -> Arguments {
        let worker = worker(random, accepted);
        let event = event(random, accepted, worker);
        let any = State::any(random, accepted);
        let planned = State::planned(log, worker, event).unwrap_or(any.clone());
        let mut state = if random.chance(500) { planned } else { any };
        if random.chance(100) {
            state = state.edited(random);
        }
        // Each step of a list tests the whole log.
        let list: Vec<u32> = (0..random.below(30).min(MOST_BYTES / log.len()))
            .map(|_| random.below(accepted.size() + 1) as u32)
            .collect();
        let mut arguments = Arguments::new((worker, event), state, list, accepted);
        arguments.identifier = random.below(12) as u32 + random.pick(&[0, 0, 0, MARK]);
        arguments.table = table(random);
        for lent in &mut arguments.lent {
            *lent = length(random, *lent);
        }
        let (bytes, words) = arguments.packed;
        arguments.packed = (length(random, bytes), length(random, words));
        let (bytes, words) = arguments.converted;
        arguments.converted = (length(random, bytes), length(random, words));
        arguments
    }

    /// What a call on a log is lent: as much scratch as it needs, the positions from which steps are made, and else 7s.
    pub fn lend(&self, name: &str, log: &[u8]) -> Lent {
        let [line, plan, totals, steps, table] = self.lent;
        let of = |words: usize| Lent {
            words: vec![7; words],
            ..Lent::default()
        };
        let with_scratch = |words: usize, totals: usize| Lent {
            scratch: scratch(log),
            totals: vec![7; totals],
            ..of(words)
        };
        let with_positions = |steps: usize| Lent {
            positions: self.state.positions.clone(),
            steps: vec![7; steps],
            ..Lent::default()
        };
        let for_log = |(bytes, written): (usize, usize)| Lent {
            totals: vec![7; written],
            out: vec![7; bytes],
            ..Lent::default()
        };
        match name {
            "vector" | "upper_line" => of(line),
            "lower_cut" => with_scratch(line, totals.saturating_sub(2)),
            "built_in_table" => of(table),
            "plan" => with_scratch(plan, totals),
            "cut_test" | "covers" => of(1),
            "step" => with_positions(0),
            "steps" => with_positions(self.list.len()),
            "restore_and_replay" => Lent {
                positions: vec![7; line],
                steps: vec![7; steps],
                ..with_scratch(plan, totals)
            },
            "pack" => for_log(self.packed),
            "intervals" => for_log(self.converted),
            _ => Lent::default(),
        }
    }

    /// Makes a call with what it is lent; gives its number. This takes nothing from the heap, if the call does not.
    pub fn make(&self, name: &str, calls: &Calls, log: &[u8], to: &mut Lent) -> u32 {
        let ((worker, event), plan) = (self.at, &self.state.plan);
        let (list, table) = (&self.list, &self.table);
        let Lent {
            words,
            scratch,
            positions,
            steps,
            totals,
            out,
        } = to;
        match name {
            "log_refusal" => (calls.log_refusal)(log),
            "vector" => (calls.vector)(log, worker, event, words),
            "upper_line" => (calls.upper_line)(log, worker, event, words),
            "lower_cut" => (calls.lower_cut)(log, worker, event, words, scratch, totals),
            "load_table" => (calls.load_table)(table),
            "built_in_table" => (calls.built_in_table)(words),
            "plan" => (calls.plan)(log, worker, event, table, words, scratch, totals),
            "cut_test" => (calls.cut_test)(log, &self.cut, words),
            "covers" => (calls.covers)(log, self.identifier, words),
            "step" => (calls.step)(log, plan, positions, worker),
            "steps" => (calls.steps)(log, plan, positions, list, steps),
            "restore_and_replay" => (calls.restore_and_replay)(
                log, worker, event, list, table, words, scratch, positions, steps, totals,
            ),
            "pack" => (calls.pack)(log, out, totals),
            "intervals" => (calls.intervals)(log, out, totals),
            other => panic!("there is no call {other}"),
        }
    }

    /// What a call gives: its number, then the words, the totals and the bytes that it was lent, but for scratch.
    pub fn answer(&self, name: &str, calls: &Calls, log: &[u8]) -> Vec<u64> {
        let mut lent = self.lend(name, log);
        let number = self.make(name, calls, log, &mut lent);
        let words = [lent.words, lent.positions, lent.steps].concat();
        let words = [number].into_iter().chain(words).map(u64::from);
        let bytes = lent.out.into_iter().map(u64::from);
        words.chain(lent.totals).chain(bytes).collect()
    }
}
