//! The floor under every start (document 02, note 4), in the exported calls: for every identifier that covers and whose checkpoints are all
//! at or below the lower cut, the plan starts no worker before that set's checkpoint. The checkpoints are those of the content that a log
//! was made from.

use evidence::description::{checkpoint_set, scratch, Description, Worker, MAX_WORKERS};
use evidence::failure::{words, Call, Meaning};
use evidence::random::Random;
use evidence::runs::{any_form, run, Shape};
use evidence::sides::EXPORTED;
use reference::BUILT_IN;

/// An identifier that every worker has.
struct Set {
    identifier: u32,
    /// The index of each worker's checkpoint.
    checkpoints: Vec<u32>,
    /// What the exported call says.
    covers: bool,
    /// Whether it would cover, if only sends with index smaller than the sender's checkpoint were counted.
    covers_by_smaller: bool,
}

/// The lower cut of an event and the starts of its plan.
struct Planned {
    cut: Vec<u32>,
    starts: Vec<u32>,
}

impl Planned {
    /// Whether all checkpoints of a set are at or below the cut.
    fn has_within(&self, set: &Set) -> bool {
        (0..self.cut.len()).all(|w| set.checkpoints[w] <= self.cut[w])
    }

    /// The first worker that starts before its checkpoint of a set.
    fn first_before(&self, set: &Set) -> Option<usize> {
        (0..self.starts.len()).find(|&w| self.starts[w] < set.checkpoints[w])
    }
}

/// How often the plan of an event was seen with an identifier of each kind. Others than 0 are left out where all checkpoints have index 0.
#[derive(Debug, Default)]
struct Seen {
    events: u64,
    /// Identifier 0 covers, and all its checkpoints are at or below the cut.
    initial: u64,
    /// So it is for another identifier, and all workers start at its checkpoints.
    at: u64,
    /// So it is for another identifier, and some worker starts after its checkpoint.
    after: u64,
    /// So it is for another identifier, and some worker that has a later checkpoint at or below its cut starts at this one.
    lowered: u64,
    /// Another identifier covers and has a checkpoint above the cut, and some worker starts before its own, which is at or below its cut.
    above: u64,
    /// Another identifier covers by "smaller" alone, with all checkpoints at or below the cut, and some worker starts before its own.
    by_smaller: u64,
}

impl Seen {
    fn add(&mut self, workers: &[Worker], set: &Set, planned: &Planned) {
        let within = planned.has_within(set);
        let (cut, starts, checkpoints) = (&planned.cut, &planned.starts, &set.checkpoints);
        if set.identifier == 0 {
            self.initial += u64::from(set.covers && within);
            return;
        }
        if checkpoints.iter().all(|&index| index == 0) {
            return;
        }
        let has_later = |w: usize| {
            let mut indices = workers[w].checkpoints.iter().map(|c| c.0);
            indices.any(|index| index > starts[w] && index <= cut[w])
        };
        let mut all = 0..starts.len();
        match (set.covers, within) {
            (true, true) => {
                self.at += u64::from(starts == checkpoints);
                self.after += u64::from(starts != checkpoints);
                let lowered = all.any(|w| starts[w] == checkpoints[w] && has_later(w));
                self.lowered += u64::from(lowered);
            }
            (true, false) => {
                let before = all.any(|w| starts[w] < checkpoints[w] && checkpoints[w] <= cut[w]);
                self.above += u64::from(before);
            }
            (false, true) => {
                let before = planned.first_before(set).is_some();
                self.by_smaller += u64::from(set.covers_by_smaller && before);
            }
            (false, false) => (),
        }
    }

    /// Fails where identifier 0 was not seen with every event, or one of the other kinds at most this many times.
    fn has(&self, times: u64) {
        assert_eq!(self.initial, self.events, "{self:?}");
        let others = [
            self.at,
            self.after,
            self.lowered,
            self.above,
            self.by_smaller,
        ];
        assert!(others.iter().all(|&seen| seen > times), "{self:?}");
    }
}

/// A log and the workers that it was made from.
struct Case {
    random: Random,
    log: Vec<u8>,
    workers: Vec<Worker>,
}

impl Case {
    /// A log of at most these numbers of workers and events, in any layout. Where no send is received twice, it is of either form; some
    /// of form 2 have withdrawn checkpoints, which the workers are without.
    fn any(random: &mut Random, workers: usize, events: usize) -> Case {
        let mut description = content(random, workers, events);
        let form = any_form(&mut description, 200, random);
        Case {
            log: description.lay_out(form, random),
            workers: description.without_withdrawn().workers,
            random: random.clone(),
        }
    }

    fn call<'a>(&'a self, name: &'static str, arguments: &'a [(&'static str, u64)]) -> Call<'a> {
        Call {
            name,
            random: &self.random,
            log: &self.log,
            arguments,
        }
    }

    /// The identifiers that every worker has. Asked for are 0, all that are recorded and one that no worker has.
    fn sets(&self) -> Vec<Set> {
        let mut sets = Vec::new();
        for identifier in identifiers(&self.workers) {
            let mut yes = [9];
            let number = (EXPORTED.covers)(&self.log, identifier, &mut yes);
            let covers = yes == [1];
            let arguments = [("identifier", identifier.into())];
            let call = self.call("covers", &arguments);
            call.returned(number, 0);
            let Some(checkpoints) = checkpoint_set(&self.workers, identifier) else {
                call.holds(!covers, || {
                    "it covers, and not every worker has it".to_string()
                });
                continue;
            };
            sets.push(Set {
                identifier,
                covers,
                covers_by_smaller: covers_by_smaller(&self.workers, &checkpoints),
                checkpoints,
            });
        }
        sets
    }

    /// What the exported calls give for an event. A plan with the empty list of steps has the same words.
    fn planned(&self, (worker, event): (u32, u32)) -> Planned {
        let (log, n) = (&self.log, self.workers.len());
        let at = [("worker", worker.into()), ("event", event.into())];
        let (mut cut, mut scratch) = (vec![0; n], scratch(log));
        let number = (EXPORTED.lower_cut)(log, worker, event, &mut cut, &mut scratch, &mut [0; 2]);
        self.call("lower_cut", &at).returned(number, 0);
        let planned = EXPORTED.planned(log, (worker, event), &BUILT_IN);
        let (plan, mut totals) = self.call("plan", &at).accepted(planned);
        let mut again = vec![0; 3 * n];
        let number = (EXPORTED.restore_and_replay)(
            log,
            worker,
            event,
            &[],
            &BUILT_IN,
            &mut again,
            &mut scratch,
            &mut vec![0; n],
            &mut [],
            &mut totals,
        );
        let replay = self.call("restore_and_replay", &at);
        replay.returned(number, 0);
        let name = |index| Meaning::Plan.word("words", index);
        replay.same([words(name, &again, &plan)]);
        let starts = plan.chunks(3).map(|w| w[1]).collect();
        Planned { cut, starts }
    }

    /// Tests the plan of an event against every set.
    fn one_event(&self, sets: &[Set], (worker, event): (u32, u32), seen: &mut Seen) {
        let planned = self.planned((worker, event));
        let at = [("worker", worker.into()), ("event", event.into())];
        let plan = self.call("plan", &at);
        seen.events += 1;
        for set in sets {
            let is_floor = set.covers && planned.has_within(set);
            for (w, &index) in set.checkpoints.iter().enumerate() {
                let (start, cut) = (planned.starts[w], planned.cut[w]);
                plan.holds(!is_floor || start >= index, || {
                    let identifier = set.identifier;
                    format!("worker {w} starts at {start}, before its checkpoint {index} of set {identifier}; its cut is {cut}")
                });
            }
            seen.add(&self.workers, set, &planned);
        }
    }
}

/// 0, every identifier that is recorded, and one that no worker has.
fn identifiers(workers: &[Worker]) -> Vec<u32> {
    let checkpoints = workers.iter().flat_map(|worker| &worker.checkpoints);
    let mut all: Vec<u32> = checkpoints.map(|c| c.1).chain([0]).collect();
    all.sort_unstable();
    all.dedup();
    all.push(all[all.len() - 1] + 1);
    all
}

/// The paper's test, in which a send with the index of the sender's checkpoint is not counted.
fn covers_by_smaller(workers: &[Worker], set: &[u32]) -> bool {
    workers.iter().zip(set).all(|(worker, &own)| {
        let mut after = worker.events[own as usize..].iter();
        after.all(|event| event.kind != 2 || event.send >= set[usize::from(event.peer)])
    })
}

/// The content of a log of at most these numbers of workers and events. Half of the sets that all workers have are made to cover, some
/// of them by "smaller" alone.
fn content(random: &mut Random, workers: usize, events: usize) -> Description {
    let mut shape = Shape::any(random, workers, events);
    shape.sets = random.within(1, 5);
    shape.joined = random.pick(&[950, 1_000]);
    let mut description = run(&shape, random);
    let workers = &mut description.workers;
    if random.chance(500) {
        move_checkpoints(workers, random);
    }
    for identifier in identifiers(workers) {
        if let (true, Some(set)) = (random.chance(500), checkpoint_set(workers, identifier)) {
            make_cover(workers, &set, random.chance(700));
        }
    }
    description
}

/// Moves the checkpoints of each worker to any of its events, in order. The sets of a run are taken by all workers at one time.
fn move_checkpoints(workers: &mut [Worker], random: &mut Random) {
    for worker in workers {
        let count = worker.events.len();
        let any = worker.checkpoints.iter().map(|_| random.within(0, count));
        let mut indices: Vec<usize> = any.collect();
        indices.sort_unstable();
        for (checkpoint, index) in worker.checkpoints.iter_mut().zip(indices) {
            checkpoint.0 = index as u32;
        }
    }
}

/// Makes a set cover: logs the data of each receive after its worker's checkpoint, of a send with index smaller than the sender's
/// checkpoint, or equal to it where `with_equal`. Without those of equal index it covers by "smaller" alone.
fn make_cover(workers: &mut [Worker], set: &[u32], with_equal: bool) {
    for (worker, &own) in workers.iter_mut().zip(set) {
        for event in &mut worker.events[own as usize..] {
            let index = set[usize::from(event.peer)];
            if event.kind == 2 && (event.send < index || event.send == index && with_equal) {
                event.kind = 3;
            }
        }
    }
}

#[test]
fn every_event_of_small_logs() {
    let mut seen = Seen::default();
    for round in 0..20_000 {
        let case = Case::any(&mut Random::round(800, round), 4, 26);
        let sets = case.sets();
        for (w, worker) in case.workers.iter().enumerate() {
            for event in 1..=worker.events.len() {
                case.one_event(&sets, (w as u32, event as u32), &mut seen);
            }
        }
    }
    seen.has(1_000);
}

/// Events in the later half of a worker's: more sets are within their cuts.
#[test]
fn late_events_of_larger_logs() {
    let mut seen = Seen::default();
    for round in 0..400 {
        let mut random = Random::round(900, round);
        let case = Case::any(&mut random, MAX_WORKERS, 2_500);
        let sets = case.sets();
        for _ in 0..40 {
            let w = random.below(case.workers.len());
            let count = case.workers[w].events.len();
            if count > 0 {
                let event = random.within(count.div_ceil(2), count) as u32;
                case.one_event(&sets, (w as u32, event), &mut seen);
            }
        }
    }
    seen.has(100);
}

/// Set 1 of the tube log would cover by "smaller": the sends 2/2 and 1/1 that are received after its checkpoints are their senders' last
/// events before them. It is within the cut of 0/2, and the plan starts worker 2 before its checkpoint.
#[test]
fn sends_smaller_than_the_checkpoint_give_no_floor() {
    for form in [1, 2] {
        let tube = Description::tube();
        let case = Case {
            random: Random::new(0),
            log: tube.pack_as(form),
            workers: tube.workers,
        };
        let sets = case.sets();
        let set = &sets[1];
        assert_eq!((set.identifier, &set.checkpoints[..]), (1, &[1, 1, 2][..]));
        assert_eq!((set.covers_by_smaller, set.covers), (true, false));
        let planned = case.planned((0, 2));
        assert_eq!(planned.cut, [2, 3, 2]);
        assert_eq!(planned.starts, [1, 1, 0]);
        assert!(planned.has_within(set));
        assert_eq!(planned.first_before(set), Some(2));
    }
}
