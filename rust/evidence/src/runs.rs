//! Logs of simulated runs, and logs of a given shape.

use crate::description::{
    get, put, worker_count, Description, Event, Worker, MARK, MAX_EVENTS, MAX_LOG, MAX_WORKERS,
};
use crate::random::Random;

/// Which of the sends to its worker a receive may take.
#[derive(Clone, Copy, Debug, PartialEq, Eq)]
pub enum Taken {
    /// Any, one that was received before too.
    Repeatedly,
    /// One that was not received, nor a later one of its sender: the sends of each sender are received in their order.
    InOrder,
    /// One that was not received.
    Once,
}

/// What a simulated run is like. Shares are of 1,000.
#[derive(Clone, Debug)]
pub struct Shape {
    /// The worker count.
    pub workers: usize,
    /// The events of the whole run.
    pub events: usize,
    /// The share of receives among the events of a worker to which something was sent.
    pub receives: usize,
    /// The share of receives with their data logged.
    pub logged: usize,
    /// The share of receives that take any send that they may, an early one too; the others take a late one.
    pub any: usize,
    /// Which sends they may take.
    pub taken: Taken,
    /// The share of events after which the worker takes a checkpoint.
    pub checkpoints: usize,
    /// The checkpoint sets, which most or all workers take with one identifier.
    pub sets: usize,
    /// The share of workers that take part in a set.
    pub joined: usize,
    /// The largest step of a stamp.
    pub stamp_step: usize,
}

impl Shape {
    /// A shape of any kind with at most these numbers of workers and events.
    pub fn any(random: &mut Random, workers: usize, events: usize) -> Shape {
        let events = random.within(0, events);
        let widest = u32::MAX as usize / (events + 2);
        Shape {
            workers: random.within(1, workers),
            events,
            receives: random.pick(&[100, 300, 500, 700, 950]),
            logged: random.pick(&[0, 100, 500, 900, 1_000]),
            any: random.pick(&[0, 50, 300, 1_000]),
            taken: random.pick(&[Taken::Repeatedly, Taken::InOrder, Taken::Once]),
            checkpoints: random.pick(&[0, 20, 100, 400]),
            sets: random.within(0, 6),
            joined: random.pick(&[700, 950, 1_000]),
            stamp_step: random.pick(&[1, 1, 5, widest]),
        }
    }

    /// A shape for long runs: half receives, some sends received twice, checkpoints now and then, sets that all workers take.
    pub fn long(workers: usize, events: usize) -> Shape {
        Shape {
            workers,
            events,
            receives: 500,
            logged: 300,
            any: 50,
            taken: Taken::Repeatedly,
            checkpoints: 10,
            sets: 20,
            joined: 1_000,
            stamp_step: 3,
        }
    }

    /// A long run for form 2: no send is received twice, and those of each sender are received in their order.
    pub fn in_order(workers: usize, events: usize) -> Shape {
        Shape {
            taken: Taken::InOrder,
            ..Shape::long(workers, events)
        }
    }

    /// A long run for form 2: no send is received twice, and a receive takes any of those that were not received.
    pub fn any_order(workers: usize, events: usize) -> Shape {
        Shape {
            any: 1_000,
            taken: Taken::Once,
            ..Shape::long(workers, events)
        }
    }
}

/// The state of a run.
struct Run<'a> {
    random: &'a mut Random,
    workers: Vec<Worker>,
    stamps: Vec<u32>,
    /// For each worker the sends that it may receive.
    sent: Vec<Vec<Sent>>,
    identifier: u32,
}

/// A send: sender, index, stamp.
type Sent = (usize, u32, u32);

impl Run<'_> {
    fn checkpoint(&mut self, w: usize, identifier: u32) {
        let worker = &mut self.workers[w];
        if worker.checkpoints.len() < 1_024 {
            worker
                .checkpoints
                .push((worker.events.len() as u32, identifier));
        }
    }

    fn next_identifier(&mut self) -> u32 {
        self.identifier += self.random.within(1, 3) as u32;
        self.identifier
    }

    fn set(&mut self, joined: usize) {
        let identifier = self.next_identifier();
        for w in 0..self.workers.len() {
            if self.random.chance(joined) {
                self.checkpoint(w, identifier);
            }
        }
    }

    /// The send that a receive of a worker takes, of those that it may.
    fn take(&mut self, w: usize, shape: &Shape) -> Sent {
        let waiting = self.sent[w].len();
        let at = if self.random.chance(shape.any) {
            self.random.below(waiting)
        } else {
            waiting - 1 - self.random.below(waiting.min(4))
        };
        match shape.taken {
            Taken::Repeatedly => self.sent[w][at],
            Taken::Once => self.sent[w].swap_remove(at),
            Taken::InOrder => {
                // Some sends are passed over, for good.
                let pass_over = self.random.chance(shape.any);
                self.take_in_order(w, at, pass_over)
            }
        }
    }

    /// The send at this place of those to a worker, or the sender's first one there.
    fn take_in_order(&mut self, w: usize, at: usize, pass_over: bool) -> Sent {
        let sent = &mut self.sent[w];
        let (from, ..) = sent[at];
        let first = sent.iter().position(|&(sender, ..)| sender == from);
        let taken = sent[if pass_over { at } else { first.unwrap_or(at) }];
        sent.retain(|&(sender, index, _)| sender != from || index > taken.1);
        taken
    }

    fn event(&mut self, w: usize, shape: &Shape) {
        let step = self.random.within(1, shape.stamp_step) as u32;
        let event = if !self.sent[w].is_empty() && self.random.chance(shape.receives) {
            let (from, index, stamp) = self.take(w, shape);
            let kind = if self.random.chance(shape.logged) {
                3
            } else {
                2
            };
            Event::receive(kind, from, index, self.stamps[w].max(stamp) + step)
        } else {
            let to = (w + self.random.within(1, self.workers.len() - 1)) % self.workers.len();
            let stamp = self.stamps[w] + step;
            let index = self.workers[w].events.len() as u32 + 1;
            self.sent[to].push((w, index, stamp));
            Event::send(to, stamp)
        };
        self.stamps[w] = event.stamp;
        self.workers[w].events.push(event);
    }
}

/// The log of a simulated run. A send may be received never, and twice or in any order where the shape says so.
pub fn run(shape: &Shape, random: &mut Random) -> Description {
    let n = shape.workers;
    let roles: Vec<u32> = (0..n).map(|_| random.below(4) as u32).collect();
    let mut state = Run {
        random,
        workers: roles
            .into_iter()
            .map(|role| Worker {
                role,
                ..Worker::default()
            })
            .collect(),
        stamps: vec![0; n],
        sent: vec![Vec::new(); n],
        identifier: 0,
    };
    let events = if n < 2 { 0 } else { shape.events };
    let sets: Vec<usize> = (0..shape.sets)
        .map(|_| state.random.within(0, events))
        .collect();
    for tick in 0..=events {
        for _ in sets.iter().filter(|&&at| at == tick) {
            state.set(shape.joined);
        }
        if tick == events {
            break;
        }
        let mut w = state.random.below(n);
        while state.workers[w].events.len() == MAX_EVENTS as usize {
            w = (w + 1) % n;
        }
        state.event(w, shape);
        if state.random.chance(shape.checkpoints) {
            let identifier = state.next_identifier();
            state.checkpoint(w, identifier);
        }
    }
    Description {
        workers: state.workers,
    }
}

/// Gives some workers content that another one has, so that their sections can share bytes: checkpoints, or a row of sends.
pub fn make_alike(description: &mut Description, random: &mut Random) {
    let n = description.workers.len();
    for _ in 0..random.within(1, 3) {
        let (from, to) = (random.below(n), random.below(n));
        let checkpoints = description.workers[from].checkpoints.clone();
        let worker = &mut description.workers[to];
        let last = checkpoints.last().map_or(0, |&(index, _)| index);
        if last as usize <= worker.events.len() {
            worker.checkpoints = checkpoints;
        }
        if worker.events.is_empty() {
            let sends = description.workers[from]
                .events
                .iter()
                .copied()
                .skip(random.below(4))
                .take_while(|e| e.kind == 1 && usize::from(e.peer) != to)
                .collect();
            description.workers[to].events = sends;
        }
    }
}

/// A valid log of at most these numbers of workers and events, in any layout. Where no send is received twice, it is of either form.
/// Half of those of form 2 have withdrawn checkpoints, and some of form 1 identifiers with the top bit.
pub fn any_log(random: &mut Random, workers: usize, events: usize) -> Vec<u8> {
    let mut description = any_run(random, workers, events);
    let form = any_form(&mut description, 500, random);
    if form == 1 && random.chance(200) {
        description.enlarge_identifiers(random);
    }
    let mut log = any_layout(&description, form, random);
    if random.chance(200) {
        share_any_bytes(&mut log, random);
    }
    log
}

/// A form that a log of this content may have. In this share, of 1,000, of the cases of form 2 some checkpoints are withdrawn.
pub fn any_form(description: &mut Description, withdrawn: usize, random: &mut Random) -> u16 {
    let form = match description.repeats() {
        0 => random.pick(&[1, 2, 2]),
        _ => 1,
    };
    if form == 2 && random.chance(withdrawn) {
        description.withdraw_some(random);
    }
    form
}

/// A run of at most these numbers of workers and events.
fn any_run(random: &mut Random, workers: usize, events: usize) -> Description {
    let shape = Shape::any(random, workers, events);
    let mut description = run(&shape, random);
    if random.chance(400) {
        make_alike(&mut description, random);
    }
    description
}

fn any_layout(description: &Description, form: u16, random: &mut Random) -> Vec<u8> {
    if random.chance(300) {
        description.pack_as(form)
    } else {
        description.lay_out(form, random)
    }
}

/// A log of form 2 that only 24 refuses, of at most these numbers of workers and events, in any layout.
pub fn any_repeating_log(random: &mut Random, workers: usize, events: usize) -> Vec<u8> {
    loop {
        let mut description = any_run(random, workers, events);
        for _ in 0..random.within(1, 3) {
            repeat_any(&mut description, random);
        }
        if description.repeats() > 0 {
            return any_layout(&description, 2, random);
        }
    }
}

/// Makes a receive of any worker name the send that one before it names, where there are two.
pub fn repeat_any(description: &mut Description, random: &mut Random) {
    let worker = random.below(description.workers.len());
    let receives = description.receives(worker);
    if receives.len() > 1 {
        let to = random.within(1, receives.len() - 1);
        let from = random.below(to);
        description.repeat(worker, receives[from], receives[to]);
    }
}

/// Points an empty section at any bytes of the log that happen to be a record that may stand there: bytes of other records, of a
/// gap, and of no record's own place.
fn share_any_bytes(log: &mut [u8], random: &mut Random) {
    let n = worker_count(log);
    let w = random.below(n);
    let entry = 8 + 20 * w;
    let of_events = random.chance(500);
    let (count_field, size) = if of_events {
        (entry, 12)
    } else {
        (entry + 8, 8)
    };
    if get(log, count_field) != 0 {
        return;
    }
    let count = get(log, entry);
    let may_stand = |record: &[u8]| {
        if of_events {
            let peer = usize::from(record[1]);
            record[0] == 1 && peer < n && peer != w && record[2..8] == [0; 6] && get(record, 8) > 0
        } else {
            get(record, 0) <= count && get(record, 4) & !MARK > 0
        }
    };
    let places: Vec<usize> = (8 + 20 * n..(log.len() + 1).saturating_sub(size))
        .filter(|&at| may_stand(&log[at..at + size]))
        .collect();
    if !places.is_empty() {
        let at = random.pick(&places);
        put(log, count_field, 1);
        put(log, count_field + 4, at as u32);
    }
}

/// A log that makes Figure 2 visit 2^`levels` events below worker `levels`, with the other workers in a chain above it, so that
/// the visits are `workers` deep. The breakpoint is the last event of the last worker.
///
/// Level k is level 0, level 1, .. level k - 1, each ended by a send of its worker to worker k, and then the receives of these
/// sends by worker k. A visit to worker k goes to worker 0 first, though the later sends to it depend on later events of worker 0.
pub fn deep(workers: usize, levels: usize) -> Description {
    let mut run = InOrder {
        workers: vec![Worker::default(); workers],
        stamp: 0,
    };
    run.level(levels);
    for k in levels + 1..workers {
        run.send(k - 1, k);
        run.receive(k - 1, k);
    }
    let mut description = Description {
        workers: run.workers,
    };
    for (w, worker) in description.workers.iter_mut().enumerate() {
        worker.role = (w % 4) as u32;
    }
    take_sets(&mut description.workers, 8);
    description
}

/// A run in which each event has the next stamp.
struct InOrder {
    workers: Vec<Worker>,
    stamp: u32,
}

impl InOrder {
    fn send(&mut self, from: usize, to: usize) {
        self.stamp += 1;
        self.workers[from].events.push(Event::send(to, self.stamp));
    }

    /// Worker `to` receives the last event of worker `from`.
    fn receive(&mut self, from: usize, to: usize) {
        self.stamp += 1;
        let send = self.workers[from].events.len() as u32;
        self.workers[to]
            .events
            .push(Event::receive(2, from, send, self.stamp));
    }

    fn level(&mut self, k: usize) {
        let mut sends = Vec::new();
        for j in 0..k {
            self.level(j);
            self.send(j, k);
            sends.push((j, self.workers[j].events.len() as u32));
        }
        for (j, send) in sends {
            self.stamp += 1;
            self.workers[k]
                .events
                .push(Event::receive(2, j, send, self.stamp));
        }
    }
}

/// A log in which worker 0 receives `events` sends, one of each other worker in turn.
pub fn hub(workers: usize, events: usize) -> Description {
    let mut description = Description {
        workers: vec![Worker::default(); workers],
    };
    for k in 0..events {
        let from = 1 + k % (workers - 1);
        let stamp = 2 * k as u32;
        description.workers[from]
            .events
            .push(Event::send(0, stamp + 1));
        let send = description.workers[from].events.len() as u32;
        let kind = if k % 3 == 0 { 3 } else { 2 };
        description.workers[0]
            .events
            .push(Event::receive(kind, from, send, stamp + 2));
    }
    take_sets(&mut description.workers, 16);
    description
}

/// A log in which one message at a time goes round the workers but worker 0, from each to the next lower one and from worker 1 to
/// the last: about `events` events, a send or a receive each. At the end worker 1 sends to worker 0, whose only event is the receive.
pub fn ring(workers: usize, events: usize) -> Description {
    let mut run = InOrder {
        workers: vec![Worker::default(); workers],
        stamp: 0,
    };
    for _ in 0..events / 2 / (workers - 1) {
        run.send(1, workers - 1);
        run.receive(1, workers - 1);
        for from in (2..workers).rev() {
            run.send(from, from - 1);
            run.receive(from, from - 1);
        }
    }
    run.send(1, 0);
    run.receive(1, 0);
    take_sets(&mut run.workers, 20);
    Description {
        workers: run.workers,
    }
}

/// Checkpoints of all workers at the same `many` parts of their events, with the identifiers 1, 2, ..
fn take_sets(workers: &mut [Worker], many: u32) {
    for worker in workers {
        let count = worker.events.len() as u32;
        worker.checkpoints = (0..many).map(|k| (count * k / many, k + 1)).collect();
    }
}

/// A log of two levels of hubs with about `events` events: worker 0 receives from `hubs` workers in turn, each of which first receives
/// from the next of its share of the others.
pub fn two_level_hub(workers: usize, hubs: usize, events: usize) -> Description {
    let mut run = InOrder {
        workers: vec![Worker::default(); workers],
        stamp: 0,
    };
    let leaves = workers - 1 - hubs;
    for k in 0..events / 4 {
        let hub = 1 + k % hubs;
        let leaf = 1 + hubs + (k * hubs + k % hubs) % leaves;
        run.send(leaf, hub);
        run.receive(leaf, hub);
        run.send(hub, 0);
        run.receive(hub, 0);
    }
    take_sets(&mut run.workers, 16);
    Description {
        workers: run.workers,
    }
}

/// A log of a chain of long visits with about `events` events: each of the first `chain` workers receives from half of the others in
/// turn, each of which first receives from one of the other half, and then from the worker before it. The breakpoint is the last event
/// of the chain's last worker. Its visit goes down the chain first, so each visit of the chain finds all its senders again.
pub fn chain(workers: usize, chain: usize, events: usize) -> Description {
    let mut run = InOrder {
        workers: vec![Worker::default(); workers],
        stamp: 0,
    };
    let senders = (workers - chain) / 2;
    let rounds = events / chain / senders / 4;
    for link in 0..chain {
        for k in 0..rounds * senders {
            let sender = chain + k % senders;
            run.send(sender + senders, sender);
            run.receive(sender + senders, sender);
            run.send(sender, link);
            run.receive(sender, link);
        }
        if link > 0 {
            run.send(link - 1, link);
            run.receive(link - 1, link);
        }
    }
    take_sets(&mut run.workers, 16);
    Description {
        workers: run.workers,
    }
}

/// A log of a chain of long visits with about `events` events and nearly as many turns as there can be: each of the first `chain` workers receives
/// from the worker before it and then, again and again, one send of each of the others, each of which first receives from the last worker.
/// The breakpoint is the last event of the chain's last worker. Its visit goes down the chain first, and each visit of the chain then finds
/// all its senders again, each with a visit of its own below it.
pub fn wide_chain(workers: usize, chain: usize, events: usize) -> Description {
    let mut run = InOrder {
        workers: vec![Worker::default(); workers],
        stamp: 0,
    };
    let last = workers - 1;
    for link in 0..chain {
        if link > 0 {
            run.send(link - 1, link);
            run.receive(link - 1, link);
        }
        for sender in chain..last {
            run.send(last, sender);
            run.receive(last, sender);
            run.send(sender, link);
        }
        for k in 0..events / chain {
            run.receive(chain + k % (last - chain), link);
        }
    }
    take_sets(&mut run.workers, 16);
    Description {
        workers: run.workers,
    }
}

/// A log of this number of events in which all sends come first. Then each worker receives sends to it, no send twice, in any order.
pub fn shuffled(workers: usize, events: usize, random: &mut Random) -> Description {
    let mut description = Description {
        workers: vec![Worker::default(); workers],
    };
    let sends = events.div_ceil(2);
    let mut sent = Vec::new();
    for stamp in 1..=sends as u32 {
        let from = random.below(workers);
        let to = (from + random.within(1, workers - 1)) % workers;
        let sender = &mut description.workers[from].events;
        sender.push(Event::send(to, stamp));
        sent.push((to, from, sender.len() as u32));
    }
    random.shuffle(&mut sent);
    let stamps = sends as u32 + 1..=events as u32;
    for (stamp, (to, from, send)) in stamps.zip(sent) {
        let receive = Event::receive(random.pick(&[2, 3]), from, send, stamp);
        description.workers[to].events.push(receive);
    }
    description
}

/// Adds two sends of worker 0 to worker 1, which receives them in the other order, behind all other events.
pub fn add_falling(description: &mut Description) {
    let [sender, receiver, ..] = &mut description.workers[..] else {
        panic!("a log of two workers or more");
    };
    let last = u32::MAX;
    sender.events.push(Event::send(1, last - 3));
    sender.events.push(Event::send(1, last - 2));
    let send = sender.events.len() as u32;
    receiver.events.push(Event::receive(2, 0, send, last - 1));
    receiver.events.push(Event::receive(2, 0, send - 1, last));
}

/// A log of form 2 in which one worker has receives of these sends, worker and event each, and all others have one section: the most
/// sends, all to it.
pub fn shared_sends(workers: usize, receiver: usize, sends: &[(usize, u32)]) -> Vec<u8> {
    let mut log = Description {
        workers: vec![Worker::default(); workers],
    }
    .pack_as(2);
    let shared = log.len() as u32;
    log.extend((1..=MAX_EVENTS).flat_map(|stamp| Event::send(receiver, stamp).bytes()));
    let own = log.len() as u32;
    for (stamp, &(from, send)) in (MAX_EVENTS + 1..).zip(sends) {
        let kind = if stamp % 3 == 0 { 3 } else { 2 };
        log.extend(Event::receive(kind, from, send, stamp).bytes());
    }
    for entry in (0..workers).map(|w| 8 + 20 * w) {
        put(&mut log, entry, MAX_EVENTS);
        put(&mut log, entry + 4, shared);
    }
    put(&mut log, 8 + 20 * receiver, sends.len() as u32);
    put(&mut log, 12 + 20 * receiver, own);
    let length = log.len() as u32;
    put(&mut log, 4, length);
    log
}

/// Sends for [`shared_sends`], `many` different ones of these senders: first those given, and then others.
pub fn different_sends(
    senders: &[usize],
    first: &[(usize, u32)],
    many: usize,
) -> Vec<(usize, u32)> {
    let all = senders.len() * MAX_EVENTS as usize;
    // A prime that does not divide it, so no number comes twice.
    let numbers = (1..all).map(|k| k * 1_000_003 % all);
    let others = numbers
        .map(|at| (senders[at % senders.len()], (at / senders.len()) as u32 + 1))
        .filter(|other| !first.contains(other));
    first.iter().copied().chain(others).take(many).collect()
}

/// A log of a form whose workers have these numbers of events and of checkpoints and share the bytes of their sections: worker 0 receives
/// the first sends of worker 1, all others have the first of one row of sends to worker 0, and all have the first of one row of
/// checkpoints of index 0.
pub fn shared_sections(form: u16, workers: &[(u32, u32)]) -> Vec<u8> {
    let mut log = Description {
        workers: vec![Worker::default(); workers.len()],
    }
    .pack_as(form);
    let sends = log.len() as u32;
    let most = workers.iter().skip(1).map(|&(events, _)| events).max();
    log.extend((1..=most.unwrap_or(0)).flat_map(|stamp| Event::send(0, stamp).bytes()));
    let receives = log.len() as u32;
    for send in 1..=workers[0].0 {
        let kind = if send % 3 == 0 { 3 } else { 2 };
        log.extend(Event::receive(kind, 1, send, MAX_EVENTS + send).bytes());
    }
    let checkpoints = log.len() as u32;
    let most = workers.iter().map(|&(_, checkpoints)| checkpoints).max();
    let words = (1..=most.unwrap_or(0)).flat_map(|identifier| [0, identifier]);
    log.extend(words.flat_map(u32::to_le_bytes));
    for (w, &(events, many)) in workers.iter().enumerate() {
        let entry = 8 + 20 * w;
        put(&mut log, entry, events);
        put(&mut log, entry + 4, if w == 0 { receives } else { sends });
        put(&mut log, entry + 8, many);
        put(&mut log, entry + 12, checkpoints);
        put(&mut log, entry + 16, (w % 4) as u32);
    }
    let length = log.len() as u32;
    put(&mut log, 4, length);
    log
}

/// The numbers of events and of checkpoints of this many workers, about as many of each, that make a packed log of `length` bytes: a
/// multiple of 4 above 8,220 for each worker.
pub fn counts_of_length(workers: usize, length: usize) -> Vec<(u32, u32)> {
    // An event is 3 times 4 bytes, a checkpoint 2 times, and an entry 5 times.
    let rest = (length - 8) / 4 - 5 * workers;
    let most = 1_024 * workers;
    let checkpoints = (0..3)
        .map(|k| most - k)
        .find(|many| (rest - 2 * many).is_multiple_of(3));
    let checkpoints = checkpoints.expect("one of three numbers that follow each other");
    let events = (rest - 2 * checkpoints) / 3;
    let share = |many: usize, w: usize| ((many + w) / workers) as u32;
    (0..workers)
        .map(|w| (share(events, w), share(checkpoints, w)))
        .collect()
}

/// A log of form 1 of the most events in each worker: the first `receivers` workers receive sends of the last one, any of those to them and
/// again and again; all others have the bytes of its sends, which are to these workers in turn.
pub fn received_from_one(workers: usize, receivers: u32) -> Vec<u8> {
    let mut log = Description {
        workers: vec![Worker::default(); workers],
    }
    .pack();
    let shared = log.len() as u32;
    let to = |stamp: u32| (stamp - 1) % receivers;
    log.extend((1..=MAX_EVENTS).flat_map(|stamp| Event::send(to(stamp) as usize, stamp).bytes()));
    for receiver in 0..receivers {
        let own = log.len() as u32;
        put(&mut log, 12 + 20 * receiver as usize, own);
        let sends = MAX_EVENTS / receivers;
        log.extend((1..=MAX_EVENTS).flat_map(|k| {
            // A prime that does not divide their number, so each is named.
            let send = (u64::from(k) * 1_000_003 % u64::from(sends)) as u32;
            let kind = if k % 3 == 0 { 3 } else { 2 };
            let named = 1 + receiver + send * receivers;
            Event::receive(kind, workers - 1, named, MAX_EVENTS + k).bytes()
        }));
    }
    for w in 0..workers {
        put(&mut log, 8 + 20 * w, MAX_EVENTS);
        if w >= receivers as usize {
            put(&mut log, 12 + 20 * w, shared);
        }
    }
    let length = log.len() as u32;
    put(&mut log, 4, length);
    log
}

/// A log of form 1 of seven workers with these numbers of receives and of checkpoints: each sends once to the next one, and receives the
/// one send of the worker before it again and again. They share the bytes of 1,024 checkpoints, one after each of the first receives, so
/// that their interval log can be longer than the log.
pub fn repeated_receives(workers: &[(u32, u32); 7]) -> Vec<u8> {
    let mut description = Description {
        workers: vec![Worker::default(); 7],
    };
    for (w, &(receives, _)) in workers.iter().enumerate() {
        let events = &mut description.workers[w].events;
        events.push(Event::send((w + 1) % 7, 1));
        let kind = |k| if k % 3 == 0 { 3 } else { 2 };
        events.extend((0..receives).map(|k| Event::receive(kind(k), (w + 6) % 7, 1, k + 2)));
    }
    let mut log = description.pack();
    let checkpoints = log.len() as u32;
    let words = (1..=1_024).flat_map(|k| [k + 1, k]);
    log.extend(words.flat_map(u32::to_le_bytes));
    for (w, &(_, many)) in workers.iter().enumerate() {
        put(&mut log, 16 + 20 * w, many);
        put(&mut log, 20 + 20 * w, checkpoints);
    }
    let length = log.len() as u32;
    put(&mut log, 4, length);
    log
}

/// The numbers for [`repeated_receives`] that make an interval log of `length` bytes.
pub fn receives_of_length(length: usize) -> [(u32, u32); 7] {
    let counts = counts_of_length(7, length);
    counts.try_into().expect("seven workers")
}

/// A log of the most workers and close to 4 MiB.
pub fn widest(random: &mut Random) -> Description {
    let events = (MAX_LOG - 8 - MAX_WORKERS * (20 + 60 * 8)) / 12 - MAX_WORKERS * 30;
    let mut shape = Shape::long(MAX_WORKERS, events);
    shape.checkpoints = 5;
    run(&shape, random)
}
