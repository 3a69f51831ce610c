//! The content of a log, and its bytes in one layout or another.

use crate::random::Random;
use reference::Log;

/// The most events of a worker.
pub const MAX_EVENTS: u32 = 65_535;

pub use reference::{scratch_words, MAX_LOG, MAX_WORKERS};

/// The words of a plan of the most workers.
pub const PLAN_WORDS: usize = 3 * MAX_WORKERS;

/// The words of a unit table.
pub const TABLE_WORDS: usize = 12;

/// The top bit of an identifier word, which in form 2 marks a withdrawn checkpoint.
pub const MARK: u32 = 1 << 31;

/// An event.
#[derive(Clone, Copy, Debug, PartialEq, Eq)]
pub struct Event {
    /// 1, 2 or 3.
    pub kind: u8,
    /// The other worker.
    pub peer: u8,
    /// The index of the send that a receive names, else 0.
    pub send: u32,
    /// The Lamport clock value.
    pub stamp: u32,
}

impl Event {
    /// A send.
    pub fn send(to: usize, stamp: u32) -> Event {
        Event {
            kind: 1,
            peer: to as u8,
            send: 0,
            stamp,
        }
    }

    /// A receive of kind 2 or 3 that names send `send` of worker `from`.
    pub fn receive(kind: u8, from: usize, send: u32, stamp: u32) -> Event {
        Event {
            kind,
            peer: from as u8,
            send,
            stamp,
        }
    }

    /// The event's record.
    pub fn bytes(&self) -> [u8; 12] {
        let mut bytes = [0; 12];
        bytes[0] = self.kind;
        bytes[1] = self.peer;
        bytes[4..8].copy_from_slice(&self.send.to_le_bytes());
        bytes[8..].copy_from_slice(&self.stamp.to_le_bytes());
        bytes
    }
}

/// A worker.
#[derive(Clone, Debug, Default, PartialEq, Eq)]
pub struct Worker {
    /// 0 to 3.
    pub role: u32,
    /// The events, in order.
    pub events: Vec<Event>,
    /// The checkpoints in order: index and identifier word.
    pub checkpoints: Vec<(u32, u32)>,
}

impl Worker {
    fn event_bytes(&self) -> Vec<u8> {
        self.events.iter().flat_map(Event::bytes).collect()
    }

    fn checkpoint_bytes(&self) -> Vec<u8> {
        self.checkpoints
            .iter()
            .flat_map(|&(index, identifier)| [index.to_le_bytes(), identifier.to_le_bytes()])
            .flatten()
            .collect()
    }
}

/// The index of each worker's checkpoint with an identifier, where every worker has one; for 0 the initial states are meant.
pub fn checkpoint_set(workers: &[Worker], identifier: u32) -> Option<Vec<u32>> {
    if identifier == 0 {
        return Some(vec![0; workers.len()]);
    }
    let index = |worker: &Worker| {
        let checkpoint = worker.checkpoints.iter().find(|c| c.1 == identifier);
        checkpoint.map(|c| c.0)
    };
    workers.iter().map(index).collect()
}

/// A log's content.
#[derive(Clone, Debug, Default, PartialEq, Eq)]
pub struct Description {
    /// The workers, in order.
    pub workers: Vec<Worker>,
}

/// Writes a log's form.
pub fn set_form(log: &mut [u8], form: u16) {
    log[0..2].copy_from_slice(&form.to_le_bytes());
}

/// Writes a 32-bit number at a place of the log.
pub fn put(log: &mut [u8], at: usize, number: u32) {
    log[at..at + 4].copy_from_slice(&number.to_le_bytes());
}

/// The 32-bit number at a place of the log.
pub fn get(log: &[u8], at: usize) -> u32 {
    u32::from_le_bytes([log[at], log[at + 1], log[at + 2], log[at + 3]])
}

/// The worker count in the header of a log; 0 where the log is too short to have one.
pub fn worker_count(log: &[u8]) -> usize {
    match log {
        [_, _, low, high, ..] => usize::from(u16::from_le_bytes([*low, *high])),
        _ => 0,
    }
}

/// As many scratch words as a lower cut or a plan of a log needs, all 7.
pub fn scratch(log: &[u8]) -> Vec<u32> {
    vec![7; scratch_words(worker_count(log).min(MAX_WORKERS))]
}

/// The length of the packed log of an accepted log.
pub fn packed_length(log: &Log) -> usize {
    let sections = log
        .workers
        .iter()
        .map(|worker| 12 * worker.count() as usize + 8 * worker.checkpoints().len());
    8 + 20 * log.size() + sections.sum::<usize>()
}

/// The length of the interval log of an accepted log.
pub fn interval_length(log: &Log) -> usize {
    let sections = log.workers.iter().map(|worker| {
        let events = worker.events(0, worker.count());
        let kept = worker.checkpoints().filter(|c| !c.withdrawn);
        12 * events.filter(|e| e.is_receive()).count() + 8 * kept.count()
    });
    8 + 20 * log.size() + sections.sum::<usize>()
}

/// The form of an interval log.
pub const INTERVAL_FORM: u16 = 3;

impl Description {
    /// The content of an accepted log.
    pub fn of(log: &Log) -> Description {
        let event = |event: reference::Event| Event {
            kind: event.kind,
            peer: event.peer,
            send: event.send,
            stamp: event.stamp,
        };
        let worker = |worker: &reference::Worker| Worker {
            role: worker.role,
            events: worker.events(0, worker.count()).map(event).collect(),
            checkpoints: worker
                .checkpoints()
                .map(|c| (c.index, c.identifier + MARK * u32::from(c.withdrawn)))
                .collect(),
        };
        Description {
            workers: log.workers.iter().map(worker).collect(),
        }
    }

    /// The tube log of document 01.
    pub fn tube() -> Description {
        let worker = |role, events: &[Event], index| Worker {
            role,
            events: events.to_vec(),
            checkpoints: vec![(index, 1)],
        };
        Description {
            workers: vec![
                worker(
                    3,
                    &[
                        Event::receive(2, 2, 1, 2),
                        Event::receive(2, 1, 3, 5),
                        Event::send(1, 6),
                    ],
                    1,
                ),
                worker(
                    1,
                    &[
                        Event::send(2, 1),
                        Event::receive(2, 2, 2, 3),
                        Event::send(0, 4),
                        Event::receive(2, 0, 3, 7),
                    ],
                    1,
                ),
                worker(
                    0,
                    &[
                        Event::send(0, 1),
                        Event::send(1, 2),
                        Event::receive(2, 1, 1, 3),
                    ],
                    2,
                ),
            ],
        }
    }

    /// The number of events of all workers.
    pub fn events(&self) -> usize {
        self.workers.iter().map(|w| w.events.len()).sum()
    }

    /// How many receives name a send that another receive has named. A log without any may have form 2.
    pub fn repeats(&self) -> usize {
        let events = self.workers.iter().flat_map(|w| &w.events);
        let mut named: Vec<(u8, u32)> = events
            .filter(|event| event.kind != 1)
            .map(|event| (event.peer, event.send))
            .collect();
        let receives = named.len();
        named.sort_unstable();
        named.dedup();
        receives - named.len()
    }

    /// Marks some checkpoints as withdrawn, for form 2.
    pub fn withdraw_some(&mut self, random: &mut Random) {
        let share = random.pick(&[100, 500, 900, 1_000]);
        for (_, identifier) in self.workers.iter_mut().flat_map(|w| &mut w.checkpoints) {
            if random.chance(share) {
                *identifier |= MARK;
            }
        }
    }

    /// Gives the last checkpoints of each worker identifiers with the top bit, for form 1.
    pub fn enlarge_identifiers(&mut self, random: &mut Random) {
        for worker in &mut self.workers {
            let first = random.within(0, worker.checkpoints.len());
            for (_, identifier) in &mut worker.checkpoints[first..] {
                *identifier |= MARK;
            }
        }
    }

    /// The content without the checkpoints that are withdrawn in form 2.
    pub fn without_withdrawn(&self) -> Description {
        let mut description = self.clone();
        for worker in &mut description.workers {
            worker.checkpoints.retain(|&(_, word)| word < MARK);
        }
        description
    }

    /// The places of a worker's receives among its events, from 0.
    pub fn receives(&self, worker: usize) -> Vec<usize> {
        let events = &self.workers[worker].events;
        (0..events.len())
            .filter(|&at| events[at].kind != 1)
            .collect()
    }

    /// Makes the event at place `to` of a worker a receive of the send that the one at place `from` names, with the stamp that it has.
    /// It has to be no send that is received, and its stamp above that of the send.
    pub fn repeat(&mut self, worker: usize, from: usize, to: usize) {
        let events = &mut self.workers[worker].events;
        let Event { peer, send, .. } = events[from];
        let Event { kind, stamp, .. } = events[to];
        events[to] = Event::receive(kind.max(2), peer.into(), send, stamp);
    }

    /// The content of the interval log of a log of this form: the receives, each naming the receives of its sender before the send, and
    /// the checkpoints that are not withdrawn, each with the receives up to it.
    pub fn converted(&self, form: u16) -> Description {
        let receives: Vec<Vec<usize>> = (0..self.workers.len()).map(|w| self.receives(w)).collect();
        let convert = |(worker, own): (&Worker, &Vec<usize>)| Worker {
            role: worker.role,
            events: own
                .iter()
                .map(|&at| {
                    let Event { peer, send, .. } = worker.events[at];
                    let send = interval(&receives[usize::from(peer)], send - 1);
                    Event {
                        send,
                        ..worker.events[at]
                    }
                })
                .collect(),
            checkpoints: worker
                .checkpoints
                .iter()
                .filter(|&&(_, word)| !is_withdrawn(form, word))
                .map(|&(index, word)| (interval(own, index), word))
                .collect(),
        };
        Description {
            workers: self.workers.iter().zip(&receives).map(convert).collect(),
        }
    }

    /// Whether two checkpoints of a worker fall into one interval in a log of this form, so that 28 refuses it: two that follow each other,
    /// withdrawn ones left out, have no receive between them.
    pub fn is_crowded(&self, form: u16) -> bool {
        self.workers.iter().any(|worker| {
            let kept = worker.checkpoints.iter();
            let kept = kept.filter(|&&(_, word)| !is_withdrawn(form, word));
            let indices: Vec<usize> = kept.map(|&(index, _)| index as usize).collect();
            let mut pairs = indices.windows(2);
            pairs.any(|two| worker.events[two[0]..two[1]].iter().all(|e| e.kind == 1))
        })
    }

    /// The content with the first checkpoint of each interval, and with all that are withdrawn in a log of this form: 28 does not refuse
    /// it.
    pub fn without_crowded(&self, form: u16) -> Description {
        let mut description = self.clone();
        for (w, worker) in description.workers.iter_mut().enumerate() {
            let receives = self.receives(w);
            let mut free = 0;
            worker.checkpoints.retain(|&(index, word)| {
                if is_withdrawn(form, word) {
                    return true;
                }
                let own = interval(&receives, index);
                let is_first = own >= free;
                free = own + 1;
                is_first
            });
        }
        description
    }

    fn header_length(&self) -> usize {
        8 + 20 * self.workers.len()
    }

    fn start(&self, form: u16) -> Vec<u8> {
        let mut log = vec![0; self.header_length()];
        set_form(&mut log, form);
        log[2..4].copy_from_slice(&(self.workers.len() as u16).to_le_bytes());
        for (w, worker) in self.workers.iter().enumerate() {
            put(&mut log, 8 + 20 * w, worker.events.len() as u32);
            put(&mut log, 16 + 20 * w, worker.checkpoints.len() as u32);
            put(&mut log, 24 + 20 * w, worker.role);
        }
        log
    }

    fn finish(mut log: Vec<u8>) -> Vec<u8> {
        let length = log.len() as u32;
        put(&mut log, 4, length);
        log
    }

    /// The log of form 1 with each worker's events and then its checkpoints, in worker order, without gaps.
    pub fn pack(&self) -> Vec<u8> {
        self.pack_as(1)
    }

    /// The log of a form, packed.
    pub fn pack_as(&self, form: u16) -> Vec<u8> {
        let mut log = self.start(form);
        for (w, worker) in self.workers.iter().enumerate() {
            let offset = log.len() as u32;
            put(&mut log, 12 + 20 * w, offset);
            log.extend(worker.event_bytes());
            let offset = log.len() as u32;
            put(&mut log, 20 + 20 * w, offset);
            log.extend(worker.checkpoint_bytes());
        }
        Description::finish(log)
    }

    /// The log of form 1 with the sections of [`Description::pack`] in the opposite order, each behind a gap of 5 bytes.
    pub fn reversed(&self) -> Vec<u8> {
        let mut log = self.start(1);
        for (w, worker) in self.workers.iter().enumerate().rev() {
            for (field, bytes) in [
                (20 + 20 * w, worker.checkpoint_bytes()),
                (12 + 20 * w, worker.event_bytes()),
            ] {
                log.extend([0xff; 5]);
                let offset = log.len() as u32;
                put(&mut log, field, offset);
                log.extend(bytes);
            }
        }
        Description::finish(log)
    }

    /// The log of a form with its sections in any order, with gaps of any bytes, and sharing bytes where a section's bytes are there
    /// already.
    pub fn lay_out(&self, form: u16, random: &mut Random) -> Vec<u8> {
        let mut log = self.start(form);
        let header = log.len();
        let mut sections: Vec<(usize, Vec<u8>)> = Vec::new();
        for (w, worker) in self.workers.iter().enumerate() {
            sections.push((12 + 20 * w, worker.event_bytes()));
            sections.push((20 + 20 * w, worker.checkpoint_bytes()));
        }
        random.shuffle(&mut sections);
        let gaps = random.chance(500);
        for (field, bytes) in sections {
            if gaps && random.chance(500) {
                let gap = random.within(1, 40);
                log.extend(random.bytes(gap));
            }
            let there = if bytes.is_empty() {
                Some(random.within(header, log.len()))
            } else if random.chance(800) {
                find(&log, header, &bytes)
            } else {
                None
            };
            let offset = there.unwrap_or(log.len());
            if there.is_none() {
                log.extend(&bytes);
            }
            put(&mut log, field, offset as u32);
        }
        Description::finish(log)
    }
}

/// The interval of a worker after its first `index` events, given the places of its receives: how many of them are among these.
fn interval(receives: &[usize], index: u32) -> u32 {
    receives.partition_point(|&at| at < index as usize) as u32
}

/// Whether a checkpoint with this identifier word is withdrawn in a log of this form.
fn is_withdrawn(form: u16, word: u32) -> bool {
    form == 2 && word >= MARK
}

/// A place at or after `from` where these bytes are.
fn find(log: &[u8], from: usize, bytes: &[u8]) -> Option<usize> {
    (from..=log.len().checked_sub(bytes.len())?).find(|&at| log[at..].starts_with(bytes))
}
