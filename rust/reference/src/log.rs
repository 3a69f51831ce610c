//! The layout of a log and refusals 1 to 13 and 24.

use crate::repeats::some_send_received_twice;

/// The most bytes of a log.
pub const MAX_LOG: usize = 4_194_304;

/// The largest worker count of a log.
pub const MAX_WORKERS: usize = 64;

/// The forms of a log.
pub const FORMS: [Form; 2] = [
    Form {
        number: 1,
        repeats: true,
        mark: 0,
    },
    Form {
        number: 2,
        repeats: false,
        mark: 1 << 31,
    },
];

/// A form of a log. All have one layout.
#[derive(Clone, Copy, Debug, PartialEq, Eq)]
pub struct Form {
    /// The number in the log's first two bytes.
    pub number: u16,
    /// Whether a send may be received more than once.
    pub repeats: bool,
    /// The bit of an identifier word that marks a withdrawn checkpoint; 0 where the whole word is the identifier.
    pub mark: u32,
}

/// An event record.
#[derive(Clone, Copy, Debug, PartialEq, Eq)]
pub struct Event {
    /// 1 for a send, 2 for a receive without its data logged, 3 for a receive with its data logged.
    pub kind: u8,
    /// The other worker.
    pub peer: u8,
    /// The spare bytes.
    pub spare: u16,
    /// For a receive, the index of the send.
    pub send: u32,
    /// The Lamport clock value.
    pub stamp: u32,
}

/// A checkpoint record.
#[derive(Clone, Copy, Debug, Default, PartialEq, Eq)]
pub struct Checkpoint {
    /// The state after this many events.
    pub index: u32,
    /// The checkpoint's identifier, without the mark.
    pub identifier: u32,
    /// Whether its pages are lost: it is no start and in no covering set.
    pub withdrawn: bool,
}

/// A worker of a log: its role and its records where they lie.
#[derive(Clone, Copy, Debug)]
pub struct Worker<'a> {
    /// The role, 0 to 3.
    pub role: u32,
    form: Form,
    pub(crate) events: &'a [[u8; 12]],
    pub(crate) checkpoints: &'a [[u8; 8]],
}

/// A log that has been accepted.
#[derive(Clone, Debug)]
pub struct Log<'a> {
    /// The form.
    pub form: Form,
    /// The workers, in order.
    pub workers: Vec<Worker<'a>>,
}

fn word(bytes: &[u8], at: usize) -> u32 {
    u32::from_le_bytes([bytes[at], bytes[at + 1], bytes[at + 2], bytes[at + 3]])
}

fn half(bytes: &[u8], at: usize) -> u16 {
    u16::from_le_bytes([bytes[at], bytes[at + 1]])
}

impl Event {
    pub(crate) fn of(record: &[u8; 12]) -> Event {
        Event {
            kind: record[0],
            peer: record[1],
            spare: half(record, 2),
            send: word(record, 4),
            stamp: word(record, 8),
        }
    }

    /// Whether the event can't be replayed from starts, given by worker: a receive without its data logged, of a send at or below
    /// its sender's start, which is not made again. Any other event gets a send above every start, which is faster than a branch on
    /// the kind.
    pub(crate) fn is_lost(&self, start: impl Fn(usize) -> u32) -> bool {
        let above = u64::from(self.kind != 2) << 32;
        above | u64::from(self.send) <= u64::from(start(self.other()))
    }

    /// Whether the event is a receive of an accepted log.
    pub fn is_receive(&self) -> bool {
        self.kind != 1
    }

    /// The peer, as an index.
    pub fn other(&self) -> usize {
        usize::from(self.peer)
    }
}

impl<'a> Worker<'a> {
    /// The event count.
    pub fn count(&self) -> u32 {
        self.events.len() as u32
    }

    /// Event `index`, from 1.
    pub fn event(&self, index: u32) -> Event {
        Event::of(&self.events[index as usize - 1])
    }

    /// The events after `first` up to `last`, in order.
    pub fn events(&self, first: u32, last: u32) -> impl DoubleEndedIterator<Item = Event> + 'a {
        self.events[first as usize..last as usize]
            .iter()
            .map(Event::of)
    }

    /// The recorded checkpoints, in order.
    pub fn checkpoints(
        &self,
    ) -> impl DoubleEndedIterator<Item = Checkpoint> + ExactSizeIterator + 'a {
        let form = self.form;
        let records = self.checkpoints.iter();
        records.map(move |record| checkpoint_of(form, record))
    }

    /// The last listed checkpoint that is not withdrawn and has an index of at most `limit`; the initial state if there is none.
    pub fn latest(&self, limit: u32) -> Checkpoint {
        let after = self
            .checkpoints
            .partition_point(|record| word(record, 0) <= limit);
        let mut found = self.checkpoints().take(after).rev();
        found.find(|c| !c.withdrawn).unwrap_or_default()
    }

    /// The index of the checkpoint with this identifier, where it is not withdrawn; 0 is the initial state's.
    pub fn index_of(&self, identifier: u32) -> Option<u32> {
        if identifier == 0 {
            return Some(0);
        }
        let of = |record| checkpoint_of(self.form, record);
        let found = self
            .checkpoints
            .binary_search_by_key(&identifier, |record| of(record).identifier);
        let checkpoint = of(&self.checkpoints[found.ok()?]);
        (!checkpoint.withdrawn).then_some(checkpoint.index)
    }
}

fn checkpoint_of(form: Form, record: &[u8; 8]) -> Checkpoint {
    let identifier = word(record, 4);
    Checkpoint {
        index: word(record, 0),
        identifier: identifier & !form.mark,
        withdrawn: identifier & form.mark != 0,
    }
}

impl Log<'_> {
    /// The worker count.
    pub fn size(&self) -> usize {
        self.workers.len()
    }
}

/// The five numbers of a worker's entry.
struct Entry {
    events: usize,
    event_offset: usize,
    checkpoints: usize,
    checkpoint_offset: usize,
    role: u32,
}

fn entry(log: &[u8], worker: usize) -> Entry {
    let field = |number: usize| word(log, 8 + 20 * worker + 4 * number);
    Entry {
        events: field(0) as usize,
        event_offset: field(1) as usize,
        checkpoints: field(2) as usize,
        checkpoint_offset: field(3) as usize,
        role: field(4),
    }
}

/// Refusals 1 to 6, or the workers with their sections.
fn layout(log: &[u8]) -> Result<Log<'_>, u32> {
    if !(8..=MAX_LOG).contains(&log.len()) {
        return Err(1);
    }
    let number = half(log, 0);
    let form = FORMS.into_iter().find(|form| form.number == number);
    let form = form.ok_or(2u32)?;
    let size = usize::from(half(log, 2));
    if !(1..=MAX_WORKERS).contains(&size) {
        return Err(3);
    }
    let header = 8 + 20 * size;
    if word(log, 4) as usize != log.len() || header > log.len() {
        return Err(4);
    }
    let entries: Vec<Entry> = (0..size).map(|worker| entry(log, worker)).collect();
    if entries
        .iter()
        .any(|e| e.events > 65_535 || e.checkpoints > 1_024 || e.role > 3)
    {
        return Err(5);
    }
    let section = |offset: usize, bytes: usize| {
        if offset < header {
            return Err(6u32);
        }
        log.get(offset..offset + bytes).ok_or(6u32)
    };
    let workers = entries
        .iter()
        .map(|e| {
            Ok(Worker {
                role: e.role,
                form,
                events: section(e.event_offset, 12 * e.events)?.as_chunks().0,
                checkpoints: section(e.checkpoint_offset, 8 * e.checkpoints)?
                    .as_chunks()
                    .0,
            })
        })
        .collect::<Result<_, u32>>()?;
    Ok(Log { form, workers })
}

/// The events of each worker that are tested in turn: what a receive names was sent shortly before it and is still in the cache.
const BLOCK: usize = 128;

/// Whether some event of the log has a fault of 7 to 10.
fn some_event_faulty(log: &Log) -> bool {
    let longest = log.workers.iter().map(|w| w.events.len()).max();
    (0..longest.unwrap_or(0))
        .step_by(BLOCK)
        .any(|first| (0..log.size()).any(|w| block_faulty(log, w, first)))
}

/// Whether an event of worker `w` in the block after its first `first` events has one. The receives are noted without a branch on the
/// kind, which is random in a run, and then compared with the sends that they name.
fn block_faulty(log: &Log, w: usize, first: usize) -> bool {
    let events = log.workers[w].events;
    let Some(rest) = events.get(first..) else {
        return false;
    };
    let block = &rest[..rest.len().min(BLOCK)];
    let size = log.size();
    let mut previous = first.checked_sub(1).map_or(0, |k| word(&events[k], 8));
    let mut receives = [0; BLOCK];
    let mut count = 0;
    for (at, record) in block.iter().enumerate() {
        let event = Event::of(record);
        let receive = usize::from(event.kind >> 1);
        if event.spare != 0
            || !(1..=3).contains(&event.kind)
            || event.other() == w
            || event.other() >= size
            || usize::from(event.send != 0) != receive
            || event.stamp <= previous
        {
            return true;
        }
        receives[count] = at;
        count += receive;
        previous = event.stamp;
    }
    receives[..count].iter().any(|&at| {
        let event = Event::of(&block[at]);
        let sender = &log.workers[event.other()];
        if event.send > sender.count() {
            return true;
        }
        let send = sender.event(event.send);
        send.kind != 1 || send.other() != w || event.stamp <= send.stamp
    })
}

/// The first of 7 to 11 and 24 that applies; 0 if none does.
fn content(log: &Log) -> u32 {
    let faulty = |w: &Worker| {
        let mut previous = Checkpoint::default();
        w.checkpoints().any(|checkpoint| {
            let fault = checkpoint.index > w.count()
                || checkpoint.index < previous.index
                || checkpoint.identifier <= previous.identifier;
            previous = checkpoint;
            fault
        })
    };
    if some_event_faulty(log) {
        lowest_of_events(log)
    } else if log.workers.iter().any(faulty) {
        11
    } else if !log.form.repeats && some_send_received_twice(log) {
        24
    } else {
        0
    }
}

/// The smallest of 7 to 10 that some event of the log has, one of which some event has.
fn lowest_of_events(log: &Log) -> u32 {
    let size = log.size();
    let mut lowest = u32::MAX;
    for (w, worker) in log.workers.iter().enumerate() {
        let mut previous = 0;
        for record in worker.events {
            let event = Event::of(record);
            let peer = event.other();
            if event.spare != 0 || peer == w || peer >= size {
                return 7;
            }
            match event.kind {
                1 => {
                    if event.send != 0 {
                        return 7;
                    }
                }
                2 | 3 => {
                    let sender = &log.workers[peer];
                    if event.send == 0 || event.send > sender.count() {
                        return 7;
                    }
                    let send = sender.event(event.send);
                    if send.kind != 1 || usize::from(send.peer) != w {
                        lowest = lowest.min(9);
                    } else if event.stamp <= send.stamp {
                        lowest = lowest.min(10);
                    }
                }
                _ => return 7,
            }
            if event.stamp <= previous {
                lowest = lowest.min(8);
            }
            previous = event.stamp;
        }
    }
    lowest
}

/// The log, or its refusal: 1 to 11 or 24.
pub fn accept(log: &[u8]) -> Result<Log<'_>, u32> {
    let accepted = layout(log)?;
    match content(&accepted) {
        0 => Ok(accepted),
        number => Err(number),
    }
}

/// 0 for an accepted log, else 1 to 11 or 24.
pub fn log_refusal(log: &[u8]) -> u32 {
    accept(log).err().unwrap_or(0)
}

/// The number of a call's result: 0 or its refusal.
pub(crate) fn number(result: Result<(), u32>) -> u32 {
    result.err().unwrap_or(0)
}

/// Refuses by `number` where the condition holds.
pub(crate) fn refuse_if(condition: bool, number: u32) -> Result<(), u32> {
    if condition {
        Err(number)
    } else {
        Ok(())
    }
}

/// The refusals of a log, then 12 and 13, of a call that is given a log, a worker and an event; or the log and the worker.
pub(crate) fn breakpoint(log: &[u8], worker: u32, event: u32) -> Result<(Log<'_>, usize), u32> {
    let log = accept(log)?;
    let i = worker as usize;
    refuse_if(i >= log.size(), 12)?;
    refuse_if(event == 0 || event > log.workers[i].count(), 13)?;
    Ok((log, i))
}
