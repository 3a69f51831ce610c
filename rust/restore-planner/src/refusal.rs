//! Why something was not accepted.

use std::error::Error;
use std::fmt;

/// Why a log or an argument was not accepted.
///
/// Of the conditions that apply, the one with the smallest number is given, where 24, 28, 26 and 25 count, in this order, as being
/// between 11 and 12. [`Refusal::number`] is the number of document 01; 24 is that of document 02, note 1, 25 and 26 are those of note 2,
/// 27 is that of note 7, and 28 is that of note 9.
#[derive(Clone, Copy, Debug, PartialEq, Eq, Hash)]
#[non_exhaustive]
pub enum Refusal {
    /// 1: the log is under 8 or over 4,194,304 bytes.
    LogLength,
    /// 2: the log's form is neither 1 nor 2.
    Form,
    /// 3: the log's worker count is outside 1 to 64.
    WorkerCount,
    /// 4: the log's length field is unlike its length, or its header is longer than the log.
    Header,
    /// 5: an event count, a checkpoint count or a role is over its limit.
    Limit,
    /// 6: the events or the checkpoints of a worker start inside the header or pass the log's end.
    Section,
    /// 7: an event's kind, peer, spare bytes or peer event is not as it should be.
    Record,
    /// 8: a stamp is 0 or not above the worker's previous one.
    Stamp,
    /// 9: a receive names an event that isn't a send to its worker.
    Source,
    /// 10: a receive's stamp is not above its send's.
    Order,
    /// 11: a checkpoint's index or identifier, in form 2 without the mark, is out of order.
    Checkpoint,
    /// 12: the worker number is not below the worker count.
    Worker,
    /// 13: the event is 0 or over the worker's event count.
    Event,
    /// 14: there are fewer words than the call reads or writes.
    Words,
    /// 15: the scratch has fewer than two words for each worker, or none where the log has one worker.
    Scratch,
    /// 16: a cut is over its worker's event count; for a step, some worker is without start ≤ position ≤ cut ≤ event count.
    Cut,
    /// 24: the log is of form 2, and two receives name one send. It is tested after 11 and before 12.
    Repeat,
    /// 25: there are fewer bytes than the packed log or the interval log has. It is tested after 26 and before 12.
    OutBytes,
    /// 26: the packed log or the interval log would have over 4,194,304 bytes. It is tested after 24, and after 28.
    PackedLength,
    /// 27: the unit table has other than 12 words, or a word outside 1 to 1,000. It is tested after 15.
    UnitTable,
    /// 28: two recorded checkpoints of a worker, not withdrawn, fall into one interval. It is tested after 24.
    Interval,
    /// A number that this library does not know.
    Unlisted(u32),
}

impl Refusal {
    /// The refusals by rising number, [`Refusal::Unlisted`] excepted.
    pub const LISTED: [Refusal; 21] = [
        Refusal::LogLength,
        Refusal::Form,
        Refusal::WorkerCount,
        Refusal::Header,
        Refusal::Limit,
        Refusal::Section,
        Refusal::Record,
        Refusal::Stamp,
        Refusal::Source,
        Refusal::Order,
        Refusal::Checkpoint,
        Refusal::Worker,
        Refusal::Event,
        Refusal::Words,
        Refusal::Scratch,
        Refusal::Cut,
        Refusal::Repeat,
        Refusal::OutBytes,
        Refusal::PackedLength,
        Refusal::UnitTable,
        Refusal::Interval,
    ];

    /// What the number of a call means, for numbers that come from [`calls`](crate::calls). A step's number has its own meanings:
    /// see [`Step::check`](crate::Step::check).
    ///
    /// # Errors
    ///
    /// The refusal of this number, where it is not 0.
    pub fn check(number: u32) -> Result<(), Refusal> {
        if number == 0 {
            return Ok(());
        }
        Err(Refusal::LISTED
            .into_iter()
            .find(|refusal| refusal.number() == number)
            .unwrap_or(Refusal::Unlisted(number)))
    }

    /// The number of document 01 or, for 24 to 28, of document 02.
    pub fn number(self) -> u32 {
        match self {
            Refusal::LogLength => 1,
            Refusal::Form => 2,
            Refusal::WorkerCount => 3,
            Refusal::Header => 4,
            Refusal::Limit => 5,
            Refusal::Section => 6,
            Refusal::Record => 7,
            Refusal::Stamp => 8,
            Refusal::Source => 9,
            Refusal::Order => 10,
            Refusal::Checkpoint => 11,
            Refusal::Worker => 12,
            Refusal::Event => 13,
            Refusal::Words => 14,
            Refusal::Scratch => 15,
            Refusal::Cut => 16,
            Refusal::Repeat => 24,
            Refusal::OutBytes => 25,
            Refusal::PackedLength => 26,
            Refusal::UnitTable => 27,
            Refusal::Interval => 28,
            Refusal::Unlisted(number) => number,
        }
    }

    fn sentence(self) -> &'static str {
        match self {
            Refusal::LogLength => "the log is shorter than 8 bytes or longer than 4,194,304",
            Refusal::Form => {
                "these bytes are not a log of form 1 or 2, one of which the first two bytes must give"
            }
            Refusal::WorkerCount => "the log's header gives no workers or more than 64",
            Refusal::Header => {
                "the log is cut off or has bytes too many: its header gives another length, or does not fit into the log"
            }
            Refusal::Limit => {
                "the log's header gives a worker more than 65,535 events, more than 1,024 checkpoints or a role above 3"
            }
            Refusal::Section => {
                "the log's header places the events or the checkpoints of a worker inside the header or past the log's end"
            }
            Refusal::Record => {
                "an event in the log is malformed: its kind is none of 1, 2 and 3, its spare bytes are not 0, its peer is not another \
                 worker of the log, or it is a send that names a peer's event or a receive that names none of the peer's"
            }
            Refusal::Stamp => {
                "the stamps of a worker's events do not rise: one is 0 or not above the one before it"
            }
            Refusal::Source => {
                "a receive in the log names an event that is not a send to the receiving worker"
            }
            Refusal::Order => {
                "a receive in the log has a stamp that is not above the stamp of its send"
            }
            Refusal::Checkpoint => {
                "a worker's checkpoints are out of order: one is past the worker's last event or before the previous checkpoint, \
                 or its identifier, in form 2 without the mark, is 0 or not above the previous one"
            }
            Refusal::Worker => "the log has no worker of this number; workers are numbered from 0",
            Refusal::Event => "the worker has no event of this number; events are numbered from 1",
            Refusal::Words => {
                "too few words were given; a cut has one for each worker of the log, a plan has one entry for each"
            }
            Refusal::Scratch => {
                "too little scratch was given; two words for each worker of the log are enough"
            }
            Refusal::Cut => {
                "a worker's cut is past its last event, or its position is not between its start and its cut"
            }
            Refusal::Repeat => {
                "two receives in the log name the same send, which a log of form 2 does not allow"
            }
            Refusal::OutBytes => "too few bytes were given for the packed log or the interval log",
            Refusal::PackedLength => {
                "the packed log or the interval log would be longer than 4,194,304 bytes, since sections of the log share bytes"
            }
            Refusal::UnitTable => {
                "the unit table has other than 12 words, or a word outside 1 to 1,000"
            }
            Refusal::Interval => {
                "two checkpoints of a worker, neither of them withdrawn, have no receive between them, so they fall into one interval"
            }
            Refusal::Unlisted(_) => {
                "the planner gave a number that this version of the library does not know"
            }
        }
    }
}

/// Prints what is wrong, and the number.
impl fmt::Display for Refusal {
    fn fmt(&self, f: &mut fmt::Formatter<'_>) -> fmt::Result {
        write!(f, "{} (refusal {})", self.sentence(), self.number())
    }
}

impl Error for Refusal {}
