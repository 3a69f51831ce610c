//! Refusal 24: two receives of one send.

use crate::log::{Event, Log, Worker};

/// Whether two receives of a log that 1 to 11 do not refuse name one send. Both are events of the worker that the send is to, so a
/// worker whose receives from each peer name rising sends has no such two.
pub(crate) fn some_send_received_twice(log: &Log) -> bool {
    let falling: Vec<&Worker> = log.workers.iter().filter(|w| !rises(w)).collect();
    !falling.is_empty() && some_named_twice(log, &falling)
}

/// The events that are gone through before it is asked whether something was found.
const BLOCK: usize = 128;

/// Whether the receives of a worker from each peer name rising sends. Without a branch on the kind, which is random in a run: a send
/// names event 0, which is taken to rise and changes nothing.
fn rises(worker: &Worker) -> bool {
    let mut last = [0; 256];
    worker.events.chunks(BLOCK).all(|block| {
        let mut falls = false;
        for event in block.iter().map(Event::of) {
            let named = &mut last[event.other()];
            falls |= event.send.wrapping_sub(1) < *named;
            *named = event.send.max(*named);
        }
        !falls
    })
}

/// Whether two receives of these workers name one send. One bit for each event of the log, and one more for each worker, which stands
/// for event 0: it is set by sends, which are no receives of it.
fn some_named_twice(log: &Log, receivers: &[&Worker]) -> bool {
    let mut first = [0; 256];
    let mut bits = 0;
    for (first, worker) in first.iter_mut().zip(&log.workers) {
        *first = bits;
        bits += worker.events.len() + 1;
    }
    let mut named = vec![0u64; bits / 64 + 1];
    receivers.iter().any(|receiver| {
        receiver.events.chunks(BLOCK).any(|block| {
            let mut twice = 0;
            for event in block.iter().map(Event::of) {
                let at = first[event.other()] + event.send as usize;
                let word = &mut named[at / 64];
                twice |= (*word >> (at % 64)) & u64::from(event.is_receive());
                *word |= 1 << (at % 64);
            }
            twice != 0
        })
    })
}
