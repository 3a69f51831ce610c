//! Prints the plan of breakpoint 0/2 of the tube log and steps through it to the end.
//!
//! `cargo run --example tube`

use restore_planner::{Advance, Breakpoint, Log, Refusal, Replay, UnitTable};

/// The tube log of document 01, packed.
const TUBE: &[u8] = include_bytes!("tube.log");

fn main() -> Result<(), Refusal> {
    let log = Log::new(TUBE)?;
    let at = Breakpoint {
        worker: 0,
        event: 2,
    };
    let plan = log.plan(at, &UnitTable::default())?;

    println!("breakpoint {at}");
    for (worker, entry) in plan.workers.iter().enumerate() {
        println!(
            "worker {worker}: cut {}, start {}, checkpoint {}",
            entry.cut, entry.start, entry.identifier
        );
    }
    let totals = plan.totals;
    println!(
        "visits {}, events {}, units {}",
        totals.visits, totals.events, totals.units
    );

    let mut replay = Replay::new(&log, &plan)?;
    println!("positions {:?}", replay.positions());
    println!("worker 0: {}", replay.step(0)?);
    let end = loop {
        match replay.advance()? {
            Advance::Stepped(worker) => {
                println!(
                    "worker {worker} made a step, positions {:?}",
                    replay.positions()
                );
            }
            end => break end,
        }
    };
    println!("{end:?}");
    if let Err(refusal) = replay.step(3) {
        println!("worker 3: {refusal}");
    }
    Ok(())
}
