//! Runs of terminals and a delivery runner: one after another on one thread, or a thread each.

use crate::engine::Engine;
use crate::journal::Purse;
use crate::money::{Cents, Moment};
use crate::request::{Reply, Request};
use crate::tables::Scale;
use crate::terminal::Terminal;
use std::sync::Mutex;
use std::thread;

// The serial program's runner asks no more often than this once the cards are dealt.
const MOST_LAST_RUNS: u32 = 100_000;

/// What a run is asked.
#[derive(Clone, Copy)]
pub struct Plan {
    pub terminals: u32,
    pub cards: u32,
    pub seed: u64,
    pub moment: Moment,
}

/// What the purses of a run came to.
pub struct Gathered {
    pub entries: u64,
    pub paid: Cents,
}

struct Seat {
    terminal: Terminal,
    purse: Purse,
}

impl Plan {
    fn seats(&self, scale: Scale) -> Vec<Seat> {
        let seat = |number| Seat { terminal: Terminal::new(number, scale, self.seed), purse: Purse::new(number) };
        (1..=self.terminals).map(seat).collect()
    }

    // The delivery runner is the terminal behind all others.
    fn runner(&self) -> Purse {
        Purse::new(self.terminals + 1)
    }
}

/// One card of each terminal and one delivery in turn, and then what is still queued.
pub fn serial(engine: &mut Engine, plan: &Plan) -> Gathered {
    let mut seats = plan.seats(engine.tables.scale);
    let mut runner = plan.runner();
    for _ in 0..plan.cards {
        for Seat { terminal, purse } in &mut seats {
            // A refusal is told to nobody here.
            let _ = engine.serve(terminal.next(plan.moment), purse);
        }
        deliver(engine, &mut runner, plan.moment);
    }
    run_last(engine, &mut runner, plan.moment, MOST_LAST_RUNS);
    gather(seats.into_iter().map(|seat| seat.purse).chain([runner]))
}

/// A thread for each terminal and for the delivery runner, and then what is still queued.
pub fn concurrent(engine: Engine, plan: &Plan) -> (Engine, Gathered) {
    let seats = plan.seats(engine.tables.scale);
    let mut runner = plan.runner();
    let engine = Mutex::new(engine);
    let lock = || engine.lock().unwrap_or_else(|poisoned| poisoned.into_inner());
    let ask = &|mut seat: Seat| {
        for _ in 0..plan.cards {
            let request = seat.terminal.next(plan.moment);
            let _ = lock().serve(request, &mut seat.purse);
        }
        seat.purse
    };
    let mut purses: Vec<Purse> = thread::scope(|scope| {
        let asked: Vec<_> = seats.into_iter().map(|seat| scope.spawn(move || ask(seat))).collect();
        for _ in 0..plan.cards {
            deliver(&mut lock(), &mut runner, plan.moment);
        }
        let purse = |thread: thread::ScopedJoinHandle<'_, Purse>| match thread.join() {
            Ok(purse) => purse,
            Err(panic) => std::panic::resume_unwind(panic),
        };
        asked.into_iter().map(purse).collect()
    });
    let mut engine = engine.into_inner().unwrap_or_else(|poisoned| poisoned.into_inner());
    run_last(&mut engine, &mut runner, plan.moment, u32::MAX);
    purses.push(runner);
    (engine, gather(purses.into_iter()))
}

// Whether a district was delivered or skipped.
fn deliver(engine: &mut Engine, runner: &mut Purse, moment: Moment) -> bool {
    matches!(engine.serve(Request::Deliver(moment), runner), Ok(Reply::Delivered(_)))
}

// Runs what is queued until nothing is, or a run is refused.
fn run_last(engine: &mut Engine, runner: &mut Purse, moment: Moment, most: u32) {
    for _ in 0..most {
        if !deliver(engine, runner, moment) {
            return;
        }
    }
}

fn gather(purses: impl Iterator<Item = Purse>) -> Gathered {
    let mut gathered = Gathered { entries: 0, paid: 0 };
    for purse in purses {
        gathered.entries += purse.entries;
        gathered.paid += purse.paid;
    }
    gathered
}
