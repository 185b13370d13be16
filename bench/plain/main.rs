//! The order-entry system of TPC Benchmark C in plain Rust: what the product is measured by and compared with.
//!
//! It is written from the documents of the repository and the standard, not from the product's code. README.md in this
//! folder has its words.

mod arguments;
mod check;
mod columns;
mod delivery;
mod draws;
mod dump;
mod engine;
mod fault;
mod generate;
mod grammar;
mod journal;
mod lines;
mod lookups;
mod money;
mod names;
mod new_order;
mod opening;
mod parts;
mod payment;
mod request;
mod rows;
mod runs;
mod screens;
mod script;
mod stream;
mod tables;
mod terminal;
mod text;

use arguments::{Arguments, Command};
use engine::Engine;
use fault::{Fault, ScriptFault};
use journal::Purse;
use parts::{put_parts, Ended, Part, Totals};
use script::run_script;
use std::io::sink;
use std::time::Instant;
use stream::{standard_input, standard_output, write_all};
use terminal::Terminal;

fn main() {
    // Words that are no text name nothing either.
    let words = std::env::args_os().skip(1).map(|word| word.to_string_lossy().into_owned());
    let status = match arguments::read(words).and_then(obey) {
        Ok(()) => 0,
        Err(fault) => {
            eprintln!("{fault}");
            fault.status()
        }
    };
    // Nothing is let go row by row: the process ends.
    std::process::exit(status);
}

fn obey(arguments: Arguments) -> Result<(), Fault> {
    match arguments.command {
        Command::Script => script(&arguments),
        Command::Dump(table) => {
            let engine = Engine::start(&arguments.opening);
            let mut output = standard_output().map_err(|_| Fault::DumpWrite)?;
            let written = dump::dump(&engine.tables, table, &mut output);
            std::mem::forget(engine);
            written.map_err(|_| Fault::DumpWrite)
        }
        Command::Serial | Command::Run => run(&arguments),
        Command::Requests => requests(&arguments),
        Command::Generate(kind, lines) => {
            let scale = arguments.opening.scale();
            write(&generate::script(kind, lines, scale, arguments.plan.seed)).map_err(|_| Fault::RunWrite)
        }
    }
}

// When the opening began and ended, and when the last request was answered.
struct Clock {
    begin: Instant,
    opened: Instant,
    ended: Instant,
}

// Fills the opening.
fn open(arguments: &Arguments) -> (Engine, Clock) {
    let begin = Instant::now();
    let engine = Engine::start(&arguments.opening);
    let opened = Instant::now();
    (engine, Clock { begin, opened, ended: opened })
}

// Tells what was asked for of a command that ended well.
fn tell(arguments: &Arguments, clock: &Clock, entries: u64) {
    if arguments.time {
        let seconds = (clock.ended - clock.opened).as_secs_f64();
        let rate = entries as f64 / seconds.max(1e-9);
        eprintln!("opening {:.3} s", (clock.opened - clock.begin).as_secs_f64());
        eprintln!("requests {entries} in {seconds:.3} s, {rate:.0} a second");
    }
}

fn script(arguments: &Arguments) -> Result<(), Fault> {
    let mut input = standard_input().map_err(|_| ScriptFault::Read)?;
    let mut output = standard_output().map_err(|_| ScriptFault::Write)?;
    let (mut engine, mut clock) = open(arguments);
    let opened = engine.tables.ytd();
    let mut purse = Purse::new(1);
    let mut screens = Vec::new();
    let ended = match arguments.parts.as_slice() {
        [] | [Part::Screens] => run_script(&mut input, &mut output, &mut engine, &mut purse),
        parts if parts.contains(&Part::Screens) => run_script(&mut input, &mut screens, &mut engine, &mut purse),
        _ => run_script(&mut input, &mut sink(), &mut engine, &mut purse),
    };
    clock.ended = Instant::now();
    if !matches!(arguments.parts.as_slice(), [] | [Part::Screens]) {
        let rise = engine.tables.ytd() - opened;
        let totals = Totals { entries: purse.entries, paid: purse.paid, rise };
        let mut out = Vec::new();
        put_parts(&mut out, &Ended { engine: &engine, totals, screens: Some(&screens) }, &arguments.parts);
        write(&out).map_err(|_| ScriptFault::Write)?;
    }
    std::mem::forget(engine);
    ended?;
    tell(arguments, &clock, purse.entries);
    Ok(())
}

fn run(arguments: &Arguments) -> Result<(), Fault> {
    let (mut engine, mut clock) = open(arguments);
    let opened = engine.tables.ytd();
    let (engine, gathered) = match arguments.command {
        Command::Serial => {
            let gathered = runs::serial(&mut engine, &arguments.plan);
            (engine, gathered)
        }
        _ => runs::concurrent(engine, &arguments.plan),
    };
    clock.ended = Instant::now();
    let rise = engine.tables.ytd() - opened;
    let totals = Totals { entries: gathered.entries, paid: gathered.paid, rise };
    if !engine.journal.settles(totals.entries, totals.paid) || totals.paid != rise {
        return Err(Fault::Missing);
    }
    report(arguments, &engine, totals)?;
    tell(arguments, &clock, totals.entries);
    if arguments.time && matches!(arguments.command, Command::Serial) {
        eprintln!("journal {} bytes an entry", engine.journal.bytes() as u64 / totals.entries.max(1));
    }
    std::mem::forget(engine);
    Ok(())
}

// The report goes to standard error where other parts are shown.
fn report(arguments: &Arguments, engine: &Engine, totals: Totals) -> Result<(), Fault> {
    let parts = match arguments.parts.as_slice() {
        [] => &[Part::Report],
        parts => parts,
    };
    let ended = Ended { engine, totals, screens: None };
    let mut out = Vec::new();
    put_parts(&mut out, &ended, parts);
    write(&out).map_err(|_| Fault::RunWrite)?;
    if !parts.contains(&Part::Report) {
        let mut told = Vec::new();
        put_parts(&mut told, &ended, &[Part::Report]);
        eprint!("{}", String::from_utf8_lossy(&told));
    }
    Ok(())
}

// The requests of one terminal need no rows.
fn requests(arguments: &Arguments) -> Result<(), Fault> {
    let plan = &arguments.plan;
    let mut terminal = Terminal::new(plan.terminals, arguments.opening.scale(), plan.seed);
    let mut out = Vec::new();
    for _ in 0..plan.cards {
        lines::put_line(&mut out, &terminal.next(plan.moment));
    }
    write(&out).map_err(|_| Fault::DumpWrite)
}

fn write(bytes: &[u8]) -> std::io::Result<()> {
    standard_output().and_then(|mut output| write_all(&mut output, bytes))
}
